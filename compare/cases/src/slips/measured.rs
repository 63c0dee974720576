//! Slips in what is worked out from the times.

use crate::cast::*;
use crate::record::End;
use crate::script::Script;
use crate::Case;

pub fn all() -> Vec<Case> {
    vec![
        one_step_response(),
        halving(),
        asymmetry(),
        asymmetry_of_peer(),
        delay_sign(),
        newest_mean(),
        raw_not_offset(),
        raw_of_sync_only(),
        peer_is_not_mean(),
    ]
}

fn one_step_response() -> Case {
    let mut s = Script::new(peer(0));
    s.request_peer(0);
    s.stamp(units(10_000) + 0x9000_0001, Context::PDelayReq(0))
        .nothing();
    // 500 ns and 4 units under way, nothing at the peer, whatever its clock says.
    let back = units(10_500) + 0x9000_0005;
    s.event(back, &response(0).with_ns(7_777))
        .peer(duration(250) + 2, back);
    s.request_peer(1);
    s.event(units(20_300), &response(1).with_timestamp(3, 5))
        .nothing();
    s.stamp(units(20_000), Context::PDelayReq(1))
        .peer(duration(150), units(20_300));
    // Left open, so that both of the peer's times show.
    s.request_peer(2);
    let message = response(2).with_ns(8_888).with_correction(-3);
    s.event(units(30_000) + 5, &message).nothing();
    let at_peer = Some(units(8_888));
    let back = Some(units(30_000) + 5 + 3 * STEP);
    s.end(
        "slip-one-step-response-send-zero",
        "First slip of 01: a one-step response has its send time equal to its request's; with zero \
         the delay is off by half the peer's clock.",
        End::listening()
            .open(2, Some(PEER), [None, at_peer, at_peer, back])
            .ids(0, 0, 3),
    )
}

fn halving() -> Case {
    let mut s = Script::new(peer(0));
    s.request_peer(0);
    // Back before it left by 2^40 + 1 units; the odd one drops.
    s.stamp(units(5_000), Context::PDelayReq(0)).nothing();
    let back = units(5_000) - (1 << 40) - 1;
    s.event(back, &response(0)).peer(-(1 << 39), back);
    // (-200 ns) - (100 ns and 3 steps) is even; one unit less is odd.
    let half = -duration(150) - 3 * 32_768;
    for (id, less) in [(1, 0), (2, 1)] {
        s.request_peer(id);
        s.stamp(units(9_200) + less, Context::PDelayReq(id))
            .nothing();
        s.general(&response_follow_up(id).with_ns(400).with_correction(3))
            .nothing();
        s.event(units(9_000), &two_step_response(id).with_ns(300))
            .peer(half, units(9_000));
    }
    s.end(
        "slip-halving-floors",
        "Second slip of 01: halving by a shift goes down, so odd negative differences come out one \
         unit too low.",
        End::listening().done(2, PEER).ids(0, 0, 3),
    )
}

fn asymmetry() -> Case {
    let mut s = Script::new(end_to_end(-duration(25) - 3));
    s.slave(MASTER).nothing();
    s.event(units(400), &sync(9).with_ns(100))
        .sync(duration(325) + 3, units(400), None);
    s.request_delay(0);
    s.stamp(units(900), Context::DelayReq(0)).nothing();
    s.general(&delay_resp(0).with_ns(1_000)).delay(
        -duration(75) + 3,
        units(900),
        Some(duration(200)),
    );
    s.end(
        "slip-asymmetry-sign",
        "Both raws are less the (here negative) asymmetry; not taken off, added, or taken off one \
         of them gives other raws or another delay.",
        End::slave(MASTER).raw(duration(325) + 3).ids(0, 1, 0),
    )
}

fn asymmetry_of_peer() -> Case {
    let mut s = Script::new(peer(duration(17)));
    s.slave(MASTER).nothing();
    s.request_peer(0);
    s.stamp(units(100), Context::PDelayReq(0)).nothing();
    s.event(units(300), &response(0).with_ns(5))
        .peer(duration(100), units(300));
    s.event(units(500), &sync(2).with_ns(450))
        .sync(duration(33), units(500), None);
    s.end(
        "slip-asymmetry-in-peer-delay",
        "The peer delay knows no asymmetry, the sync of the same port does; taken off, 91.5 or 83 \
         ns come out.",
        End::slave(MASTER)
            .raw(duration(33))
            .done(0, PEER)
            .ids(0, 0, 1),
    )
}

fn delay_sign() -> Case {
    let mut s = Script::new(end_to_end(0));
    s.slave(MASTER).nothing();
    s.event(units(1_090), &sync(3).with_ns(1_000))
        .sync(duration(90), units(1_090), None);
    s.request_delay(0);
    s.stamp(units(2_000), Context::DelayReq(0)).nothing();
    // 2000 - 2030 = -30; half of 90 - -30.
    s.general(&delay_resp(0).with_ns(2_030))
        .delay(-duration(30), units(2_000), Some(duration(60)));
    s.request_delay(1);
    s.stamp(units(3_000), Context::DelayReq(1)).nothing();
    // 3000 - 2800 = 200; half of 90 - 200.
    s.general(&delay_resp(1).with_ns(2_800)).delay(
        duration(200),
        units(3_000),
        Some(-duration(55)),
    );
    s.end(
        "slip-delay-sign",
        "The delay is half of sync raw less delay raw; other signs give -60, 30, 55 or 145 ns.",
        End::slave(MASTER).raw(duration(90)).ids(0, 2, 0),
    )
}

fn newest_mean() -> Case {
    let mut s = Script::new(end_to_end(duration(2)));
    s.slave(MASTER).nothing();
    s.event(units(200), &sync(1).with_ns(100))
        .sync(duration(98), units(200), None);
    s.mean(duration(10));
    s.event(units(300), &two_step_sync(2)).nothing();
    // Between the two halves: the mean at the time of the measurement counts.
    s.mean(-duration(25) - 1);
    s.general(&follow_up(2).with_ns(250))
        .sync(duration(48), units(300), Some(duration(73) + 1));
    s.filter(None, Some(5)).filter_timer(5);
    s.event(units(400), &sync(3).with_ns(399)).sync(
        -duration(1),
        units(400),
        Some(duration(24) + 1),
    );
    s.mean(0);
    s.event(units(500), &sync(4).with_ns(450))
        .sync(duration(48), units(500), Some(duration(48)));
    s.end(
        "slip-old-mean",
        "The offset takes the mean delay stored last, and a mean of 0 is one; with an old one 38 \
         ns come out.",
        End::slave(MASTER).raw(duration(48)).mean(0),
    )
}

fn raw_not_offset() -> Case {
    let mut s = Script::new(end_to_end(0));
    s.mean(duration(30));
    s.slave(MASTER).nothing();
    s.event(units(700), &sync(1).with_ns(600))
        .sync(duration(100), units(700), Some(duration(70)));
    s.request_delay(0);
    s.stamp(units(800), Context::DelayReq(0)).nothing();
    s.general(&delay_resp(0).with_ns(760))
        .delay(duration(40), units(800), Some(duration(30)));
    s.end(
        "slip-offset-kept",
        "What is kept for the delay is the raw, not the offset; with the offset the delay is 15 \
         ns.",
        End::slave(MASTER)
            .raw(duration(100))
            .mean(duration(30))
            .ids(0, 1, 0),
    )
}

fn raw_of_sync_only() -> Case {
    let mut s = Script::new(end_to_end(0));
    s.slave(MASTER).nothing();
    s.request_delay(0);
    s.stamp(units(800), Context::DelayReq(0)).nothing();
    s.general(&delay_resp(0).with_ns(760))
        .delay(duration(40), units(800), None);
    s.request_delay(1);
    s.stamp(units(900), Context::DelayReq(1)).nothing();
    s.general(&delay_resp(1).with_ns(800))
        .delay(duration(100), units(900), None);
    s.event(units(700), &sync(1).with_ns(600))
        .sync(duration(100), units(700), None);
    for id in [2, 3] {
        s.request_delay(id);
        s.stamp(units(900), Context::DelayReq(id)).nothing();
        s.general(&delay_resp(id).with_ns(880))
            .delay(duration(20), units(900), Some(duration(40)));
    }
    s.end(
        "slip-delay-raw-kept",
        "A delay's raw is never kept as the last sync raw, and using that one does not use it up; \
         else the second delay is -30 ns or the fourth is missing.",
        End::slave(MASTER).raw(duration(100)).ids(0, 4, 0),
    )
}

fn peer_is_not_mean() -> Case {
    let mut s = Script::new(peer(0));
    s.slave(MASTER).nothing();
    s.request_peer(0);
    s.stamp(units(100), Context::PDelayReq(0)).nothing();
    s.event(units(300), &response(0))
        .peer(duration(100), units(300));
    s.event(units(500), &sync(2).with_ns(450))
        .sync(duration(50), units(500), None);
    s.mean(duration(100) - 1);
    s.event(units(600), &sync(3).with_ns(550)).sync(
        duration(50),
        units(600),
        Some(1 - duration(50)),
    );
    s.end(
        "slip-peer-delay-as-mean",
        "A peer delay is returned, not stored: only the filter's answer sets the mean; else the \
         first offset is -50 ns.",
        End::slave(MASTER)
            .raw(duration(50))
            .done(0, PEER)
            .mean(duration(100) - 1)
            .ids(0, 0, 1),
    )
}
