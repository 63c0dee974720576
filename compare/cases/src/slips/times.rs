//! Slips in how times are read and corrected.

use crate::cast::*;
use crate::record::End;
use crate::script::Script;
use crate::Case;

pub fn all() -> Vec<Case> {
    vec![
        sync_corrections(),
        delay_corrections(),
        peer_corrections(),
        event_times(),
        wire_nanoseconds(),
        wire_seconds(),
    ]
}

fn sync_corrections() -> Case {
    let mut s = Script::new(end_to_end(0));
    s.slave(MASTER).nothing();
    let (c, d) = (correction(30) + 5, correction(7) + 3);
    s.event(
        units(10_000) + 0x0123_4567,
        &two_step_sync(11).with_correction(c),
    )
    .nothing();
    // Received at 9970 ns and 0x01234567 - 5 steps, sent at 9007 ns and 3 steps.
    s.general(&follow_up(11).with_ns(9_000).with_correction(d))
        .sync(
            duration(963) + 0x011B_4567,
            units(9_970) + 0x011E_4567,
            None,
        );
    s.event(units(10_000), &two_step_sync(12).with_correction(-c))
        .nothing();
    // Received at 10030 ns and 5 steps, sent at 8993 ns less 3 steps.
    s.general(&follow_up(12).with_ns(9_000).with_correction(-d))
        .sync(duration(1_037) + 8 * 65_536, units(10_030) + 5 * STEP, None);
    // One-step: the correction works on the receive time alone.
    s.event(units(10_000), &sync(13).with_ns(9_000).with_correction(c))
        .sync(duration(970) - 5 * 65_536, units(9_970) - 5 * STEP, None);
    s.end(
        "slip-sync-correction-signs",
        "A Sync's correction is taken off the receive time and a FollowUp's added to the send \
         time; each swapped sign moves the raw by twice its correction.",
        End::slave(MASTER).raw(duration(970) - 5 * 65_536),
    )
}

fn delay_corrections() -> Case {
    let mut s = Script::new(end_to_end(0));
    s.slave(MASTER).nothing();
    for (id, sign) in [(0, 1), (1, -1)] {
        s.request_delay(id);
        s.stamp(units(3_100) + 9, Context::DelayReq(id)).nothing();
        // Received at 3000 ns less (or plus) 20 ns and one step.
        let raw = duration(100) + 9 + i128::from(sign) * (duration(20) + 65_536);
        let c = sign * (correction(20) + 1);
        s.general(&delay_resp(id).with_ns(3_000).with_correction(c))
            .delay(raw, units(3_100) + 9, None);
    }
    s.end(
        "slip-delay-correction-sign",
        "A DelayResp's correction is taken off its timestamp; added, the raw comes out 40 ns and \
         two steps off.",
        End::slave(MASTER).ids(0, 2, 0),
    )
}

fn peer_corrections() -> Case {
    let mut s = Script::new(peer(0));
    // ((1950 - 1000) - (5108 - 5000)) / 2 and ((2050 - 1000) - (5092 - 5000)) / 2.
    for (id, sign, value, back) in [(0, 1, 421, 1_950), (1, -1, 479, 2_050)] {
        s.request_peer(id);
        s.stamp(units(1_000), Context::PDelayReq(id)).nothing();
        let c = correction(50) * sign;
        let message = two_step_response(id).with_ns(5_000).with_correction(c);
        s.event(units(2_000), &message).nothing();
        let message = response_follow_up(id).with_ns(5_100);
        s.general(&message.with_correction(correction(8) * sign))
            .peer(duration(value), units(back));
    }
    s.end(
        "slip-peer-correction-signs",
        "A response's correction is taken off its receive time, its follow-up's added to the send \
         time; without either 450 ns come out.",
        End::listening().done(1, PEER).ids(0, 0, 2),
    )
}

fn event_times() -> Case {
    let mut s = Script::new(end_to_end(duration(3)));
    s.slave(MASTER).nothing();
    let c = correction(-2) - 0x1234;
    s.event(units(600), &sync(1).with_ns(500).with_correction(c))
        .sync(duration(99) + 0x1234_0000, units(602) + 0x1234_0000, None);
    s.request_delay(0);
    s.general(&delay_resp(0).with_ns(700).with_correction(c))
        .nothing();
    // Sent at 650 ns, received at 702 ns and 0x1234 steps, asymmetry 3 ns: half of
    // (99 + 55) ns and 0x2468 steps.
    s.stamp(units(650), Context::DelayReq(0)).delay(
        -duration(55) - 0x1234_0000,
        units(650),
        Some(duration(77) + 0x1234_0000),
    );
    s.end(
        "slip-event-time-uncorrected",
        "A sync's event time is its corrected receive time and a delay's its send time, without \
         asymmetry; wrong ones show the arrival.",
        End::slave(MASTER)
            .raw(duration(99) + 0x1234_0000)
            .ids(0, 1, 0),
    )
}

fn wire_nanoseconds() -> Case {
    let mut s = Script::new(end_to_end(0));
    s.slave(MASTER).nothing();
    let at = units(5_294_967_300);
    s.event(at, &two_step_sync(1)).nothing();
    s.general(&follow_up(1).with_timestamp(1, u32::MAX))
        .sync(duration(5), at, None);
    s.event(at, &sync(2).with_timestamp(3, 2_294_967_200))
        .sync(duration(100), at, None);
    s.request_delay(0);
    s.stamp(at, Context::DelayReq(0)).nothing();
    s.general(&delay_resp(0).with_timestamp(4, 1_000_000_000))
        .delay(duration(294_967_300), at, Some(-duration(147_483_600)));
    s.end(
        "slip-nanoseconds-of-a-second-or-more",
        "A nanoseconds field above 999,999,999 adds what it says; a wrong port refuses it or takes \
         the remainder.",
        End::slave(MASTER).raw(duration(100)).ids(0, 1, 0),
    )
}

fn wire_seconds() -> Case {
    let mut s = Script::new(end_to_end(0));
    s.slave(MASTER).nothing();
    let at = units(0xA1B2_C3D4_E5F6 * 1_000_000_000 + 0x0789_0123);
    s.event(at, &two_step_sync(1)).nothing();
    s.general(&follow_up(1).with_timestamp(0xA1B2_C3D4_E5F6, 0x0789_0120))
        .sync(duration(3), at, None);
    s.event(at, &two_step_sync(2)).nothing();
    s.general(&follow_up(2).with_timestamp(0xA1B2_C3D4_E5F5, 0x0789_0123))
        .sync(duration(1_000_000_000), at, None);
    // The lowest correction but one, and the highest: 2^63 - 1 steps each.
    let far = (1 << 79) - 65_536;
    s.event(at, &two_step_sync(3).with_correction(-i64::MAX))
        .nothing();
    let message = follow_up(3).with_timestamp(0xA1B2_C3D4_E5F6, 0x0789_0123);
    s.general(&message.with_correction(i64::MAX))
        .sync(0, at + far, None);
    s.end(
        "slip-wire-widths",
        "Seconds have 48 bits and corrections 64 with a sign; cut or unsigned ones give other \
         raws.",
        End::slave(MASTER).raw(0),
    )
}
