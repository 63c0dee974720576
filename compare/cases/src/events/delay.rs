//! The end-to-end request, its stamp and its DelayResp.

use super::{slave, ROUND};
use crate::cast::*;
use crate::record::End;
use crate::script::Script;
use crate::Case;

pub fn all() -> Vec<Case> {
    vec![
        both_orders(),
        wrong_answers(),
        first_receive_time(),
        first_stamp(),
        wrong_stamps(),
        new_request(),
        not_slave_any_more(),
        latest_raw(),
        under_peer(),
    ]
}

fn both_orders() -> Case {
    let mut s = slave();
    for (id, base) in [(0, 1_000), (2, 5_000)] {
        s.request_delay(id);
        s.stamp(units(base) + 11, Context::DelayReq(id)).nothing();
        s.general(&delay_resp(id).with_ns(950)).delay(
            duration(base as i128 - 950) + 11,
            units(base) + 11,
            None,
        );
        s.request_delay(id + 1);
        s.general(&delay_resp(id + 1).with_ns(960)).nothing();
        s.stamp(units(base) + 12, Context::DelayReq(id + 1)).delay(
            duration(base as i128 - 960) + 12,
            units(base) + 12,
            None,
        );
    }
    s.end(
        "delay-both-orders",
        "Stamp and DelayResp come in either order, again and again; a port that wants the stamp \
         first measures half of them.",
        End::slave(MASTER).ids(0, 4, 0),
    )
}

fn wrong_answers() -> Case {
    let mut s = slave();
    s.general(&delay_resp(0).with_ns(90)).nothing();
    s.request_delay(0);
    s.stamp(units(100), Context::DelayReq(0)).nothing();
    for byte in 0..10 {
        s.general(&delay_resp(0).with_requester(near(US, byte)))
            .nothing();
        s.general(&by(near(MASTER, byte), delay_resp(0))).nothing();
    }
    for id in [1, 0x0100, 65_535] {
        s.general(&delay_resp(id)).nothing();
    }
    s.general(&delay_resp(0).with_ns(90))
        .delay(duration(10), units(100), None);
    s.end(
        "delay-resp-guards",
        "A DelayResp counts only to us, from our master and with the open id, by every byte; a \
         laxer port measures 100 ns.",
        End::slave(MASTER).ids(0, 1, 0),
    )
}

fn first_receive_time() -> Case {
    let mut s = slave();
    s.request_delay(0);
    s.general(&delay_resp(0).with_ns(90)).nothing();
    s.general(&delay_resp(0).with_ns(95)).nothing();
    s.general(&delay_resp(0).with_ns(80).with_correction(3))
        .nothing();
    s.stamp(units(100), Context::DelayReq(0))
        .delay(duration(10), units(100), None);
    s.general(&delay_resp(0).with_ns(95)).nothing();
    s.end(
        "delay-resp-first-receive-time",
        "A second DelayResp does nothing, before the stamp and after the measurement; the last one \
         would give 20 ns.",
        End::slave(MASTER).ids(0, 1, 0),
    )
}

fn first_stamp() -> Case {
    let mut s = slave();
    s.request_delay(0);
    s.stamp(units(100), Context::DelayReq(0)).nothing();
    s.stamp(units(120), Context::DelayReq(0)).nothing();
    s.general(&delay_resp(0).with_ns(90))
        .delay(duration(10), units(100), None);
    s.stamp(units(140), Context::DelayReq(0)).nothing();
    s.request_delay(1);
    s.stamp(0, Context::DelayReq(1)).nothing();
    s.stamp(units(150), Context::DelayReq(1)).nothing();
    s.end(
        "delay-first-stamp",
        "A stamp fills the request only if it is empty, and a stamp of 0 fills it too; the second \
         would give 30 ns.",
        End::slave(MASTER).delay(1, Some(0), None).ids(0, 2, 0),
    )
}

fn wrong_stamps() -> Case {
    let mut s = slave();
    s.stamp(units(50), Context::DelayReq(0)).nothing();
    s.request_delay(0);
    s.request_delay(1);
    s.general(&delay_resp(1).with_ns(90)).nothing();
    for context in [
        Context::DelayReq(0),
        Context::DelayReq(2),
        Context::DelayReq(0x0101),
        Context::PDelayReq(1),
        Context::Sync(1),
    ] {
        s.stamp(units(100), context).nothing();
    }
    s.stamp(units(100), Context::PDelayResp(1, US))
        .sends(&sent(10, 1).with_ns(100).with_requester(US), "general:link");
    s.stamp(units(110), Context::DelayReq(1))
        .delay(duration(20), units(110), None);
    s.end(
        "delay-wrong-stamps",
        "Only a DelayReq stamp with the open id fills the delay request; a port that goes by the \
         id alone measures 10 ns.",
        End::slave(MASTER).ids(0, 2, 0),
    )
}

fn new_request() -> Case {
    let mut s = slave();
    s.request_delay(0);
    s.stamp(units(100), Context::DelayReq(0)).nothing();
    s.request_delay(1);
    s.general(&delay_resp(0).with_ns(90)).nothing();
    s.general(&delay_resp(1).with_ns(190)).nothing();
    s.request_delay(2);
    s.stamp(units(200), Context::DelayReq(1)).nothing();
    s.stamp(units(300), Context::DelayReq(2)).nothing();
    s.end(
        "delay-new-request-replaces",
        "A new request replaces the open one with whatever it holds; a port that keeps the old \
         times measures.",
        End::slave(MASTER)
            .delay(2, Some(units(300)), None)
            .ids(0, 3, 0),
    )
}

fn not_slave_any_more() -> Case {
    let mut s = slave();
    s.request_delay(0);
    s.stamp(units(100), Context::DelayReq(0)).nothing();
    for (state, reset) in [
        (NewState::Listening, true),
        (NewState::Master, false),
        (NewState::Passive, false),
        (NewState::Faulty, true),
        (NewState::Slave(MASTER), true),
    ] {
        s.set(state).resets(reset);
        s.general(&delay_resp(0).with_ns(90)).nothing();
        s.stamp(units(100), Context::DelayReq(0)).nothing();
    }
    s.request_delay(1);
    s.stamp(units(200), Context::DelayReq(1)).nothing();
    s.general(&delay_resp(1).with_ns(170))
        .delay(duration(30), units(200), None);
    s.end(
        "delay-lost-with-slave",
        "The delay exchange goes with the Slave and does not come back with the next one, while \
         the ids go on; a port that keeps it measures 10 ns.",
        End::slave(MASTER).ids(0, 2, 0),
    )
}

fn latest_raw() -> Case {
    let mut s = slave();
    s.event(units(90), &sync(1).with_ns(20))
        .sync(duration(70), units(90), None);
    s.request_delay(0);
    s.general(&delay_resp(0).with_ns(90)).nothing();
    // Between the two halves of the delay, a new raw.
    s.event(units(95), &sync(2).with_ns(15))
        .sync(duration(80), units(95), None);
    s.stamp(units(100), Context::DelayReq(0))
        .delay(duration(10), units(100), Some(duration(35)));
    s.request_delay(1);
    s.stamp(units(100), Context::DelayReq(1)).nothing();
    // An open sync is no raw yet.
    s.event(units(99), &two_step_sync(3)).nothing();
    s.general(&delay_resp(1).with_ns(105))
        .delay(-duration(5), units(100), Some(85 << 31));
    s.end(
        "delay-latest-raw",
        "The delay takes the raw that is kept when it is measured; the older one would give 30 ns.",
        End::slave(MASTER)
            .sync(3, None, Some(units(99)))
            .raw(duration(80))
            .ids(0, 2, 0),
    )
}

fn under_peer() -> Case {
    let mut s = Script::new(peer(0));
    for (state, reset) in ROUND {
        s.set(state).resets(reset);
        s.general(&delay_resp(0).with_ns(90)).nothing();
        s.stamp(units(100), Context::DelayReq(0)).nothing();
    }
    s.slave(MASTER).reset();
    s.request_peer(0);
    s.general(&delay_resp(0).with_ns(90)).nothing();
    s.stamp(units(100), Context::DelayReq(0)).nothing();
    s.general(&delay_resp(0).with_ns(90)).nothing();
    s.end(
        "delay-under-peer",
        "Under the peer mechanism the timer opens no delay exchange; a port that opens both \
         measures 10 ns.",
        End::slave(MASTER).open(0, None, [None; 4]).ids(0, 0, 1),
    )
}
