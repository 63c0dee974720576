//! Slips in what is sent.

use crate::cast::*;
use crate::record::End;
use crate::script::Script;
use crate::Case;

pub fn all() -> Vec<Case> {
    vec![
        cut(),
        subtracted(),
        intervals(),
        negative_interval(),
        requesters(),
        links(),
        nothing_copied(),
        receive_time_sent(),
    ]
}

/// A FollowUp, a PDelayRespFollowUp, a DelayResp and a PDelayResp in one order.
fn all_four(s: &mut Script, at: u128, id: u16, stamp: (u64, u32), c: i64, f: i64) {
    let (seconds, nanoseconds) = stamp;
    let timed = |kind: u8, correction| {
        sent(kind, id)
            .with_timestamp(seconds, nanoseconds)
            .with_correction(correction)
    };
    s.stamp(at, Context::Sync(id))
        .sends(&timed(8, f), "general");
    s.stamp(at, Context::PDelayResp(id, CLIENT))
        .sends(&timed(10, f).with_requester(CLIENT), "general:link");
    s.event(at, &delay_req(id).with_correction(c))
        .sends(&timed(9, c - f).with_requester(CLIENT), "general");
    s.event(at, &pdelay_req(id).with_correction(c)).sends(
        &timed(3, c - f).with_requester(CLIENT),
        &answers_peer(id, CLIENT),
    );
}

fn cut() -> Case {
    let mut s = Script::new(end_to_end(0));
    s.set(NewState::Master).nothing();
    for (id, fraction, f) in [
        (1, 0xFFFF_FFFF, 0xFFFF),
        (2, 0x0000_8000, 0),
        (3, 0x0000_FFFF, 0),
        (4, 0x0001_0000, 1),
        (5, 0x1234_8000, 0x1234),
        (6, 0x8000_0000, 0x8000),
    ] {
        let at = units(1_999_999_999) + fraction;
        all_four(&mut s, at, id, (1, 999_999_999), 7, f);
    }
    s.end(
        "slip-fraction-rounded",
        "f is cut to 16 bits and never negative; rounded, 0xFFFFFFFF carries into the nanoseconds \
         and 0x12348000 becomes 0x1235.",
        End::master(),
    )
}

fn subtracted() -> Case {
    let mut s = Script::new(end_to_end(0));
    s.set(NewState::Master).nothing();
    let at = units(5_000_000_123) + 0x4321_FEDC;
    // 0x50000 - 0x4321 = 0x4BCDF and -0x50000 - 0x4321 = -0x54321.
    for (id, c, less) in [(0x0102, 0x5_0000, 0x4_BCDF), (0x0304, -0x5_0000, -0x5_4321)] {
        let timed = |kind| sent(kind, id).with_timestamp(5, 123).with_requester(CLIENT);
        s.event(at, &delay_req(id).with_correction(c))
            .sends(&timed(9).with_correction(less), "general");
        s.event(at, &pdelay_req(id).with_correction(c))
            .sends(&timed(3).with_correction(less), &answers_peer(id, CLIENT));
    }
    all_four(&mut s, at, 0x0506, (5, 123), 0, 0x4321);
    s.end(
        "slip-fraction-added",
        "DelayResp and PDelayResp carry the request's correction less f, the two follow-ups f \
         itself; each other sign shows in the packet.",
        End::master(),
    )
}

/// With byte 33 spelled out.
fn stating(interval: u8, message: Message) -> Message {
    Message {
        interval,
        ..message
    }
}

fn intervals() -> Case {
    let mut s = Script::new(peer(0));
    s.set(NewState::Master).nothing();
    let to_client = |interval, kind| stating(interval, sent(kind, 0)).with_requester(CLIENT);
    s.sync_timer().sends(
        &stating(0x02, sent(0, 0)),
        "sync-timer:4000000000,event:0:0",
    );
    s.stamp(0, Context::Sync(0))
        .sends(&stating(0x02, sent(8, 0)), "general");
    s.event(0, &delay_req(0))
        .sends(&to_client(0xFD, 9), "general");
    s.delay_timer(MIDDLE).sends(
        &stating(0x7F, sent(2, 0)),
        "delay-timer:125000000,event:2:0:link",
    );
    s.event(0, &pdelay_req(0))
        .sends(&to_client(0x7F, 3), &answers_peer(0, CLIENT));
    s.stamp(0, Context::PDelayResp(0, CLIENT))
        .sends(&to_client(0x7F, 10), "general:link");
    s.end(
        "slip-interval-in-wrong-message",
        "The sync interval goes into Sync and FollowUp, the delay interval into DelayResp, 0x7F \
         into the rest; swapped or left out it shows in byte 33.",
        End::master().open(0, None, [None; 4]).ids(1, 0, 1),
    )
}

fn negative_interval() -> Case {
    let config = Config {
        delay_interval: 1,
        sync_interval: -5,
        ..end_to_end(0)
    };
    let mut s = Script::new(config);
    s.set(NewState::Master).nothing();
    // 10^9 / 32.
    s.sync_timer()
        .sends(&stating(0xFB, sent(0, 0)), "sync-timer:31250000,event:0:0");
    s.event(0, &delay_req(9))
        .sends(&stating(0x01, sent(9, 9)).with_requester(CLIENT), "general");
    s.slave(MASTER).nothing();
    s.delay_timer(MIDDLE).sends(
        &stating(0x7F, sent(1, 0)),
        "delay-timer:2000000000,event:1:0",
    );
    s.end(
        "slip-interval-sign",
        "A sync interval of -5 is 31.25 ms and byte 0xFB, while the delay interval is 1; one used \
         for both, or without its sign, shows.",
        End::slave(MASTER).delay(0, None, None).ids(1, 1, 0),
    )
}

fn requesters() -> Case {
    let mut s = Script::new(peer(0));
    s.set(NewState::Master).nothing();
    s.send_sync(0);
    s.request_peer(0);
    for (id, who) in [(0xBEEF, CLIENT), (0x0001, RIVAL), (0xFFFF, near(US, 9))] {
        let answer = |kind| sent(kind, id).with_ns(77).with_requester(who);
        s.event(units(77), &by(who, delay_req(id)))
            .sends(&answer(9), "general");
        s.event(units(77), &by(who, pdelay_req(id)))
            .sends(&answer(3), &answers_peer(id, who));
        s.stamp(units(77), Context::PDelayResp(id, who))
            .sends(&answer(10), "general:link");
    }
    s.send_sync(1);
    s.request_peer(1);
    s.end(
        "slip-requester-and-id-of-answers",
        "Answers name the request's source and carry its id, and use up none of our own; other ids \
         or our identity show in bytes 30 and 44.",
        End::master().open(1, None, [None; 4]).ids(2, 0, 2),
    )
}

fn links() -> Case {
    let mut s = Script::new(end_to_end(0));
    s.set(NewState::Master).nothing();
    s.send_sync(0);
    all_four(&mut s, units(8), 3, (0, 8), 0, 0);
    s.slave(MASTER).nothing();
    s.request_delay(0);
    s.event(units(8), &pdelay_req(4)).answers(3, 4, 8);
    s.stamp(units(8), Context::PDelayResp(4, CLIENT))
        .answers(10, 4, 8);
    s.end(
        "slip-link-local",
        "Peer messages are link-local even under end-to-end, all others are not; a flag taken from \
         the mechanism shows.",
        End::slave(MASTER).delay(0, None, None).ids(1, 1, 0),
    )
}

fn nothing_copied() -> Case {
    let mut s = Script::new(end_to_end(0));
    s.set(NewState::Master).nothing();
    let odd = |request: Message| Message {
        minor: 0xE,
        flags: 0xFFFF,
        control: 0x77,
        interval: 0x33,
        reserved: [0xDE, 0xAD, 0xBE, 0xEF],
        requester: RIVAL,
        ..request.with_timestamp(0x0102_0304_0506, 0x0708_090A)
    };
    s.event(units(21), &odd(delay_req(5))).answers(9, 5, 21);
    s.event(units(22), &odd(pdelay_req(6))).answers(3, 6, 22);
    s.end(
        "slip-request-header-copied",
        "An answer's header is our own: minor version, flags, control, interval, reserved bytes \
         and origin time of the request go nowhere.",
        End::master(),
    )
}

fn receive_time_sent() -> Case {
    let mut s = Script::new(end_to_end(0));
    s.set(NewState::Master).nothing();
    // Distinct bytes in all ten of the timestamp; 0x0B0C0D0E is below 10^9.
    let (seconds, nanoseconds) = (0xA1B2_C3D4_E5F6, 0x0B0C_0D0E);
    let at = units(seconds as u128 * 1_000_000_000 + nanoseconds as u128);
    all_four(
        &mut s,
        at + 0x5555_FFFF,
        1,
        (seconds, nanoseconds),
        -1,
        0x5555,
    );
    // A whole second, and one unit before it.
    all_four(&mut s, units(2_000_000_000), 2, (2, 0), 0, 0);
    all_four(
        &mut s,
        units(2_000_000_000) - 1,
        3,
        (1, 999_999_999),
        0,
        0xFFFF,
    );
    all_four(&mut s, 0, 4, (0, 0), i64::MAX, 0);
    s.end(
        "slip-timestamp-split",
        "A stamp splits into seconds and nanoseconds below 10^9, big-endian in 48 and 32 bits; \
         other splits show in bytes 34 to 43.",
        End::master(),
    )
}
