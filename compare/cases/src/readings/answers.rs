//! Readings 13 to 15: what is sent, what is fit, what is not read.

use crate::cast::*;
use crate::record::End;
use crate::script::Script;
use crate::Case;

pub fn all() -> Vec<Case> {
    vec![
        unsent_fields(),
        cut_first(),
        fit(),
        any_duration(),
        unread_header(),
        own_identity(),
    ]
}

fn unsent_fields() -> Case {
    let mut s = Script::new(end_to_end(0));
    let lowest = |message: Message| message.with_correction(i64::MIN);
    for (state, reset) in [
        (NewState::Passive, false),
        (NewState::Slave(MASTER), false),
        (NewState::Faulty, true),
        (NewState::Listening, true),
    ] {
        s.set(state).resets(reset);
        s.stamp(LATE, Context::Sync(1)).nothing();
        s.event(LATE, &delay_req(1)).nothing();
        s.event(1 << 16, &lowest(delay_req(1))).nothing();
        s.stamp(LATE, Context::PDelayResp(1, CLIENT)).refused(7);
        s.event(LATE, &pdelay_req(1)).refused(7);
    }
    s.set(NewState::Master).nothing();
    s.stamp(LATE, Context::Sync(1)).refused(7);
    s.event(LATE, &delay_req(1)).refused(7);
    s.event(1 << 16, &lowest(delay_req(1))).refused(7);
    s.stamp(LATE, Context::PDelayReq(1)).nothing();
    s.stamp(LATE, Context::DelayReq(1)).nothing();
    s.end(
        "reading-13-unsent-fields",
        "Reading 13: a field counts only if its message is sent; a port that splits every stamp \
         answers 7 where nothing goes out.",
        End::master(),
    )
}

fn cut_first() -> Case {
    let mut s = Script::new(end_to_end(0));
    s.set(NewState::Master).nothing();
    let lowest = |message: Message| message.with_correction(i64::MIN);
    let answer = |kind| lowest(sent(kind, 1).with_requester(CLIENT));
    // Below 2^-16 ns nothing is left to take off.
    s.event(0xFFFF, &lowest(delay_req(1)))
        .sends(&answer(9), "general");
    s.event(0xFFFF, &lowest(pdelay_req(1)))
        .sends(&answer(3), &answers_peer(1, CLIENT));
    s.event(0x1_0000, &lowest(delay_req(1))).refused(7);
    s.event(0x1_0000, &lowest(pdelay_req(1))).refused(7);
    s.end(
        "reading-13-cut-before-sum",
        "Reading 13: f is cut before it is taken off, so a fraction below 2^-16 ns lowers nothing; \
         rounded up it is refused.",
        End::master(),
    )
}

fn fit() -> Case {
    let mut s = Script::new(end_to_end(0));
    s.slave(MASTER).nothing();
    s.request_delay(0);
    // From here the delay exchange has no time, which is fit.
    s.filter(None, None).nothing();
    s.event(units(9), &two_step_sync(1)).nothing();
    s.request_delay(1);
    s.general(&delay_resp(1).with_ns(4)).nothing();
    s.general(&follow_up(1).with_ns(2))
        .sync(duration(7), units(9), None);
    s.stamp(units(8), Context::DelayReq(1))
        .delay(duration(4), units(8), Some(3 << 31));
    s.end(
        "reading-14-empty-delay-exchange",
        "Reading 14: an open delay exchange without a time is fit; a port that calls it unfit \
         answers 2 from the first request on.",
        End::slave(MASTER).raw(duration(7)).ids(0, 2, 0),
    )
}

fn any_duration() -> Case {
    let mut s = Script::new(peer(i128::MIN));
    s.mean(i128::MAX);
    s.slave(MASTER).nothing();
    // -1 + 2^127 and then less 2^127 - 1.
    s.event(units(1) - 1, &sync(1).with_ns(1))
        .sync(i128::MAX, units(1) - 1, Some(0));
    s.mean(i128::MIN);
    s.event(0, &sync(2).with_ns(1)).refused(7);
    s.mean(-1);
    // -2^32 + 2^127, plus 1.
    s.event(0, &sync(2).with_ns(1))
        .sync(i128::MAX - 0xFFFF_FFFF, 0, Some(i128::MAX - 0xFFFF_FFFE));
    s.end(
        "reading-14-any-duration",
        "Reading 14: asymmetry and mean delay may be any duration, the ends included; a port that \
         limits them answers 2.",
        End::slave(MASTER).raw(i128::MAX - 0xFFFF_FFFF).mean(-1),
    )
}

fn unread_header() -> Case {
    let mut s = Script::new(peer(0));
    let odd = |message: Message| Message {
        minor: 0xF,
        control: 0xC7,
        interval: 0x80,
        reserved: [0xFE, 0xDC, 0xBA, 0x98],
        flags: message.flags | 0xFDFF,
        ..message.with_extra(&[0xEE; 7])
    };
    s.slave(MASTER).nothing();
    s.event(units(50), &odd(two_step_sync(1))).nothing();
    s.general(&odd(follow_up(1).with_ns(20)))
        .sync(duration(30), units(50), None);
    s.event(units(60), &odd(sync(2).with_ns(20)))
        .sync(duration(40), units(60), None);
    s.request_peer(0);
    s.stamp(units(100), Context::PDelayReq(0)).nothing();
    s.event(units(300), &odd(two_step_response(0).with_ns(5)))
        .nothing();
    // (200 - 20) / 2
    s.general(&odd(response_follow_up(0).with_ns(25)))
        .peer(duration(90), units(300));
    s.general(&odd(delay_resp(0))).nothing();
    s.event(units(7), &odd(pdelay_req(8))).answers(3, 8, 7);
    s.end(
        "reading-15-unread-fields",
        "Reading 15: minor version, other flags, control, interval, reserved bytes and what lies \
         behind the body are not read; a strict port refuses them.",
        End::slave(MASTER)
            .raw(duration(40))
            .done(0, PEER)
            .ids(0, 0, 1),
    )
}

fn own_identity() -> Case {
    let mut s = Script::new(peer(0));
    s.slave(US).nothing();
    s.event(units(50), &by(US, sync(1)).with_ns(20))
        .sync(duration(30), units(50), None);
    s.request_peer(0);
    s.stamp(units(100), Context::PDelayReq(0)).nothing();
    s.event(units(400), &by(US, response(0)))
        .peer(duration(150), units(400));
    s.event(units(500), &response(0)).reset();
    s.event(units(7), &by(US, pdelay_req(8))).sends(
        &sent(3, 8).with_ns(7).with_requester(US),
        &answers_peer(8, US),
    );
    s.set(NewState::Master).reset();
    s.event(units(7), &by(US, delay_req(9)))
        .sends(&sent(9, 9).with_ns(7).with_requester(US), "general");
    s.end(
        "reading-15-own-identity",
        "Reading 15: our own identity as a source is like any other; a port that drops its own \
         messages does nothing.",
        End::master().done(0, US).ids(0, 0, 1),
    )
}
