//! Slips in what is looked at first and in what stays behind.

use crate::cast::*;
use crate::record::End;
use crate::script::Script;
use crate::Case;

pub fn all() -> Vec<Case> {
    vec![
        second_responder_first(),
        raw_across_slave(),
        taken_out(),
        sum_before_duplicate(),
        guard_before_sum(),
        no_sum_for_nothing(),
        two_step_flag(),
    ]
}

fn second_responder_first() -> Case {
    let mut s = Script::new(peer(0));
    s.request_peer(0);
    s.event(units(400), &two_step_response(0).with_ns(20))
        .nothing();
    s.event(units(410), &by(RIVAL, two_step_response(0)))
        .reset();
    s.set(NewState::Listening).reset();
    s.general(&response_follow_up(0).with_ns(30)).nothing();
    s.general(&by(RIVAL, response_follow_up(0))).reset();
    s.set(NewState::Passive).reset();
    s.event(units(420), &by(RIVAL, response(0))).reset();
    // ((400 - 100) - (30 - 20)) / 2
    s.stamp(units(100), Context::PDelayReq(0))
        .recovery(duration(145), units(400));
    s.end(
        "slip-duplicate-before-second-responder",
        "Third slip of 01: another responder is found out even where its answer is a duplicate; a \
         wrong port does nothing.",
        End::listening().done(0, PEER).ids(0, 0, 1),
    )
}

fn raw_across_slave() -> Case {
    let mut s = Script::new(end_to_end(0));
    s.slave(MASTER).nothing();
    s.event(units(700), &sync(1).with_ns(600))
        .sync(duration(100), units(700), None);
    s.slave(MASTER).reset();
    s.request_delay(0);
    s.stamp(units(800), Context::DelayReq(0)).nothing();
    s.general(&delay_resp(0).with_ns(760))
        .delay(duration(40), units(800), None);
    s.end(
        "slip-raw-kept-across-slave",
        "Slave begins without a last raw, also from Slave with the same master; kept, it gives a \
         delay of 30 ns.",
        End::slave(MASTER).ids(0, 1, 0),
    )
}

fn taken_out() -> Case {
    let mut s = Script::new(end_to_end(0));
    s.slave(MASTER).nothing();
    for at in [1_000, 2_000] {
        s.event(units(at), &two_step_sync(7)).nothing();
        s.general(&follow_up(7).with_ns(900))
            .sync(duration(at as i128 - 900), units(at), None);
    }
    s.request_delay(0);
    s.stamp(units(3_000), Context::DelayReq(0)).nothing();
    // Half of 1100 - 10.
    s.general(&delay_resp(0).with_ns(2_990))
        .delay(duration(10), units(3_000), Some(duration(545)));
    s.general(&delay_resp(0).with_ns(2_000)).nothing();
    s.stamp(units(3_500), Context::DelayReq(0)).nothing();
    s.general(&follow_up(7).with_ns(800)).nothing();
    s.end(
        "slip-exchange-left-in",
        "A measured exchange is gone at once: the same id starts anew; left in, the second pair is \
         taken for duplicates or measured again.",
        End::slave(MASTER)
            .sync(7, Some(units(800)), None)
            .raw(duration(1_100))
            .ids(0, 1, 0),
    )
}

fn sum_before_duplicate() -> Case {
    let mut s = Script::new(end_to_end(0));
    s.slave(MASTER).nothing();
    s.event(units(50), &two_step_sync(7)).nothing();
    s.event(units(50), &two_step_sync(7).with_correction(correction(51)))
        .refused(7);
    s.event(units(50), &sync(7).with_correction(correction(51)))
        .refused(7);
    s.event(units(50), &two_step_sync(7).with_correction(correction(50)))
        .nothing();
    s.event(units(50), &sync(7).with_correction(correction(50)))
        .nothing();
    s.general(&follow_up(7).with_ns(20))
        .sync(duration(30), units(50), None);
    s.general(&follow_up(8).with_ns(40)).nothing();
    let late = follow_up(8).with_ns(40);
    s.general(&late.clone().with_correction(correction(-40) - 1))
        .refused(7);
    s.general(&late.with_correction(correction(-40))).nothing();
    s.event(units(60), &two_step_sync(8))
        .sync(duration(20), units(60), None);
    s.end(
        "slip-duplicate-before-sum",
        "Sync and FollowUp work their time out before they look for a duplicate; the other way \
         round an impossible duplicate is answered 0.",
        End::slave(MASTER).raw(duration(20)),
    )
}

/// Messages of Sync and FollowUp whose times are out of reach.
fn impossible() -> [Message; 3] {
    [
        sync(7).with_correction(i64::MAX),
        two_step_sync(7).with_correction(i64::MAX),
        follow_up(7).with_correction(-1),
    ]
}

fn guard_before_sum() -> Case {
    let mut s = Script::new(end_to_end(0));
    for (state, reset) in [
        (NewState::Listening, false),
        (NewState::Master, false),
        (NewState::Passive, false),
        (NewState::Faulty, true),
    ] {
        s.set(state).resets(reset);
        for message in impossible() {
            s.event(0, &message).nothing();
        }
    }
    s.slave(MASTER).reset();
    for message in impossible() {
        s.event(0, &by(near(MASTER, 9), message)).nothing();
    }
    for message in impossible() {
        s.event(0, &message).refused(7);
    }
    s.end(
        "slip-sum-before-guard",
        "Not Slave, or not our master: 0 whatever the numbers; a port that adds first answers 7.",
        End::slave(MASTER),
    )
}

fn no_sum_for_nothing() -> Case {
    let mut s = Script::new(end_to_end(0));
    let answer = |id| delay_resp(id).with_correction(1);
    s.slave(MASTER).nothing();
    s.general(&answer(0)).nothing();
    s.request_delay(0);
    s.general(&answer(1)).nothing();
    s.general(&by(PEER, answer(0))).nothing();
    s.general(&answer(0).with_requester(CLIENT)).nothing();
    s.general(&answer(0)).refused(7);
    s.general(&delay_resp(0).with_ns(90)).nothing();
    s.general(&answer(0)).nothing();
    s.stamp(units(100), Context::DelayReq(0))
        .delay(duration(10), units(100), None);
    s.general(&answer(0)).nothing();
    s.end(
        "slip-sum-of-useless-delay-resp",
        "A DelayResp that changes nothing works nothing out; a port that subtracts first answers 7 \
         to its duplicates.",
        End::slave(MASTER).ids(0, 1, 0),
    )
}

fn two_step_flag() -> Case {
    let mut s = Script::new(peer(0));
    s.slave(MASTER).nothing();
    // Byte 7's 0x02, then every bit but the two-step one, then none.
    for (id, flags) in [(1, 0x0002), (2, 0xFDFF), (3, 0)] {
        s.event(units(90), &sync(id).with_ns(60).with_flags(flags))
            .sync(duration(30), units(90), None);
    }
    for (id, flags) in [(4, 0x0200), (5, 0xFFFF)] {
        s.event(units(90), &sync(id).with_ns(60).with_flags(flags))
            .nothing();
        s.general(&follow_up(id).with_ns(50).with_flags(flags))
            .sync(duration(40), units(90), None);
    }
    for (id, flags) in [(0, 0x0002), (1, 0xFDFF)] {
        s.request_peer(id);
        s.stamp(units(100), Context::PDelayReq(id)).nothing();
        s.event(units(300), &response(id).with_flags(flags))
            .peer(duration(100), units(300));
    }
    s.request_peer(2);
    s.event(units(300), &response(2).with_flags(0x0200))
        .nothing();
    s.end(
        "slip-two-step-flag-byte",
        "Two-step is 0x02 of byte 6 and no other bit; read from byte 7, one-step and two-step \
         change places.",
        End::slave(MASTER)
            .raw(duration(40))
            .open(2, Some(PEER), [None, Some(0), None, Some(units(300))])
            .ids(0, 0, 3),
    )
}
