//! Set state.

use crate::cast::*;
use crate::record::End;
use crate::script::Script;
use crate::Case;

pub fn all() -> Vec<Case> {
    vec![
        every_pair(),
        slave_is_emptied(),
        left_and_back(),
        other_master(),
        stays(),
    ]
}

/// A walk from Listening that takes each of the 25 steps once, by the first letters of
/// the states that it enters, in capitals where that resets the filter.
const WALK: &str = "l m m l p p m p l F F M F P F L s S M s P s F S L";

fn every_pair() -> Case {
    let mut s = Script::new(end_to_end(0));
    for step in WALK.split(' ') {
        let state = match step.to_lowercase().as_str() {
            "l" => NewState::Listening,
            "m" => NewState::Master,
            "p" => NewState::Passive,
            "f" => NewState::Faulty,
            _ => NewState::Slave(MASTER),
        };
        s.set(state).resets(step == step.to_uppercase());
    }
    s.end(
        "set-state-every-pair",
        "Leaving Slave or Faulty and entering Faulty reset the filter, no other step of the 25 \
         does; a port that resets on each change, or on none to the same state, differs.",
        End::listening(),
    )
}

fn slave_is_emptied() -> Case {
    let mut s = Script::new(end_to_end(0));
    s.slave(MASTER).nothing();
    s.event(units(90), &sync(1).with_ns(20))
        .sync(duration(70), units(90), None);
    s.general(&follow_up(2).with_ns(20)).nothing();
    s.request_delay(0);
    s.stamp(units(100), Context::DelayReq(0)).nothing();
    s.slave(MASTER).reset();
    s.event(units(91), &two_step_sync(2)).nothing();
    s.general(&delay_resp(0).with_ns(50)).nothing();
    s.request_delay(1);
    s.general(&delay_resp(1).with_ns(90)).nothing();
    s.stamp(units(100), Context::DelayReq(1))
        .delay(duration(10), units(100), None);
    s.end(
        "set-slave-is-empty",
        "Slave begins without exchanges and last raw; a port that keeps them measures 71 ns at the \
         Sync, 50 ns at the DelayResp, or a delay at the end.",
        End::slave(MASTER)
            .sync(2, None, Some(units(91)))
            .ids(0, 2, 0),
    )
}

fn left_and_back() -> Case {
    let mut s = Script::new(end_to_end(0));
    s.slave(MASTER).nothing();
    for (id, away) in [
        (10, NewState::Listening),
        (20, NewState::Master),
        (30, NewState::Passive),
        (40, NewState::Faulty),
    ] {
        s.event(units(90), &sync(id).with_ns(20))
            .sync(duration(70), units(90), None);
        s.general(&follow_up(id + 1).with_ns(20)).nothing();
        s.set(away).reset();
        s.event(units(90), &two_step_sync(id + 1)).nothing();
        s.slave(MASTER).resets(away == NewState::Faulty);
        s.event(units(90), &two_step_sync(id + 1)).nothing();
    }
    s.end(
        "set-slave-after-another-state",
        "What a Slave held does not wait for it in another state; kept, the last Sync of each turn \
         measures.",
        End::slave(MASTER).sync(41, None, Some(units(90))),
    )
}

fn other_master() -> Case {
    let mut s = Script::new(end_to_end(0));
    s.slave(MASTER).nothing();
    s.event(units(90), &two_step_sync(7)).nothing();
    s.slave(RIVAL).reset();
    s.general(&follow_up(7).with_ns(20)).nothing();
    s.event(units(90), &sync(8).with_ns(20)).nothing();
    s.event(units(95), &by(RIVAL, sync(8).with_ns(20)))
        .sync(duration(75), units(95), None);
    s.request_delay(0);
    s.stamp(units(100), Context::DelayReq(0)).nothing();
    s.general(&delay_resp(0).with_ns(99)).nothing();
    s.general(&by(RIVAL, delay_resp(0).with_ns(85))).delay(
        duration(15),
        units(100),
        Some(duration(30)),
    );
    s.slave(MASTER).reset();
    s.general(&by(RIVAL, follow_up(9))).nothing();
    s.general(&follow_up(9).with_ns(30)).nothing();
    s.end(
        "set-slave-of-another-master",
        "The new master replaces the old one for Sync, FollowUp and DelayResp; a port that keeps \
         the old one measures for it.",
        End::slave(MASTER)
            .sync(9, Some(units(30)), None)
            .ids(0, 1, 0),
    )
}

fn stays() -> Case {
    let mut s = Script::new(peer(0));
    s.mean(-duration(4));
    s.request_peer(0);
    s.stamp(units(100), Context::PDelayReq(0)).nothing();
    s.event(units(300), &two_step_response(0).with_ns(40))
        .nothing();
    for (state, reset) in [
        (NewState::Master, false),
        (NewState::Slave(MASTER), false),
        (NewState::Slave(RIVAL), true),
        (NewState::Faulty, true),
        (NewState::Passive, true),
        (NewState::Listening, false),
        (NewState::Slave(MASTER), false),
    ] {
        s.set(state).resets(reset);
    }
    let times = [Some(units(100)), Some(units(40)), None, Some(units(300))];
    s.end(
        "set-state-leaves-the-rest",
        "Set state leaves the peer exchange with its times and responder, the mean delay and the \
         ids; a port that starts afresh ends with none.",
        End::slave(MASTER)
            .open(0, Some(PEER), times)
            .mean(-duration(4))
            .ids(0, 0, 1),
    )
}
