//! Second responders: while measuring and when measured, by response and by follow-up,
//! in each state.

use crate::cast::*;
use crate::record::End;
use crate::script::Script;
use crate::Case;

pub fn all() -> Vec<Case> {
    let states = [
        ("second-responder-in-listening", NewState::Listening),
        ("second-responder-in-master", NewState::Master),
        ("second-responder-in-passive", NewState::Passive),
        ("second-responder-in-faulty", NewState::Faulty),
        ("second-responder-in-slave", NewState::Slave(MASTER)),
    ];
    let others = vec![
        known_by_follow_up(),
        every_byte(),
        slave_is_lost(),
        first_is_not_second(),
        new_request(),
    ];
    [
        states.map(|(name, state)| in_state(name, state)).to_vec(),
        others,
    ]
    .concat()
}

fn in_state(name: &'static str, state: NewState) -> Case {
    let to_faulty = state == NewState::Faulty;
    let response_of_rival = by(RIVAL, two_step_response(0)).with_ns(77);
    let follow_up_of_rival = by(RIVAL, response_follow_up(0)).with_ns(78);
    let mut s = Script::new(peer(0));
    s.request_peer(0);
    s.stamp(units(100), Context::PDelayReq(0)).nothing();
    s.event(units(300), &two_step_response(0).with_ns(40))
        .nothing();
    s.set(state).resets(to_faulty);
    s.event(units(310), &response_of_rival).reset();
    s.event(units(311), &response_of_rival).reset();
    s.set(state).reset();
    s.general(&follow_up_of_rival).reset();
    s.set(state).reset();
    s.event(units(312), &by(RIVAL, response(0))).reset();
    // The exchange is still the first responder's: ((300 - 100) - (60 - 40)) / 2.
    s.general(&response_follow_up(0).with_ns(60))
        .recovery(duration(90), units(300));
    s.set(state).resets(to_faulty);
    s.event(units(313), &response_of_rival).reset();
    s.set(state).reset();
    s.general(&follow_up_of_rival).reset();
    // The first responder's copies are only copies.
    s.event(units(314), &response(0)).nothing();
    s.general(&response_follow_up(0)).nothing();
    s.end(
        name,
        "Another responder with the id, while measuring or when measured, by response or \
         follow-up, makes any state Faulty with a reset each time; a port that stops looking once \
         measured does nothing.",
        End::faulty().done(0, PEER).ids(0, 0, 1),
    )
}

fn known_by_follow_up() -> Case {
    let mut s = Script::new(peer(0));
    s.request_peer(0);
    s.general(&response_follow_up(0).with_ns(60)).nothing();
    s.event(units(310), &by(RIVAL, two_step_response(0)))
        .reset();
    s.general(&by(RIVAL, response_follow_up(0))).reset();
    s.event(units(300), &two_step_response(0).with_ns(40))
        .nothing();
    s.stamp(units(100), Context::PDelayReq(0))
        .recovery(duration(90), units(300));
    s.end(
        "second-responder-after-follow-up",
        "A follow-up makes its source the responder as well; a port that notes it from the \
         response alone mixes the two.",
        End::listening().done(0, PEER).ids(0, 0, 1),
    )
}

fn every_byte() -> Case {
    let mut s = Script::new(peer(0));
    s.request_peer(0);
    s.event(units(300), &response(0)).nothing();
    for byte in 0..10 {
        let other = near(PEER, byte);
        s.event(units(310), &by(other, response(0))).reset();
        s.general(&by(other, response_follow_up(0))).reset();
        s.set(NewState::Passive).reset();
    }
    s.stamp(units(100), Context::PDelayReq(0))
        .peer(duration(100), units(300));
    s.end(
        "second-responder-every-byte",
        "A responder is another by any of its ten bytes, another port of the same clock included; \
         a port that compares clocks does nothing for the last two.",
        End::passive().done(0, PEER).ids(0, 0, 1),
    )
}

fn slave_is_lost() -> Case {
    let mut s = Script::new(peer(0));
    s.mean(duration(5));
    s.slave(MASTER).nothing();
    s.event(units(90), &sync(1).with_ns(20))
        .sync(duration(70), units(90), Some(duration(65)));
    s.event(units(95), &two_step_sync(2)).nothing();
    s.request_peer(0);
    s.event(units(300), &response(0)).nothing();
    s.event(units(300), &by(RIVAL, response(0))).reset();
    s.general(&follow_up(2).with_ns(60)).nothing();
    s.event(units(96), &sync(3).with_ns(60)).nothing();
    s.slave(MASTER).reset();
    s.general(&follow_up(2).with_ns(60)).nothing();
    s.end(
        "second-responder-ends-slave",
        "Faulty is no Slave: master, open sync and last raw are gone, mean delay and peer exchange \
         are not; kept, the last FollowUp measures.",
        End::slave(MASTER)
            .sync(2, Some(units(60)), None)
            .open(0, Some(PEER), [None, Some(0), Some(0), Some(units(300))])
            .mean(duration(5))
            .ids(0, 0, 1),
    )
}

fn first_is_not_second() -> Case {
    let mut s = Script::new(peer(0));
    s.request_peer(0);
    s.stamp(units(100), Context::PDelayReq(0)).nothing();
    // To another, and of another id: neither makes a responder.
    s.event(units(300), &response(0).with_requester(PEER))
        .nothing();
    s.event(units(300), &response(1)).nothing();
    s.event(units(340), &by(RIVAL, response(0)))
        .peer(duration(120), units(340));
    s.event(units(350), &response(0)).reset();
    s.end(
        "first-responder-is-not-second",
        "The first answer to us with the id makes the responder, whoever spoke before, and the \
         next one from another is the second; a port that notes every speaker is Faulty at once.",
        End::faulty().done(0, RIVAL).ids(0, 0, 1),
    )
}

fn new_request() -> Case {
    let mut s = Script::new(peer(0));
    s.request_peer(0);
    s.event(units(300), &response(0)).nothing();
    s.event(units(310), &by(RIVAL, response(0))).reset();
    s.request_peer(1);
    // Faulty still, but the two answer to different requests now.
    s.event(units(320), &by(RIVAL, response(0))).nothing();
    s.event(units(320), &by(RIVAL, response(1))).nothing();
    s.stamp(units(220), Context::PDelayReq(1))
        .recovery(duration(50), units(320));
    s.request_peer(2);
    s.stamp(units(400), Context::PDelayReq(2)).nothing();
    s.event(units(420), &response(2))
        .peer(duration(10), units(420));
    s.end(
        "second-responder-new-request",
        "A new request ends the quarrel: its first responder measures and brings Listening back; a \
         port that remembers the old one stays Faulty.",
        End::listening().done(2, PEER).ids(0, 0, 3),
    )
}
