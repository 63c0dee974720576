//! Peer answers: guards, duplicates, replacement, and every state.

use super::ROUND;
use crate::cast::*;
use crate::record::End;
use crate::script::Script;
use crate::Case;

pub fn all() -> Vec<Case> {
    vec![
        requester_is_us(),
        wrong_ids(),
        first_response(),
        first_follow_up(),
        first_stamp(),
        measured_is_deaf(),
        new_request(),
        every_state(),
        faulty_recovers(),
        kept_across_states(),
        event_entry(),
        nothing_open(),
    ]
}

/// A port that has sent request 0 at 100 ns.
fn waiting() -> Script {
    let mut s = Script::new(peer(0));
    s.request_peer(0);
    s.stamp(units(100), Context::PDelayReq(0)).nothing();
    s
}

fn requester_is_us() -> Case {
    let mut s = waiting();
    for byte in 0..10 {
        let other = near(US, byte);
        s.event(units(200), &response(0).with_requester(other))
            .nothing();
        s.general(&response_follow_up(0).with_requester(other))
            .nothing();
    }
    s.event(units(300), &two_step_response(0).with_ns(40))
        .nothing();
    for byte in 0..10 {
        let other = near(US, byte);
        // Nor is a second responder one if it speaks to somebody else.
        s.event(units(200), &by(RIVAL, response(0).with_requester(other)))
            .nothing();
    }
    s.general(&response_follow_up(0).with_ns(50))
        .peer(duration(95), units(300));
    s.end(
        "peer-requester-is-us",
        "Peer answers count only if all ten bytes of the requester are ours, the second-responder \
         test included; a laxer port measures 50 ns or is Faulty.",
        End::listening().done(0, PEER).ids(0, 0, 1),
    )
}

fn wrong_ids() -> Case {
    let mut s = waiting();
    for id in [1, 0x0100, 65_535] {
        s.event(units(200), &response(id)).nothing();
        s.general(&response_follow_up(id)).nothing();
        s.stamp(units(150), Context::PDelayReq(id)).nothing();
    }
    s.event(units(300), &two_step_response(0).with_ns(40))
        .nothing();
    for id in [1, 0x0100, 65_535] {
        s.event(units(200), &by(RIVAL, response(id))).nothing();
        s.general(&by(RIVAL, response_follow_up(id))).nothing();
    }
    s.general(&response_follow_up(0).with_ns(60))
        .peer(duration(90), units(300));
    s.event(units(200), &by(RIVAL, response(1))).nothing();
    s.general(&by(RIVAL, response_follow_up(256))).nothing();
    s.end(
        "peer-wrong-ids",
        "Peer answers and stamps of another id do nothing, also from another responder; a port \
         that ignores the id measures 50 ns or is Faulty.",
        End::listening().done(0, PEER).ids(0, 0, 1),
    )
}

fn first_response() -> Case {
    let mut s = waiting();
    s.event(units(300), &two_step_response(0).with_ns(40))
        .nothing();
    s.event(units(310), &two_step_response(0).with_ns(41))
        .nothing();
    // One-step, but a duplicate: it sets no send time.
    s.event(units(320), &response(0).with_ns(42)).nothing();
    s.general(&response_follow_up(0).with_ns(60))
        .peer(duration(90), units(300));
    s.end(
        "peer-first-response",
        "A second response of the same responder does nothing, whichever its flag; the one-step \
         one would give 110 ns.",
        End::listening().done(0, PEER).ids(0, 0, 1),
    )
}

fn first_follow_up() -> Case {
    let mut s = waiting();
    s.general(&response_follow_up(0).with_ns(60)).nothing();
    s.general(&response_follow_up(0).with_ns(70)).nothing();
    s.general(&response_follow_up(0).with_ns(80).with_correction(9))
        .nothing();
    s.event(units(300), &two_step_response(0).with_ns(40))
        .peer(duration(90), units(300));
    s.end(
        "peer-first-follow-up",
        "A second follow-up of the same responder does nothing; the second would give 85 ns.",
        End::listening().done(0, PEER).ids(0, 0, 1),
    )
}

fn first_stamp() -> Case {
    let mut s = waiting();
    s.stamp(units(120), Context::PDelayReq(0)).nothing();
    s.stamp(units(120), Context::DelayReq(0)).nothing();
    s.event(units(300), &two_step_response(0).with_ns(40))
        .nothing();
    s.stamp(units(130), Context::PDelayReq(0)).nothing();
    s.general(&response_follow_up(0).with_ns(60))
        .peer(duration(90), units(300));
    s.stamp(units(130), Context::PDelayReq(0)).nothing();
    s.request_peer(1);
    s.event(units(300), &response(1).with_ns(40)).nothing();
    for context in [
        Context::DelayReq(1),
        Context::Sync(1),
        Context::PDelayReq(0),
    ] {
        s.stamp(units(110), context).nothing();
    }
    s.stamp(0, Context::PDelayReq(1))
        .peer(duration(150), units(300));
    s.end(
        "peer-first-stamp",
        "A stamp fills the open request if it is empty and of its kind and id; a later one would \
         give 80 or 75 ns, one of another kind 95.",
        End::listening().done(1, PEER).ids(0, 0, 2),
    )
}

fn measured_is_deaf() -> Case {
    let mut s = waiting();
    s.event(units(300), &response(0))
        .peer(duration(100), units(300));
    s.event(units(400), &response(0)).nothing();
    s.event(units(400), &two_step_response(0)).nothing();
    s.general(&response_follow_up(0).with_ns(5)).nothing();
    s.stamp(units(50), Context::PDelayReq(0)).nothing();
    s.end(
        "peer-measured-does-nothing",
        "Once measured, answers of the same responder and stamps do nothing; a port that stays \
         open measures again.",
        End::listening().done(0, PEER).ids(0, 0, 1),
    )
}

fn new_request() -> Case {
    let mut s = waiting();
    s.event(units(300), &two_step_response(0).with_ns(40))
        .nothing();
    s.request_peer(1);
    s.general(&response_follow_up(0).with_ns(60)).nothing();
    s.stamp(units(500), Context::PDelayReq(1)).nothing();
    // The responder is forgotten with the exchange, measuring or measured.
    s.event(units(700), &by(RIVAL, response(1)))
        .peer(duration(100), units(700));
    s.request_peer(2);
    s.stamp(units(800), Context::PDelayReq(2)).nothing();
    s.event(units(700), &by(RIVAL, response(1))).nothing();
    s.event(units(700), &response(1)).nothing();
    s.event(units(860), &response(2))
        .peer(duration(30), units(860));
    s.request_peer(3);
    s.end(
        "peer-new-request-replaces",
        "A new request replaces the exchange, open or measured, and its responder; kept, the \
         second exchange ends in Faulty.",
        End::listening().open(3, None, [None; 4]).ids(0, 0, 4),
    )
}

fn every_state() -> Case {
    let mut s = Script::new(peer(0));
    for (id, (state, reset)) in (0..).zip(ROUND) {
        s.set(state).resets(reset);
        s.request_peer(id);
        s.event(units(260), &two_step_response(id).with_ns(40))
            .nothing();
        s.stamp(units(100), Context::PDelayReq(id)).nothing();
        let step = s.general(&response_follow_up(id).with_ns(60));
        // (160 - 20) / 2; Faulty comes last and ends here.
        if reset {
            step.recovery(duration(70), units(260));
        } else {
            step.peer(duration(70), units(260));
        }
    }
    s.set(NewState::Listening).nothing();
    s.end(
        "peer-every-state",
        "Peer delays are measured in every state, and only Faulty changes by it, to Listening; a \
         port that measures as Slave only does nothing.",
        End::listening().done(3, PEER).ids(0, 0, 4),
    )
}

fn faulty_recovers() -> Case {
    let mut s = waiting();
    s.set(NewState::Faulty).reset();
    // Set by the host: the measurement ends it all the same, by stamp, too.
    s.event(units(300), &response(0))
        .recovery(duration(100), units(300));
    s.request_peer(1);
    s.event(units(310), &response(1)).nothing();
    s.set(NewState::Faulty).reset();
    s.stamp(units(110), Context::PDelayReq(1))
        .recovery(duration(100), units(310));
    // Listening again, so this one is without a reset.
    s.request_peer(2);
    s.stamp(units(110), Context::PDelayReq(2)).nothing();
    s.event(units(310), &response(2))
        .peer(duration(100), units(310));
    s.set(NewState::Faulty).reset();
    s.event(units(320), &response(2)).nothing();
    s.end(
        "peer-faulty-recovers",
        "A peer delay brings Faulty to Listening with one reset, also a Faulty that the host set, \
         and a mere duplicate does not; a port that recovers only from second responders stays \
         Faulty.",
        End::faulty().done(2, PEER).ids(0, 0, 3),
    )
}

fn kept_across_states() -> Case {
    let mut s = Script::new(peer(0));
    s.request_peer(0);
    s.set(NewState::Master).nothing();
    s.stamp(units(100), Context::PDelayReq(0)).nothing();
    s.slave(MASTER).nothing();
    s.event(units(300), &two_step_response(0).with_ns(40))
        .nothing();
    s.slave(PEER).reset();
    s.set(NewState::Passive).reset();
    s.general(&response_follow_up(0).with_ns(50))
        .peer(duration(95), units(300));
    s.slave(MASTER).nothing();
    s.event(units(300), &by(RIVAL, response(0))).reset();
    s.end(
        "peer-exchange-stays",
        "The peer exchange stays through every set state, measuring and measured; a port that \
         empties it with the Slave measures nothing.",
        End::faulty().done(0, PEER).ids(0, 0, 1),
    )
}

fn event_entry() -> Case {
    let mut s = waiting();
    s.event(units(999), &response_follow_up(0).with_ns(60))
        .nothing();
    s.general(&two_step_response(0).with_ns(40)).nothing();
    s.event(units(998), &by(RIVAL, response_follow_up(0)))
        .reset();
    s.event(units(300), &two_step_response(0).with_ns(40))
        .recovery(duration(90), units(300));
    s.end(
        "peer-follow-up-on-event-entry",
        "A peer follow-up on the event entry works as on the general one, its receive time unused, \
         and a response on the general entry does nothing; swapped entries show.",
        End::listening().done(0, PEER).ids(0, 0, 1),
    )
}

fn nothing_open() -> Case {
    let mut s = Script::new(end_to_end(0));
    for (state, reset) in ROUND {
        s.set(state).resets(reset);
        s.event(units(300), &response(0)).nothing();
        s.event(units(300), &by(RIVAL, two_step_response(0)))
            .nothing();
        s.general(&response_follow_up(0)).nothing();
        s.stamp(units(100), Context::PDelayReq(0)).nothing();
    }
    s.slave(MASTER).reset();
    s.request_delay(0);
    s.event(units(300), &response(0)).nothing();
    s.general(&by(RIVAL, response_follow_up(0))).nothing();
    s.end(
        "peer-nothing-open",
        "Without a request of ours no peer answer does anything and nobody is a second responder; \
         a port that takes the end-to-end request for one is Faulty.",
        End::slave(MASTER).delay(0, None, None).ids(0, 1, 0),
    )
}
