//! Readings 16 to 18: the port.

use crate::cast::*;
use crate::record::End;
use crate::script::Script;
use crate::Case;

pub fn all() -> Vec<Case> {
    vec![
        sync_stamps(),
        delay_req_under_peer(),
        idle_delay_timer(),
        second_responder_stays(),
        what_survives(),
        set_again(),
        event_time(),
        one_step_overwrites(),
    ]
}

fn sync_stamps() -> Case {
    let mut s = Script::new(end_to_end(0));
    s.set(NewState::Master).nothing();
    let answer = |id| sent(8, id).with_ns(44);
    // Never sent, sent, sent and stamped again.
    s.stamp(units(44), Context::Sync(500))
        .sends(&answer(500), "general");
    s.send_sync(0);
    s.stamp(units(44), Context::Sync(0))
        .sends(&answer(0), "general");
    s.stamp(units(44), Context::Sync(0))
        .sends(&answer(0), "general");
    s.set(NewState::Passive).nothing();
    s.stamp(units(44), Context::Sync(0)).nothing();
    s.end(
        "reading-16-sync-stamps",
        "Reading 16: as Master each Sync stamp sends a FollowUp for the id it names; a port that \
         remembers its Syncs sends fewer.",
        End::passive().ids(1, 0, 0),
    )
}

fn delay_req_under_peer() -> Case {
    let mut s = Script::new(peer(0));
    s.event(units(5), &delay_req(1)).nothing();
    s.set(NewState::Master).nothing();
    s.event(units(5), &delay_req(1)).answers(9, 1, 5);
    s.end(
        "reading-16-delay-req-under-peer",
        "Reading 16: a Master answers DelayReq under the peer mechanism too; a port that looks at \
         the mechanism does nothing.",
        End::master(),
    )
}

fn idle_delay_timer() -> Case {
    let mut s = Script::new(end_to_end(0));
    for (state, reset) in [
        (NewState::Listening, false),
        (NewState::Master, false),
        (NewState::Passive, false),
        (NewState::Faulty, true),
    ] {
        s.set(state).resets(reset);
        s.delay_timer(MIDDLE).nothing();
    }
    s.slave(MASTER).reset();
    s.request_delay(0);
    s.set(NewState::Master).reset();
    s.delay_timer(MIDDLE).nothing();
    s.slave(MASTER).nothing();
    s.request_delay(1);
    s.end(
        "reading-16-idle-delay-timer",
        "Reading 16: an end-to-end delay timer when not Slave takes no id and resets no timer; \
         else the first request is not 0.",
        End::slave(MASTER).delay(1, None, None).ids(0, 2, 0),
    )
}

fn second_responder_stays() -> Case {
    let mut s = Script::new(peer(0));
    s.slave(MASTER).nothing();
    s.request_peer(0);
    s.event(units(600), &two_step_response(0).with_ns(80))
        .nothing();
    let second = by(RIVAL, response(0)).with_ns(999);
    s.event(units(650), &second).reset();
    s.stamp(units(200), Context::PDelayReq(0)).nothing();
    s.event(units(650), &second).reset();
    // ((600 - 200) - (100 - 80)) / 2
    s.general(&response_follow_up(0).with_ns(100))
        .recovery(duration(190), units(600));
    s.end(
        "reading-17-second-responder",
        "Reading 17: a second responder leaves the exchange as it was, so the first still \
         completes it and ends Faulty; a port that drops it stays Faulty.",
        End::listening().done(0, PEER).ids(0, 0, 1),
    )
}

fn what_survives() -> Case {
    let mut s = Script::new(peer(0));
    s.mean(duration(12));
    s.set(NewState::Master).nothing();
    s.send_sync(0);
    s.send_sync(1);
    s.slave(MASTER).nothing();
    s.request_peer(0);
    s.event(units(600), &response(0)).nothing();
    s.event(units(600), &by(RIVAL, response(0))).reset();
    s.stamp(units(400), Context::PDelayReq(0))
        .recovery(duration(100), units(600));
    for (state, reset) in [
        (NewState::Faulty, true),
        (NewState::Slave(PEER), true),
        (NewState::Passive, true),
        (NewState::Listening, false),
        (NewState::Master, false),
    ] {
        s.set(state).resets(reset);
    }
    s.send_sync(2);
    s.request_peer(1);
    s.slave(MASTER).nothing();
    s.event(units(50), &sync(9).with_ns(20))
        .sync(duration(30), units(50), Some(duration(18)));
    s.end(
        "reading-17-what-survives",
        "Reading 17: mean delay and ids outlive every change of state and every reset; else ids \
         start at 0 or the offset is missing.",
        End::slave(MASTER)
            .raw(duration(30))
            .open(1, None, [None; 4])
            .mean(duration(12))
            .ids(3, 0, 2),
    )
}

fn set_again() -> Case {
    let mut s = Script::new(end_to_end(0));
    s.slave(MASTER).nothing();
    s.event(units(50), &sync(1).with_ns(20))
        .sync(duration(30), units(50), None);
    s.event(units(60), &two_step_sync(2)).nothing();
    s.request_delay(0);
    s.stamp(units(70), Context::DelayReq(0)).nothing();
    s.slave(MASTER).reset();
    s.general(&delay_resp(0).with_ns(80)).nothing();
    s.general(&follow_up(2).with_ns(55)).nothing();
    s.set(NewState::Faulty).reset();
    s.set(NewState::Faulty).reset();
    s.set(NewState::Listening).reset();
    s.set(NewState::Listening).nothing();
    s.slave(MASTER).nothing();
    s.slave(MASTER).reset();
    s.end(
        "reading-17-set-again",
        "Reading 17: Slave set again is emptied and resets even with the same master, Faulty set \
         again resets; a port that compares first does nothing.",
        End::slave(MASTER).ids(0, 1, 0),
    )
}

fn event_time() -> Case {
    let mut s = Script::new(peer(duration(1)));
    s.slave(MASTER).nothing();
    let c = correction(6) + 0x8001;
    // 90 - 6 ns and 0x8001 steps; asymmetry does not touch the event time.
    let at = units(84) - 0x8001_0000;
    s.event(units(90), &sync(1).with_ns(20).with_correction(c))
        .sync(duration(63) - 0x8001_0000, at, None);
    s.request_peer(0);
    s.stamp(units(30), Context::PDelayReq(0)).nothing();
    s.event(units(90), &response(0).with_correction(c))
        .peer(duration(27) - 0x4000_8000, at);
    s.end(
        "reading-18-event-time",
        "Reading 18: the event time is the corrected receive time; the time of arrival would be 90 \
         ns.",
        End::slave(MASTER)
            .raw(duration(63) - 0x8001_0000)
            .done(0, PEER)
            .ids(0, 0, 1),
    )
}

fn one_step_overwrites() -> Case {
    let mut s = Script::new(peer(0));
    s.request_peer(0);
    s.stamp(units(100), Context::PDelayReq(0)).nothing();
    s.general(&response_follow_up(0).with_ns(9_000)).nothing();
    s.event(units(700), &response(0).with_ns(8_000))
        .peer(duration(300), units(700));
    // Without the stamp the overwritten time can be seen.
    s.request_peer(1);
    s.general(&response_follow_up(1).with_ns(9_000)).nothing();
    s.event(units(700), &response(1).with_ns(8_000)).nothing();
    s.general(&response_follow_up(1).with_ns(9_000)).nothing();
    let at_peer = Some(units(8_000));
    s.end(
        "reading-18-one-step-overwrites",
        "Reading 18: a one-step response overwrites the send time of an earlier follow-up; kept, \
         the delay is -200 ns.",
        End::listening()
            .open(1, Some(PEER), [None, at_peer, at_peer, Some(units(700))])
            .ids(0, 0, 2),
    )
}
