//! Rows for PDelayResp and its follow-up (01, 'What each event does').

use super::case::{Case, Section};
use plain::{Peer, PeerTimes};

const ALL: [usize; 5] = [0, 1, 2, 3, 4];

pub fn sections() -> Vec<Section> {
    let mut response = Section::new("PDelayResp", |case| {
        case.reaches(3) && case.on_event() && case.taken()
    });
    let mut follow_up = Section::new("peer follow-up", |case| case.reaches(10) && case.taken());
    for section in [&mut response, &mut follow_up] {
        nothing(section);
        second(section);
    }
    responses(&mut response);
    follow_ups(&mut follow_up);
    vec![response, follow_up]
}

/// Ours, with the id that is open or measured.
fn same(case: &Case) -> bool {
    case.to_us() && case.peer_id() == Some(case.seen().id)
}

fn times(case: &Case) -> Option<PeerTimes> {
    match case.before.peer {
        Peer::Measuring { times, .. } => Some(times),
        _ => None,
    }
}

/// The time that this message would bring already stands.
fn stands(case: &Case) -> bool {
    let response = case.seen().kind == 3;
    times(case).is_some_and(|times| match response {
        true => times.response_receive.is_some(),
        false => times.response_send.is_some(),
    })
}

fn second_responder(case: &Case) -> bool {
    same(case)
        && case
            .responder()
            .is_some_and(|known| known != case.seen().source)
}

/// The sum of the message, were it worked out, would leave its range.
fn impossible(case: &Case) -> bool {
    let seen = case.seen();
    let sum = match seen.kind {
        3 => (case.time().unwrap_or(0) as i128).checked_sub(seen.corrected()),
        _ => Some(seen.stamp() + seen.corrected()),
    };
    sum.is_none_or(|sum| sum < 0)
}

fn nothing(section: &mut Section) {
    section.add_states("nothing, other requester", &ALL, |case| !case.to_us());
    section.add("nothing, other requester and second responder", |case| {
        let seen = case.seen();
        let known = case.responder().is_some_and(|known| known != seen.source);
        !case.to_us() && known && case.peer_id() == Some(seen.id)
    });
    section.add("nothing, none open", |case| {
        case.to_us() && case.before.peer == Peer::Empty
    });
    section.add("nothing, other id while measuring", |case| {
        case.to_us() && case.is_measuring() && !same(case)
    });
    section.add("nothing, other id once measured", |case| {
        case.to_us() && case.is_measured() && !same(case)
    });
    section.add("nothing, same id once measured", |case| {
        same(case) && case.is_measured() && !second_responder(case)
    });
    section.add_states("nothing, its time stands", &ALL, |case| {
        same(case) && stands(case) && !second_responder(case)
    });
    section.add("no sum where nothing is done", |case| {
        let idle = !same(case) || case.is_measured() || stands(case);
        idle && !second_responder(case) && impossible(case)
    });
}

fn second(section: &mut Section) {
    section.add_states("second responder while measuring", &ALL, |case| {
        second_responder(case) && case.is_measuring()
    });
    section.add_states("second responder once measured", &ALL, |case| {
        second_responder(case) && case.is_measured()
    });
    section.add("second responder though the time stands", |case| {
        second_responder(case) && stands(case)
    });
    section.add("second responder with an impossible sum", |case| {
        second_responder(case) && impossible(case)
    });
    section.add("second responder, other port of the same clock", |case| {
        second_responder(case)
            && case
                .responder()
                .is_some_and(|known| known[..8] == case.seen().source[..8])
    });
}

/// Ours, open, of the one responder, and its time does not stand yet.
fn fresh(case: &Case) -> bool {
    same(case) && case.is_measuring() && !second_responder(case) && !stands(case)
}

fn responses(section: &mut Section) {
    let step = |case: &Case, two_step: bool| fresh(case) && case.seen().two_step() == two_step;
    for (name, two_step) in [("one-step", false), ("two-step", true)] {
        for state in ALL {
            let label = format!("{name} stored, {}", super::case::STATES[state]);
            section.add(&label, move |case| {
                step(case, two_step) && case.state() == state
            });
        }
        section.add(&format!("{name}, responder not known yet"), move |case| {
            step(case, two_step) && case.responder().is_none()
        });
        section.add(&format!("{name}, follow-up came before"), move |case| {
            let before = times(case).is_some_and(|times| times.response_send.is_some());
            step(case, two_step) && before
        });
        section.add(&format!("{name}, before the stamp"), move |case| {
            let before = times(case).is_some_and(|times| times.request_send.is_none());
            step(case, two_step) && before
        });
        section.add(&format!("{name}, behind the stamp"), move |case| {
            let behind = times(case).is_some_and(|times| times.request_send.is_some());
            step(case, two_step) && behind
        });
    }
    section.add(
        "one-step over a different response send time",
        move |case| {
            let stored = times(case).and_then(|times| times.response_send);
            step(case, false) && stored.is_some_and(|stored| stored as i128 != case.seen().stamp())
        },
    );
    section.add("from our own identity", |case| {
        fresh(case) && case.seen().source == case.before.config.identity
    });
}

fn follow_ups(section: &mut Section) {
    section.add_states("stored", &ALL, fresh);
    section.add_entries("stored", fresh);
    section.add_entries("before the response", |case| {
        fresh(case) && case.responder().is_none()
    });
    section.add_entries("behind the response", |case| {
        fresh(case) && case.responder().is_some()
    });
    section.add("nothing, a one-step response set its time", |case| {
        let set = times(case).is_some_and(|times| {
            times.request_receive.is_some() && times.response_send == times.request_receive
        });
        same(case) && set && !second_responder(case)
    });
    section.add("nothing, an earlier follow-up set its time", |case| {
        let set = times(case).is_some_and(|times| times.request_receive.is_none());
        same(case) && set && stands(case) && !second_responder(case)
    });
    section.add_entries("second responder", second_responder);
}
