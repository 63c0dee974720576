//! Rows for stamps, requests, timers and the general entry (01, 'What each event
//! does').

use super::case::{stamp_kind, Case, Section, STATES};
use plain::{Context, Event, Mechanism, Peer};

const ALL: [usize; 5] = [0, 1, 2, 3, 4];

pub fn sections() -> Vec<Section> {
    vec![stamps(), requests(), answers(), sync_timer(), general()]
}

fn stamps() -> Section {
    let mut section = Section::new("stamp", |case| case.taken() && case.context().is_some());
    let of = |case: &Case, kind: usize| stamp_kind(case) == Some(kind);
    section.add_states("Sync, nothing", &[0, 2, 3, 4], |case| {
        stamp_kind(case) == Some(0)
    });
    let sync = |case: &Case| match case.context() {
        Some(Context::Sync(id)) if case.state() == 1 => Some(id),
        _ => None,
    };
    section.add("Sync as Master, the id sent last", move |case| {
        sync(case) == Some(case.before.sync_id.wrapping_sub(1))
    });
    section.add("Sync as Master, any other id", move |case| {
        sync(case).is_some_and(|id| id != case.before.sync_id.wrapping_sub(1))
    });
    section.add("Sync as Master, a time with a fraction", move |case| {
        sync(case).is_some() && case.time().is_some_and(|time| time as u32 != 0)
    });
    delay_stamps(&mut section);
    peer_stamps(&mut section);
    section.add_states("PDelayResp sends its follow-up", &ALL, |case| {
        stamp_kind(case) == Some(3)
    });
    section.add("PDelayResp, fraction cut below 16 bits", move |case| {
        of(case, 3) && case.time().is_some_and(|time| time as u16 != 0)
    });
    section
}

fn delay_stamps(section: &mut Section) {
    section.add_states("DelayReq, nothing", &[0, 1, 2, 3], |case| {
        stamp_kind(case) == Some(1)
    });
    let named = |case: &Case| match (case.context(), case.slave()) {
        (Some(Context::DelayReq(id)), Some(_)) => Some(id),
        _ => None,
    };
    section.add("DelayReq, none open", move |case| {
        named(case).is_some() && case.delay().is_none()
    });
    section.add("DelayReq, other id open", move |case| {
        named(case).is_some_and(|id| case.delay().is_some_and(|open| open.id != id))
    });
    let open =
        move |case: &Case| named(case).and_then(|id| case.delay().filter(|open| open.id == id));
    section.add("DelayReq, send time held", move |case| {
        open(case).is_some_and(|open| open.send.is_some())
    });
    section.add("DelayReq fills, response not there", move |case| {
        open(case).is_some_and(|open| open.send.or(open.receive).is_none())
    });
    section.add("DelayReq completes", move |case| {
        open(case).is_some_and(|open| open.receive.is_some())
    });
}

fn peer_stamps(section: &mut Section) {
    let named = |case: &Case| match case.context() {
        Some(Context::PDelayReq(id)) => Some(id),
        _ => None,
    };
    section.add("PDelayReq, none open", move |case| {
        named(case).is_some() && case.before.peer == Peer::Empty
    });
    section.add("PDelayReq, once measured", move |case| {
        named(case).is_some() && named(case) == case.peer_id() && case.is_measured()
    });
    section.add("PDelayReq, other id open", move |case| {
        case.is_measuring() && named(case).is_some() && named(case) != case.peer_id()
    });
    let times = move |case: &Case| match case.before.peer {
        Peer::Measuring { id, times, .. } if named(case) == Some(id) => Some(times),
        _ => None,
    };
    section.add("PDelayReq, send time held", move |case| {
        times(case).is_some_and(|times| times.request_send.is_some())
    });
    for state in ALL {
        section.add(
            &format!("PDelayReq fills, {}", STATES[state]),
            move |case| {
                case.state() == state
                    && times(case).is_some_and(|times| times.request_send.is_none())
            },
        );
        section.add(
            &format!("PDelayReq completes, {}", STATES[state]),
            move |case| {
                case.state() == state && times(case).is_some() && case.answer.measurement.is_some()
            },
        );
    }
}

/// The delay timer.
fn requests() -> Section {
    let mut section = Section::new("delay timer", |case| {
        case.taken() && matches!(case.event, Event::DelayTimer { .. })
    });
    section.add_states("end-to-end, nothing", &[0, 1, 2, 3], |case| {
        case.before.config.mechanism == Mechanism::EndToEnd
    });
    let delay =
        |case: &Case| case.before.config.mechanism == Mechanism::EndToEnd && case.slave().is_some();
    section.add("end-to-end, none open", move |case| {
        delay(case) && case.delay().is_none()
    });
    section.add("end-to-end, replaces one without a time", move |case| {
        delay(case)
            && case
                .delay()
                .is_some_and(|open| open.send.or(open.receive).is_none())
    });
    section.add("end-to-end, replaces one with its stamp", move |case| {
        delay(case) && case.delay().is_some_and(|open| open.send.is_some())
    });
    section.add("end-to-end, replaces one with its response", move |case| {
        delay(case) && case.delay().is_some_and(|open| open.receive.is_some())
    });
    peer_requests(&mut section);
    draws(&mut section);
    section
}

fn peer_requests(section: &mut Section) {
    let peer = |case: &Case| case.before.config.mechanism == Mechanism::Peer;
    for state in ALL {
        section.add(&format!("peer, {}", STATES[state]), move |case| {
            peer(case) && case.state() == state
        });
    }
    section.add("peer, none open", move |case| {
        peer(case) && case.before.peer == Peer::Empty
    });
    section.add(
        "peer, replaces one measuring without responder",
        move |case| peer(case) && case.is_measuring() && case.responder().is_none(),
    );
    section.add("peer, replaces one measuring with responder", move |case| {
        peer(case) && case.is_measuring() && case.responder().is_some()
    });
    section.add("peer, replaces one measured", move |case| {
        peer(case) && case.is_measured()
    });
}

fn draws(section: &mut Section) {
    let half = 1u64 << 51;
    for draw in [0, 1, half - 1, half, 2 * half - 1] {
        section.add(&format!("draw {draw}"), move |case| {
            case.answer.length > 0 && *case.event == Event::DelayTimer { draw }
        });
    }
    section.add("of 0 ns", |case| {
        case.answer.length > 0 && {
            let least = 52 - i32::from(case.before.config.delay_interval);
            matches!(case.event, Event::DelayTimer { draw }
                if (2 * u128::from(*draw) + 1) * 1_000_000_000 < 1 << (least - 1))
        }
    });
    for interval in -9..=16 {
        section.add(&format!("interval {interval}"), move |case| {
            case.answer.length > 0 && case.before.config.delay_interval == interval
        });
    }
}

/// What is answered to the requests of others.
fn answers() -> Section {
    let mut section = Section::new("request", |case| {
        case.taken() && case.on_event() && (case.reaches(1) || case.reaches(2))
    });
    for (name, mechanism) in [
        ("end-to-end", Mechanism::EndToEnd),
        ("peer", Mechanism::Peer),
    ] {
        section.add(
            &format!("DelayReq answered as Master, {name} port"),
            move |case| {
                case.reaches(1) && case.state() == 1 && case.before.config.mechanism == mechanism
            },
        );
        for state in ALL {
            let label = format!("PDelayReq answered, {name} port, {}", STATES[state]);
            section.add(&label, move |case| {
                let right = case.before.config.mechanism == mechanism;
                case.reaches(2) && right && case.state() == state
            });
        }
    }
    section.add_states("DelayReq, nothing", &[0, 2, 3, 4], |case| case.reaches(1));
    for kind in [1, 2] {
        let sent = move |case: &Case| case.reaches(kind) && case.answer.length > 0;
        section.add(&format!("type {kind}, time with a fraction"), move |case| {
            sent(case) && case.time().is_some_and(|time| time as u32 >= 1 << 16)
        });
        section.add(&format!("type {kind}, negative correction"), move |case| {
            sent(case) && case.seen().correction < 0
        });
        section.add(
            &format!("type {kind}, from our own identity"),
            move |case| sent(case) && case.seen().source == case.before.config.identity,
        );
    }
    section
}

fn sync_timer() -> Section {
    let mut section = Section::new("sync timer", |case| {
        case.taken() && *case.event == Event::SyncTimer
    });
    section.add_states("nothing", &[0, 2, 3, 4], |_| true);
    for interval in -9..=16 {
        section.add(&format!("as Master, interval {interval}"), move |case| {
            case.state() == 1 && case.before.config.sync_interval == interval
        });
    }
    section
}

/// Types 0 to 3 where they do nothing though they would on the other entry.
fn general() -> Section {
    let mut section = Section::new("general entry", |case| case.taken() && case.on_general());
    section.add("Sync, as Slave from our master", |case| {
        case.reaches(0) && case.guarded()
    });
    section.add("DelayReq, as Master", |case| {
        case.reaches(1) && case.state() == 1
    });
    section.add_states("PDelayReq", &ALL, |case| case.reaches(2));
    let open =
        |case: &Case| case.reaches(3) && case.to_us() && case.peer_id() == Some(case.seen().id);
    section.add("PDelayResp, ours and open", move |case| {
        open(case) && case.is_measuring()
    });
    section.add("PDelayResp of a second responder", move |case| {
        open(case)
            && case
                .responder()
                .is_some_and(|known| known != case.seen().source)
    });
    section
}
