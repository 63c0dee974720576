//! Rows for measurements, the order of an exchange's events, exchanges across each
//! other, and ids that wrap (01, 'The measurement' and 'Units').

use super::case::{Case, Section};
use super::history::Track;
use super::sums::Quantity;
use plain::{Context, Event, Kind, Mechanism};

const ALL: [usize; 5] = [0, 1, 2, 3, 4];

pub fn sections() -> Vec<Section> {
    vec![sync(), delay(), peer(), orders(), across(), wraps()]
}

fn measured(case: &Case, kind: Kind) -> bool {
    case.answer
        .measurement
        .is_some_and(|found| found.kind == kind)
}

/// Negative, zero and positive values; both signs of the asymmetry.
fn values(section: &mut Section) {
    let value = |case: &Case| case.answer.measurement.map_or(0, |found| found.value);
    section.add("negative", move |case| value(case) < 0);
    section.add("zero", move |case| value(case) == 0);
    section.add("positive", move |case| value(case) > 0);
    section.add("of more than 64 bits", move |case| value(case) >> 64 > 0);
}

fn asymmetry(section: &mut Section) {
    section.add("asymmetry 0", |case| case.before.config.asymmetry == 0);
    section.add("asymmetry positive", |case| {
        case.before.config.asymmetry > 0
    });
    section.add("asymmetry negative", |case| {
        case.before.config.asymmetry < 0
    });
}

fn sync() -> Section {
    let mut section = Section::new("sync measurement", |case| {
        measured(case, Kind::Sync) && case.seen.is_some()
    });
    values(&mut section);
    asymmetry(&mut section);
    section.add("without mean delay", |case| case.before.mean.is_none());
    section.add("with mean delay", |case| case.before.mean.is_some());
    section.add("with negative mean delay", |case| {
        case.before.mean.is_some_and(|mean| mean < 0)
    });
    section.add("first since Slave", |case| {
        case.slave().is_some_and(|slave| slave.raw.is_none())
    });
    section.add("replaces the last raw", |case| {
        case.slave().is_some_and(|slave| slave.raw.is_some())
    });
    section.add("corrected receive time", |case| {
        case.seen().kind == 0 && case.seen().correction != 0
    });
    section.add("corrected send time", |case| {
        case.seen().kind == 8 && case.seen().correction != 0
    });
    section.add("one-step, body time not 0", |case| {
        case.seen().kind == 0 && !case.seen().two_step() && case.seen().stamp() != 0
    });
    section.add("one-step, same id as the last: measured again", |case| {
        let last = case.sync().is_none() && case.history.last_sync == Some(case.seen().id);
        case.seen().kind == 0 && !case.seen().two_step() && last
    });
    section
}

/// The difference before halving, by sign and parity.
fn halves(section: &mut Section, quantity: Quantity) {
    for (name, negative, odd) in [
        ("negative odd", true, true),
        ("negative even", true, false),
        ("positive odd", false, true),
        ("positive even", false, false),
    ] {
        section.add(&format!("half of a {name} difference"), move |case| {
            case.sums.value(quantity).is_some_and(|value| {
                value != 0 && (value < 0) == negative && (value % 2 != 0) == odd
            })
        });
    }
    section.add("half of -1", move |case| {
        case.sums.value(quantity) == Some(-1)
    });
    section.add("half of -3", move |case| {
        case.sums.value(quantity) == Some(-3)
    });
    section.add("half of 3", move |case| {
        case.sums.value(quantity) == Some(3)
    });
}

fn delay() -> Section {
    let mut section = Section::new("delay measurement", |case| measured(case, Kind::Delay));
    values(&mut section);
    asymmetry(&mut section);
    let kept = |case: &Case| case.slave().is_some_and(|slave| slave.raw.is_some());
    section.add("without last raw sync offset", move |case| !kept(case));
    section.add("with last raw sync offset", kept);
    section.add("with mean delay stored", |case| case.before.mean.is_some());
    section.add("second with the same last raw sync offset", move |case| {
        kept(case) && case.before.delay_id > 1
    });
    halves(&mut section, Quantity::DelayBoth);
    section
}

fn peer() -> Section {
    let mut section = Section::new("peer measurement", |case| measured(case, Kind::Peer));
    values(&mut section);
    section.add_states("in state", &ALL, |_| true);
    halves(&mut section, Quantity::PeerBoth);
    section.add("with mean delay stored", |case| case.before.mean.is_some());
    section.add("ends Faulty that the host set", |case| {
        case.state() == 3 && !case.history.second
    });
    section.add("of the first responder ends Faulty of a second", |case| {
        case.state() == 3 && case.history.second
    });
    section
}

fn completed<'a>(case: &'a Case, kind: Kind) -> Option<&'a Track> {
    case.history
        .completed
        .as_ref()
        .filter(|done| done.0 == kind)
        .map(|done| &done.1)
}

/// Letters as in `history::Track`.
fn orders() -> Section {
    let mut section = Section::new("order", |case| case.history.completed.is_some());
    let named: [(&str, Kind, &[&str]); 4] = [
        ("sync", Kind::Sync, &["SF", "FS", "1"]),
        ("delay", Kind::Delay, &["TR", "RT"]),
        (
            "peer one-step",
            Kind::Peer,
            &["TO", "OT", "UOT", "UTO", "TUO"],
        ),
        (
            "peer two-step",
            Kind::Peer,
            &["TPU", "TUP", "PTU", "PUT", "UTP", "UPT"],
        ),
    ];
    for (name, kind, orders) in named {
        for order in orders.iter().copied() {
            section.add(&format!("{name} {order}"), move |case| {
                completed(case, kind).is_some_and(|track| track.order == order)
            });
        }
    }
    for (name, kind) in [
        ("sync", Kind::Sync),
        ("delay", Kind::Delay),
        ("peer", Kind::Peer),
    ] {
        section.add(&format!("{name}, a refused message between"), move |case| {
            completed(case, kind).is_some_and(|track| track.refused && track.order.len() > 1)
        });
        section.add(&format!("{name}, after an event answered 7"), move |case| {
            completed(case, kind).is_some_and(|track| track.seven && track.order.len() > 1)
        });
    }
    section
}

/// Delay and peer exchanges are never open at once: the mechanism of a log is fixed.
fn across() -> Section {
    let mut section = Section::new("across", |case| case.answer.measurement.is_some());
    let sync = |case: &Case| measured(case, Kind::Sync);
    section.add("sync completed, delay open without a time", move |case| {
        sync(case)
            && case
                .delay()
                .is_some_and(|open| open.send.or(open.receive).is_none())
    });
    section.add("sync completed, delay open with its stamp", move |case| {
        sync(case) && case.delay().is_some_and(|open| open.send.is_some())
    });
    section.add(
        "sync completed, delay open with its response",
        move |case| sync(case) && case.delay().is_some_and(|open| open.receive.is_some()),
    );
    section.add("sync completed, peer measuring", move |case| {
        sync(case) && case.is_measuring()
    });
    section.add("sync completed, peer measured", move |case| {
        sync(case) && case.is_measured()
    });
    for (name, kind) in [("delay", Kind::Delay), ("peer", Kind::Peer)] {
        section.add(&format!("{name} completed, Sync open"), move |case| {
            measured(case, kind) && case.sync().is_some_and(|open| open.receive.is_some())
        });
        section.add(&format!("{name} completed, FollowUp open"), move |case| {
            measured(case, kind) && case.sync().is_some_and(|open| open.send.is_some())
        });
    }
    section
}

/// The three generators past 65535, and exchanges that go on behind.
fn wraps() -> Section {
    let mut section = Section::new("wrap", |case| case.taken());
    let sync = |case: &Case, id: u16| {
        *case.event == Event::SyncTimer && case.state() == 1 && case.before.sync_id == id
    };
    section.add("sync id 65535 taken", move |case| sync(case, 65_535));
    section.add("sync id 0 taken again", move |case| {
        sync(case, 0) && case.history.wrapped[0]
    });
    section.add("FollowUp sent behind it", |case| {
        let stamp = matches!(case.context(), Some(Context::Sync(_)));
        stamp && case.answer.length > 0 && case.history.wrapped[0]
    });
    wrapped(&mut section, "delay", Kind::Delay);
    wrapped(&mut section, "peer", Kind::Peer);
    section
}

fn wrapped(section: &mut Section, name: &str, kind: Kind) {
    let past = move |case: &Case| case.history.wrapped[kind as usize];
    // The id that the next request of this kind takes.
    let next = move |case: &Case| match kind {
        Kind::Delay => case.before.delay_id,
        _ => case.before.peer_id,
    };
    let takes = move |case: &Case, id: u16| {
        let peer = case.before.config.mechanism == Mechanism::Peer;
        let timer = matches!(case.event, Event::DelayTimer { .. }) && case.answer.length > 0;
        timer && peer == (kind == Kind::Peer) && next(case) == id
    };
    section.add(&format!("{name} id 65535 taken"), move |case| {
        takes(case, 65_535)
    });
    section.add(&format!("{name} id 0 taken again"), move |case| {
        takes(case, 0) && past(case)
    });
    section.add(&format!("{name} measured with id 65535"), move |case| {
        measured(case, kind) && next(case) == 0 && past(case)
    });
    section.add(&format!("{name} measured behind it"), move |case| {
        measured(case, kind) && next(case) > 0 && past(case)
    });
}
