//! Row 7 of the table in 01, and the values that only just stay out of it.

use super::case::{Case, Section};
use super::sums::{Fate, Quantity, REACHED};
use plain::Context;

pub fn sections() -> Vec<Section> {
    vec![ends(), ways()]
}

/// Each end of each range that a log can reach (see `sums` for those that it cannot).
fn ends() -> Section {
    let mut section = Section::new("sum", |case| {
        case.refusals.first().is_none() && !case.sums.lines.is_empty()
    });
    for (quantity, fates) in REACHED {
        for fate in fates.iter().copied() {
            let (name, number) = match fate {
                Fate::Below => ("7, below", 7),
                Fate::Above => ("7, above", 7),
                Fate::Lowest => ("taken at the lower end", 0),
                Fate::Highest => ("taken at the upper end", 0),
                Fate::Inside => ("taken", 0),
            };
            section.add(&format!("{quantity:?} {name}"), move |case| {
                case.number(number) && case.sums.fate(quantity) == Some(fate)
            });
        }
    }
    section
}

fn left(case: &Case, quantity: Quantity) -> bool {
    matches!(case.sums.fate(quantity), Some(Fate::Below | Fate::Above))
}

/// The same sums by each event that can bring them about.
fn ways() -> Section {
    let mut section = Section::new("7", |case| case.number(7));
    syncs(&mut section);
    follow_ups(&mut section);
    others(&mut section);
    completions(&mut section);
    section
}

fn syncs(section: &mut Section) {
    let sync = |case: &Case, two_step: bool| {
        left(case, Quantity::SyncReceive) && case.seen().two_step() == two_step
    };
    for (name, two_step) in [("one-step Sync", false), ("two-step Sync", true)] {
        section.add(&format!("{name}, none open"), move |case| {
            sync(case, two_step) && case.sync().is_none()
        });
        section.add(
            &format!("{name}, same id with receive time (a duplicate)"),
            move |case| {
                sync(case, two_step) && case.same_sync().is_some_and(|open| open.receive.is_some())
            },
        );
        section.add(
            &format!("{name}, same id with FollowUp only"),
            move |case| {
                sync(case, two_step) && case.same_sync().is_some_and(|open| open.send.is_some())
            },
        );
        section.add(&format!("{name}, other id open"), move |case| {
            sync(case, two_step) && case.other_sync().is_some()
        });
    }
}

fn follow_ups(section: &mut Section) {
    let follow_up = |case: &Case| left(case, Quantity::FollowUpSend);
    section.add("FollowUp, none open", move |case| {
        follow_up(case) && case.sync().is_none()
    });
    section.add(
        "FollowUp, same id with send time (a duplicate)",
        move |case| follow_up(case) && case.same_sync().is_some_and(|open| open.send.is_some()),
    );
    section.add("FollowUp, same id with receive time", move |case| {
        follow_up(case) && case.same_sync().is_some_and(|open| open.receive.is_some())
    });
    section.add("FollowUp, other id open", move |case| {
        follow_up(case) && case.other_sync().is_some()
    });
    section.add_entries("FollowUp", follow_up);
}

fn others(section: &mut Section) {
    section.add_entries("DelayResp", |case| left(case, Quantity::DelayReceive));
    section.add_entries("peer follow-up", |case| left(case, Quantity::PeerSend));
    section.add_states("PDelayReq answer", &[0, 1, 2, 3, 4], |case| {
        left(case, Quantity::PeerRespSeconds)
    });
    section.add_states("peer follow-up sent", &[0, 1, 2, 3, 4], |case| {
        left(case, Quantity::PeerFollowUpSeconds)
    });
}

/// Which event would have completed the exchange.
fn completions(section: &mut Section) {
    for (name, quantity) in [("raw", Quantity::SyncRaw), ("offset", Quantity::Offset)] {
        section.add(&format!("sync {name}, one-step Sync last"), move |case| {
            left(case, quantity) && case.seen().kind == 0 && !case.seen().two_step()
        });
        section.add(&format!("sync {name}, two-step Sync last"), move |case| {
            left(case, quantity) && case.seen().kind == 0 && case.seen().two_step()
        });
        section.add(&format!("sync {name}, FollowUp last"), move |case| {
            left(case, quantity) && case.seen().kind == 8
        });
    }
    let stamped = |case: &Case| matches!(case.context(), Some(Context::DelayReq(_)));
    for (name, quantity) in [
        ("raw", Quantity::DelayRaw),
        ("difference", Quantity::DelayBoth),
    ] {
        section.add(&format!("delay {name}, stamp last"), move |case| {
            left(case, quantity) && stamped(case)
        });
        section.add(&format!("delay {name}, DelayResp last"), move |case| {
            left(case, quantity) && !stamped(case)
        });
    }
    let peer = |case: &Case| left(case, Quantity::PeerBoth);
    section.add("peer difference, stamp last", move |case| {
        peer(case) && case.context().is_some()
    });
    section.add("peer difference, response last", move |case| {
        peer(case) && case.seen.as_ref().is_some_and(|seen| seen.kind == 3)
    });
    section.add("peer difference, follow-up last", move |case| {
        peer(case) && case.seen.as_ref().is_some_and(|seen| seen.kind == 10)
    });
    section.add("peer difference, as Faulty", move |case| {
        peer(case) && case.state() == 3
    });
}
