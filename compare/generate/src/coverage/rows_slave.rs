//! Rows for Sync, FollowUp and DelayResp (01, 'What each event does').

use super::case::{Case, Section};

const NOT_SLAVE: [usize; 4] = [0, 1, 2, 3];

pub fn sections() -> Vec<Section> {
    vec![sync(), follow_up(), delay_response()]
}

/// Source and master differ in the clock only, or in the port number only.
fn differs(case: &Case, clock: bool) -> bool {
    case.slave().is_some_and(|slave| {
        let (ours, theirs) = (slave.master, case.seen().source);
        (ours[..8] != theirs[..8]) == clock && (ours[8..] != theirs[8..]) != clock
    })
}

fn guard(section: &mut Section) {
    section.add_states("nothing, not Slave", &NOT_SLAVE, |case| case.taken());
    section.add("nothing, other clock", |case| {
        case.taken() && differs(case, true)
    });
    section.add("nothing, other port of the same clock", |case| {
        case.taken() && differs(case, false)
    });
    section.add("taken from our own identity as master", |case| {
        case.taken() && case.guarded() && case.seen().source == case.before.config.identity
    });
}

type Test = fn(&Case) -> bool;

/// How the sync exchange stands when a Sync comes.
const STANDS: [(&str, Test); 5] = [
    ("none open", |case| case.sync().is_none()),
    ("same id, receive time held", |case| {
        case.same_sync().is_some_and(|open| open.receive.is_some())
    }),
    ("same id, FollowUp only", |case| {
        case.same_sync().is_some_and(|open| open.receive.is_none())
    }),
    ("replaces other id with receive time", |case| {
        case.other_sync().is_some_and(|open| open.receive.is_some())
    }),
    ("replaces other id with FollowUp only", |case| {
        case.other_sync().is_some_and(|open| open.receive.is_none())
    }),
];

fn sync() -> Section {
    let mut section = Section::new("Sync", |case| case.reaches(0) && case.on_event());
    guard(&mut section);
    section.add(
        "nothing outside the guard though the sum would leave",
        |case| {
            let time = case.time().unwrap_or(0) as i128;
            let sum = time.checked_sub(case.seen().corrected());
            case.taken() && !case.guarded() && sum.is_none_or(|sum| sum < 0)
        },
    );
    let step = |case: &Case, two_step: bool| {
        case.taken() && case.guarded() && case.seen().two_step() == two_step
    };
    for (name, test) in STANDS {
        section.add(&format!("two-step, {name}"), move |case| {
            step(case, true) && test(case)
        });
        section.add(&format!("one-step, {name}"), move |case| {
            step(case, false) && test(case)
        });
    }
    let again =
        |case: &Case| case.sync().is_none() && case.history.last_sync == Some(case.seen().id);
    section.add(
        "two-step with the id completed last opens anew",
        move |case| step(case, true) && again(case) && case.answer.measurement.is_none(),
    );
    section.add("id 65535", |case| {
        case.taken() && case.guarded() && case.seen().id == 65_535
    });
    section
}

fn follow_up() -> Section {
    let mut section = Section::new("FollowUp", |case| case.reaches(8));
    guard(&mut section);
    section.add(
        "nothing outside the guard though the sum would leave",
        |case| case.taken() && !case.guarded() && case.seen().stamp() + case.seen().corrected() < 0,
    );
    let inside = |case: &Case| case.taken() && case.guarded();
    section.add_entries("none open", move |case| {
        inside(case) && case.sync().is_none()
    });
    section.add_entries("nothing, same id with send time", move |case| {
        inside(case) && case.same_sync().is_some_and(|open| open.send.is_some())
    });
    section.add_entries("same id without send time, completes", move |case| {
        inside(case) && case.same_sync().is_some_and(|open| open.send.is_none())
    });
    section.add_entries("replaces other id with receive time", move |case| {
        inside(case) && case.other_sync().is_some_and(|open| open.receive.is_some())
    });
    section.add_entries("replaces other id with FollowUp only", move |case| {
        inside(case) && case.other_sync().is_some_and(|open| open.receive.is_none())
    });
    section.add("two-step flag set", move |case| {
        inside(case) && case.seen().two_step()
    });
    section
}

/// What makes a DelayResp do nothing.
fn idle(case: &Case) -> bool {
    let open = case
        .delay()
        .is_some_and(|open| open.id == case.seen().id && open.receive.is_none());
    !(case.guarded() && case.to_us() && open)
}

fn delay_response() -> Section {
    let mut section = Section::new("DelayResp", |case| case.reaches(9));
    section.add_states("nothing, not Slave", &NOT_SLAVE, |case| case.taken());
    let open = |case: &Case| case.delay().is_some_and(|open| open.id == case.seen().id);
    section.add("nothing, other requester", move |case| {
        case.taken() && case.guarded() && !case.to_us() && open(case)
    });
    section.add("nothing, other source", move |case| {
        case.taken() && case.slave().is_some() && !case.guarded() && case.to_us() && open(case)
    });
    section.add("nothing, other source and requester", move |case| {
        case.taken() && case.slave().is_some() && !case.guarded() && !case.to_us() && open(case)
    });
    let ours = |case: &Case| case.taken() && case.guarded() && case.to_us();
    section.add_entries("nothing, none open", move |case| {
        ours(case) && case.delay().is_none()
    });
    section.add_entries("nothing, other id open", move |case| {
        ours(case) && case.delay().is_some() && !open(case)
    });
    section.add_entries("nothing, receive time held", move |case| {
        ours(case) && open(case) && case.delay().is_some_and(|open| open.receive.is_some())
    });
    section.add_entries("stored before the stamp", move |case| {
        ours(case)
            && open(case)
            && case
                .delay()
                .is_some_and(|open| open.send.or(open.receive).is_none())
    });
    section.add_entries("completes", move |case| {
        ours(case) && open(case) && case.delay().is_some_and(|open| open.send.is_some())
    });
    section.add("no sum where nothing is done", |case| {
        case.taken() && idle(case) && case.seen().stamp() < case.seen().corrected()
    });
    section
}
