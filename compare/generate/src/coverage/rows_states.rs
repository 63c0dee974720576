//! Rows for filter answers and changes of state (01, 'What each event does').

use super::case::{new_state_number, Case, Section, STATES};
use plain::{Event, NewState};

const ALL: [usize; 5] = [0, 1, 2, 3, 4];

pub fn sections() -> Vec<Section> {
    vec![filter(), states()]
}

fn filter() -> Section {
    let mut section = Section::new("filter answer", |case| case.taken());
    let given = |case: &Case| match case.event {
        Event::Filter { mean, next } => Some((mean.is_some(), next.is_some())),
        _ => None,
    };
    let names = [("neither", (false, false)), ("mean delay", (true, false))];
    let more = [("next update", (false, true)), ("both", (true, true))];
    for (name, wanted) in names.into_iter().chain(more) {
        section.add(name, move |case| given(case) == Some(wanted));
    }
    section.add("mean delay over an older one", move |case| {
        case.before.mean.is_some() && given(case).is_some_and(|given| given.0)
    });
    for (name, value) in [("-2^127", i128::MIN), ("2^127 - 1", i128::MAX), ("0", 0)] {
        section.add(&format!("mean delay {name}"), move |case| {
            matches!(case.event, Event::Filter { mean: Some(mean), .. } if *mean == value)
        });
    }
    for value in [0, u64::MAX] {
        section.add(&format!("next update {value}"), move |case| {
            matches!(case.event, Event::Filter { next: Some(next), .. } if *next == value)
        });
    }
    section
}

fn states() -> Section {
    let mut section = Section::new("set state", |case| {
        case.taken() && matches!(case.event, Event::SetState(_))
    });
    let new = |case: &Case| match case.event {
        Event::SetState(state) => Some(new_state_number(state)),
        _ => None,
    };
    for (from, old) in STATES.iter().enumerate() {
        for (to, name) in STATES.iter().enumerate() {
            section.add(&format!("{old} to {name}"), move |case| {
                case.state() == from && new(case) == Some(to)
            });
        }
    }
    let again = |case: &Case, same: bool| match (case.event, case.slave()) {
        (Event::SetState(NewState::Slave(master)), Some(slave)) => {
            (slave.master == *master) == same
        }
        _ => false,
    };
    section.add("Slave again, same master", move |case| again(case, true));
    section.add("Slave again, other master", move |case| again(case, false));
    section.add("open sync emptied", |case| case.sync().is_some());
    section.add("open delay emptied", |case| case.delay().is_some());
    section.add("Slave again drops the last raw sync offset", move |case| {
        new(case) == Some(4) && case.slave().is_some_and(|slave| slave.raw.is_some())
    });
    section.add_states("open peer exchange stays", &ALL, |case| case.is_measuring());
    section.add_states("measured peer exchange stays", &ALL, |case| {
        case.is_measured()
    });
    section.add("mean delay stays", |case| case.before.mean.is_some());
    section
}
