//! Rows 2 and 3 of the table in 01, 'Numbers the port answers', and a count of all
//! numbers.

use super::case::{stamp_kind, Case, Section};
use plain::{Config, Event};

pub fn sections() -> Vec<Section> {
    vec![numbers(), unfit(), limits(), within()]
}

fn numbers() -> Section {
    let mut section = Section::new("answer", |_| true);
    for number in [0, 2, 3, 4, 5, 6, 8, 7] {
        section.add(&number.to_string(), move |case| case.number(number));
    }
    section
}

fn kind_of(event: &Event) -> usize {
    match event {
        Event::Event { .. } => 0,
        Event::General { .. } => 1,
        Event::Stamp { .. } => 2,
        Event::SyncTimer => 3,
        Event::DelayTimer { .. } => 4,
        Event::Filter { .. } => 5,
        Event::SetState(_) => 6,
    }
}

const EVENTS: [&str; 7] = [
    "event message",
    "general message",
    "stamp",
    "sync timer",
    "delay timer",
    "filter answer",
    "set state",
];

type Value = fn(&Config) -> i32;

/// Values out of limits.
const OUT: [(&str, Value, [i32; 4]); 4] = [
    (
        "sdo id",
        |config| config.sdo as i32,
        [4096, 4097, 0x8000, 0xFFFF],
    ),
    (
        "minor version",
        |config| config.minor as i32,
        [2, 3, 128, 255],
    ),
    (
        "delay interval",
        |config| config.delay_interval as i32,
        [-128, -10, 17, 127],
    ),
    (
        "sync interval",
        |config| config.sync_interval as i32,
        [-128, -10, 17, 127],
    ),
];

/// Row 2. Only one value is out of limits in each of these, so that none hides another.
fn unfit() -> Section {
    let mut section = Section::new("2 unfit", |case| case.number(2));
    for (number, name) in EVENTS.iter().enumerate() {
        section.add(name, move |case| kind_of(case.event) == number);
    }
    for (name, value, ends) in OUT {
        for end in ends {
            section.add(&format!("{name} {end} alone"), move |case| {
                value(&case.before.config) == end && alone(case)
            });
        }
    }
    for row in [3, 4, 5, 6, 8] {
        section.add(&format!("before {row}"), move |case| case.refusals.row(row));
    }
    section.add("before 7", |case| case.sums.leaves());
    section
}

fn alone(case: &Case) -> bool {
    let found = &case.refusals;
    let held = [
        found.sdo_limit,
        found.minor_limit,
        found.delay_interval,
        found.sync_interval,
    ];
    held.into_iter().filter(|held| *held).count() == 1
}

fn draws(case: &Case, wanted: u64) -> bool {
    *case.event == Event::DelayTimer { draw: wanted }
}

/// Row 3.
fn limits() -> Section {
    let mut section = Section::new("3 limits", |case| case.number(3));
    for (name, time) in [("2^127", 1 << 127), ("2^128 - 1", u128::MAX)] {
        section.add(&format!("message at {name}"), move |case| {
            case.on_event() && case.time() == Some(time)
        });
        for kind in 0..4 {
            section.add(&format!("stamp of kind {kind} at {name}"), move |case| {
                stamp_kind(case) == Some(kind) && case.time() == Some(time)
            });
        }
    }
    section.add("draw 2^52", move |case| draws(case, 1 << 52));
    section.add("draw 2^64 - 1", move |case| draws(case, u64::MAX));
    section.add_states("draw, delay timer", &[0, 1, 2, 3, 4], |case| {
        case.refusals.draw
    });
    section.add_states("time, message", &[0, 1, 2, 3, 4], |case| {
        case.on_event() && case.refusals.time
    });
    for row in [4, 5, 6, 8] {
        section.add(&format!("before {row}"), move |case| case.refusals.row(row));
    }
    // A time with its top bit set has far more than 48 bits of seconds.
    section.add("before 7 (answer to PDelayReq)", |case| {
        let right = [4, 5, 6, 8].iter().all(|row| !case.refusals.row(*row));
        right && case.seen.as_ref().is_some_and(|seen| seen.kind == 2)
    });
    section
}

/// The values next to the limits of row 3.
fn within() -> Section {
    let mut section = Section::new("3 just within", |case| case.taken());
    let last = Some((1u128 << 127) - 1);
    section.add("message at 2^127 - 1 taken", move |case| {
        case.on_event() && case.time() == last
    });
    section.add("message at 0 taken", |case| {
        case.on_event() && case.time() == Some(0)
    });
    section.add("stamp at 2^127 - 1 taken", move |case| {
        case.context().is_some() && case.time() == last
    });
    section.add("draw 2^52 - 1 taken", move |case| {
        draws(case, (1 << 52) - 1)
    });
    section
}
