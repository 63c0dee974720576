//! Rows for what a message holds beside the rules (01, 'Wire form'; reading 15), and
//! for configurations within limits.

use super::case::{Case, Section};
use plain::{Config, Peer};

pub fn sections() -> Vec<Section> {
    vec![unread(), numbers(), own(), configs()]
}

/// A message that did something: only then does it show that a field is not read.
fn worked(case: &Case) -> bool {
    let effect = case.before != case.after || case.answer.length > 0;
    let measured = case.answer.measurement.is_some();
    case.taken() && case.seen.is_some() && (effect || measured)
}

fn unread() -> Section {
    let mut section = Section::new("not read", worked);
    for minor in 0..16 {
        section.add(&format!("minor version {minor}"), move |case| {
            case.seen().minor == minor
        });
    }
    for bit in (0..16).filter(|bit| 1 << bit != 0x0200) {
        section.add(&format!("flag bit {bit}"), move |case| {
            case.seen().flags >> bit & 1 == 1
        });
    }
    section.add("reserved bytes", |case| case.seen().reserved != 0);
    section.add("control", |case| case.seen().control > 5);
    section.add("log interval out of limits", |case| {
        !(-9..=16).contains(&(case.seen().interval as i8))
    });
    for kind in [0, 1, 2, 3, 8, 9, 10] {
        section.add(
            &format!("bytes behind the body, type {kind}, not stated"),
            move |case| {
                let seen = case.seen();
                seen.kind == kind && seen.there > seen.table() && seen.stated == seen.table()
            },
        );
        section.add(
            &format!("bytes behind the body, type {kind}, stated"),
            move |case| {
                let seen = case.seen();
                seen.kind == kind && seen.stated > seen.table()
            },
        );
    }
    section.add("message of 1024 bytes", |case| case.seen().there == 1024);
    section.add("two-step flag on a type without it", |case| {
        case.seen().two_step() && !matches!(case.seen().kind, 0 | 3)
    });
    section
}

/// Numbers of the wire at their ends.
fn numbers() -> Section {
    let mut section = Section::new("wire", worked);
    let timed = |case: &Case| matches!(case.seen().kind, 0 | 3 | 8 | 9 | 10);
    for seconds in [0, 1 << 32, (1 << 48) - 1] {
        section.add(&format!("seconds {seconds}"), move |case| {
            timed(case) && case.seen().seconds == seconds
        });
    }
    for nanoseconds in [0, 999_999_999, 1_000_000_000, u32::MAX] {
        section.add(&format!("nanoseconds {nanoseconds}"), move |case| {
            timed(case) && case.seen().nanoseconds == nanoseconds
        });
    }
    for (name, correction) in [
        ("0", 0),
        ("-1", -1),
        ("-2^63", i64::MIN),
        ("2^63 - 1", i64::MAX),
    ] {
        section.add(&format!("correction {name}"), move |case| {
            case.seen().correction == correction
        });
    }
    for id in [0, 65_535] {
        section.add(&format!("id {id}"), move |case| case.seen().id == id);
    }
    section
}

/// Own times of every size, and identities of equal bytes.
fn own() -> Section {
    let mut section = Section::new("own", worked);
    for byte in [0, 0xFF] {
        section.add(&format!("source of bytes {byte}"), move |case| {
            case.seen().source == [byte; 10]
        });
    }
    for part in 0..8 {
        let name = format!("time of {} to {} bits", 16 * part + 1, 16 * part + 16);
        section.add(&name, move |case| {
            case.time()
                .is_some_and(|time| time >> (16 * part) > 0 && time >> (16 * part) < 1 << 16)
        });
    }
    section.add("responder known by 0 bytes", |case| {
        matches!(case.after.peer, Peer::Measuring { responder: Some(known), .. } if known == [0; 10])
    });
    section
}

type Fits = fn(&Config) -> bool;

fn configs() -> Section {
    let mut section = Section::new("configuration", |case| {
        case.taken() && case.answer.length > 0
    });
    let rows: [(&str, Fits); 13] = [
        ("sdo id 0", |config| config.sdo == 0),
        ("sdo id 4095", |config| config.sdo == 4095),
        ("domain 0", |config| config.domain == 0),
        ("domain 255", |config| config.domain == 255),
        ("minor version 0", |config| config.minor == 0),
        ("minor version 1", |config| config.minor == 1),
        ("identity of bytes 0", |config| config.identity == [0; 10]),
        ("identity of bytes 255", |config| {
            config.identity == [0xFF; 10]
        }),
        ("asymmetry 0", |config| config.asymmetry == 0),
        ("asymmetry -2^127", |config| config.asymmetry == i128::MIN),
        ("asymmetry 2^127 - 1", |config| {
            config.asymmetry == i128::MAX
        }),
        ("asymmetry positive", |config| config.asymmetry > 0),
        ("asymmetry negative", |config| config.asymmetry < 0),
    ];
    for (name, test) in rows {
        section.add(name, move |case| test(&case.before.config));
    }
    section
}
