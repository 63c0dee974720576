//! Rows 4, 5, 6 and 8 of the table in 01, 'Numbers the port answers'.

use super::case::Section;

pub fn sections() -> Vec<Section> {
    vec![four(), five(), stated(), short(), six(), eight()]
}

/// Row 4.
fn four() -> Section {
    let mut section = Section::new("4", |case| case.number(4));
    for length in [0, 1] {
        section.add_entries(&format!("message of {length} bytes"), move |case| {
            case.message()
                .is_some_and(|message| message.len() == length)
        });
    }
    for version in (0..16).filter(|version| *version != 2) {
        section.add_entries(&format!("version {version}"), move |case| {
            case.message()
                .is_some_and(|message| message.len() > 1 && message[1] % 16 == version)
        });
    }
    section.add("version alone, all else right", |case| {
        case.refusals.version && [5, 6, 8].iter().all(|row| !case.refusals.row(*row))
    });
    for row in [5, 6, 8] {
        section.add(&format!("before {row}"), move |case| case.refusals.row(row));
    }
    section
}

/// Row 5, the conditions that need no table.
fn five() -> Section {
    let mut section = Section::new("5", |case| case.number(5));
    for length in [2, 3, 4, 33] {
        section.add_entries(&format!("{length} bytes there"), move |case| {
            case.message()
                .is_some_and(|message| message.len() == length)
        });
    }
    for kind in [4, 5, 6, 7, 14, 15] {
        section.add_entries(&format!("type {kind} alone"), move |case| {
            case.refusals.five() == 1 && case.refusals.unknown && case.seen().kind == kind
        });
    }
    for row in [6, 8] {
        section.add(&format!("before {row}"), move |case| case.refusals.row(row));
    }
    section.add("several conditions of the row", |case| {
        case.refusals.five() > 1
    });
    section
}

/// Row 5, the stated length.
fn stated() -> Section {
    let mut section = Section::new("5 stated length", |case| {
        case.number(5) && case.seen.is_some()
    });
    // Below 34 is below the table's length too, so only the host's types show it alone.
    for length in [0, 33] {
        section.add_entries(&format!("{length}, host's type"), move |case| {
            case.refusals.five() == 1 && case.refusals.stated_low && case.seen().stated == length
        });
        section.add_entries(&format!("{length}, listed type"), move |case| {
            case.refusals.stated_low && case.seen().listed() && case.seen().stated == length
        });
    }
    section.add_entries("one above what is there, alone", |case| {
        case.refusals.five() == 1 && case.seen().stated == case.seen().there + 1
    });
    section.add_entries("65535 alone", |case| {
        case.refusals.five() == 1 && case.seen().stated == 65_535
    });
    section
}

/// The listed types with their lengths.
const LISTED: [(u8, usize); 7] = [
    (0, 44),
    (1, 44),
    (2, 54),
    (3, 54),
    (8, 44),
    (9, 54),
    (10, 54),
];

/// Row 5, lengths short of the table's.
fn short() -> Section {
    let mut section = Section::new("5 short of the table", |case| {
        case.number(5) && case.seen.is_some()
    });
    for (kind, table) in LISTED {
        for length in [34, table - 1] {
            let name = format!("{length} alone, type {kind} of {table}, all there");
            section.add_entries(&name, move |case| {
                let seen = case.seen();
                let right = seen.kind == kind && seen.stated == length && seen.there >= table;
                right && case.refusals.five() == 1
            });
        }
        let name = format!("{table} stated but one less there, type {kind}");
        section.add(&name, move |case| {
            let seen = case.seen();
            seen.kind == kind && seen.stated == table && seen.there == table - 1
        });
    }
    section
}

/// Row 6.
fn six() -> Section {
    let mut section = Section::new("6", |case| case.number(6) && case.seen.is_some());
    section.add_entries("high half of the sdo id alone", |case| {
        let (ours, theirs) = (case.before.config.sdo, case.seen().sdo);
        !case.refusals.domain && ours % 256 == theirs % 256
    });
    section.add_entries("low half of the sdo id alone", |case| {
        let (ours, theirs) = (case.before.config.sdo, case.seen().sdo);
        !case.refusals.domain && ours / 256 == theirs / 256
    });
    section.add_entries("domain alone", |case| !case.refusals.sdo);
    section.add("sdo id and domain", |case| {
        case.refusals.sdo && case.refusals.domain
    });
    for kind in [0, 1, 2, 3, 8, 9, 10] {
        section.add(&format!("type {kind}"), move |case| {
            case.seen().kind == kind
        });
    }
    section.add("before 8", |case| case.refusals.row(8));
    section.add("before 7", |case| case.sums.leaves());
    section
}

/// Row 8. No sum belongs to these types, so it never competes with row 7.
fn eight() -> Section {
    let mut section = Section::new("8", |case| case.number(8) && case.seen.is_some());
    for kind in [11, 12, 13] {
        section.add_entries(&format!("type {kind}, 34 stated"), move |case| {
            case.seen().kind == kind && case.seen().stated == 34
        });
        section.add_entries(&format!("type {kind}, all there stated"), move |case| {
            let seen = case.seen();
            seen.kind == kind && seen.stated == seen.there && seen.there > 34
        });
    }
    section
}
