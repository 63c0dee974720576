//! That the cases hang together. What they expect is not tested here.

use crate::{all, wrap, Case};
use std::collections::HashSet;
use std::sync::OnceLock;

/// Made once, because those of `wrap` take a while.
fn every_case() -> &'static [Case] {
    static CASES: OnceLock<Vec<Case>> = OnceLock::new();
    CASES.get_or_init(|| [all(), wrap()].concat())
}

/// Events that stand before the end of the log, or before the field that is bad.
fn events(case: &Case) -> usize {
    let bad = case
        .lines
        .last()
        .and_then(|line| line.strip_prefix("bad at "));
    let stop = bad.map_or(case.log.len(), |at| at.parse().expect("an offset"));
    let mut at = 0;
    let mut fields = 0;
    while at < stop {
        at += 3 + (usize::from(case.log[at + 1]) << 8) + usize::from(case.log[at + 2]);
        fields += 1;
    }
    assert_eq!(at, stop, "{}: the fields end where they should", case.name);
    // The configuration is no event.
    fields.max(1) - 1
}

#[test]
fn names_are_kebab_case_and_distinct() {
    let mut seen = HashSet::new();
    for case in every_case() {
        let kebab = |c: char| c.is_ascii_lowercase() || c.is_ascii_digit() || c == '-';
        assert!(case.name.chars().all(kebab), "{}", case.name);
        assert!(seen.insert(case.name), "{} is there twice", case.name);
        assert!(case.about.ends_with('.'), "{}", case.name);
    }
}

#[test]
fn logs_are_distinct() {
    let mut seen = HashSet::new();
    for case in every_case() {
        assert!(seen.insert(&case.log), "{} repeats a log", case.name);
    }
}

#[test]
fn each_event_has_a_line_and_one_more_ends_them() {
    for case in every_case() {
        let last = case.lines.last().expect("a line");
        assert!(
            last.starts_with("end ") || last.starts_with("bad at "),
            "{}",
            case.name
        );
        assert_eq!(case.lines.len(), events(case) + 1, "{}", case.name);
    }
}

#[test]
fn lines_are_numbered_and_whole() {
    for case in every_case() {
        let lines = &case.lines[..case.lines.len() - 1];
        for (number, line) in (1..).zip(lines) {
            let columns: Vec<_> = line.split(' ').collect();
            assert_eq!(columns.len(), 10, "{}: {line}", case.name);
            assert_eq!(columns[0], number.to_string(), "{}", case.name);
        }
    }
}

#[test]
fn the_domain_holds_no_other_answers() {
    for case in every_case().iter().filter(|case| case.domain) {
        for line in case.lines.iter().filter(|line| !line.starts_with("end ")) {
            let answer = line.split(' ').nth(1);
            assert!(
                matches!(answer, Some("0" | "4" | "5" | "6")),
                "{}: {line}",
                case.name
            );
        }
    }
}
