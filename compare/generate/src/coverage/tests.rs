//! The report on small logs whose rows are known.

use super::*;
use crate::build::{units, Message};
use crate::stage::{config_of, Stage, MASTER};
use plain::Mechanism;
use std::collections::BTreeSet;

fn counted(coverage: &Coverage, name: &str) -> (u64, u64) {
    let found = coverage.rows().find(|row| row.0 == name);
    found
        .map(|row| (row.1, row.2))
        .unwrap_or_else(|| panic!("no row {name}"))
}

/// Marked example A, then its Sync again with a correction that cannot be taken off.
fn example() -> Stage {
    let mut stage = Stage::new(config_of(Mechanism::EndToEnd));
    let sync = Message::sync(&stage.config, MASTER, 7).two_step();
    let follow_up = Message::follow_up(&stage.config, MASTER, 7).with_ns(900);
    stage.slave();
    stage.event(units(1000), &sync);
    stage.general(&follow_up);
    stage
}

#[test]
fn example_a() {
    let mut coverage = Coverage::new();
    coverage.log(Folder::Domain, "a", &example().log.bytes);
    for (name, count) in [
        ("answer: 0", 3),
        ("answer: 7", 0),
        ("set state: Listening to Slave", 1),
        ("Sync: two-step, none open", 1),
        (
            "FollowUp: same id without send time, completes, general entry",
            1,
        ),
        ("sync measurement: positive", 1),
        ("sync measurement: without mean delay", 1),
        ("order: sync SF", 1),
        ("order: sync FS", 0),
    ] {
        assert_eq!(counted(&coverage, name), (count, 0), "{name}");
    }
    assert_eq!(coverage.surprises(), 0);
}

#[test]
fn refusals_count_beyond() {
    let mut stage = example();
    let sync = Message::sync(&stage.config, MASTER, 8).with_correction(1);
    stage.event(65_535, &sync);
    stage.event(65_536, &sync);
    let mut coverage = Coverage::new();
    coverage.log(Folder::Beyond, "refused", &stage.log.bytes);
    assert_eq!(counted(&coverage, "sum: SyncReceive 7, below"), (0, 1));
    let name = "sum: SyncReceive taken at the lower end";
    assert_eq!(counted(&coverage, name), (0, 1));
    assert_eq!(counted(&coverage, "7: one-step Sync, none open"), (0, 1));
    assert_eq!(coverage.surprises(), 0);
}

#[test]
fn what_is_outside_the_domain_is_told() {
    let mut stage = example();
    stage.delay_timer(1 << 52);
    let mut coverage = Coverage::new();
    coverage.log(Folder::Domain, "outside", &stage.log.bytes);
    assert_eq!(coverage.surprises(), 1);
    assert!(coverage.report().contains("SURPRISE outside event 4"));
}

#[test]
fn bad_logs() {
    let mut bytes = example().log.bytes;
    bytes.push(0x10);
    let mut coverage = Coverage::new();
    coverage.log(Folder::Damaged, "tail", &bytes);
    coverage.log(Folder::Damaged, "empty", &[]);
    assert_eq!(
        counted(&coverage, "log: bad, 1 bytes behind the last field"),
        (0, 1)
    );
    assert_eq!(counted(&coverage, "log: bad, empty log"), (0, 1));
    assert_eq!(coverage.surprises(), 0);
}

#[test]
fn names_are_unique() {
    let coverage = Coverage::new();
    let names: BTreeSet<&str> = coverage.rows().map(|row| row.0).collect();
    assert_eq!(names.len(), coverage.rows().count());
    assert_eq!(coverage.empty(), names.len());
}
