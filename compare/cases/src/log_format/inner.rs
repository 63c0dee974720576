//! Damage to the inner fields: order, choice and length.

use super::{bad_first, damages, Damage};
use crate::Case;
use generate::build::{field, joined, stated};

pub fn all() -> Vec<Case> {
    [
        order(),
        missing(),
        not_taken(),
        widths(),
        too_large(),
        ends(),
    ]
    .concat()
    .into_iter()
    .map(bad_first)
    .collect()
}

/// An outer field of zeros in inner ones of these tags and lengths.
fn sized(tag: u8, inner: &[(u8, usize)]) -> Vec<u8> {
    let fields: Vec<_> = inner.iter().map(|(tag, n)| (*tag, vec![0; *n])).collect();
    field(tag, &joined(&fields))
}

/// An outer field of these inner ones, each by itself good: zeros are a context of a
/// Sync and a state of Listening.
fn of(tag: u8, inner: &[u8]) -> Vec<u8> {
    let length = |tag| match tag {
        1 | 5 => 16,
        2 => 44,
        3 => 3,
        4 | 6 => 8,
        7 => 1,
        _ => 0,
    };
    let inner: Vec<_> = inner.iter().map(|tag| (*tag, length(*tag))).collect();
    sized(tag, &inner)
}

fn order() -> Vec<Damage> {
    damages(
        "Each inner tag is above the one before it; a reader that looks fields up takes any order, \
         or the last of two.",
        vec![
            ("log-message-before-time", of(0x10, &[2, 1])),
            ("log-context-before-time", of(0x12, &[3, 1])),
            ("log-next-before-mean", of(0x15, &[6, 5])),
            ("log-time-twice", of(0x10, &[1, 1, 2])),
            ("log-message-twice", of(0x11, &[2, 2])),
            ("log-draw-twice", of(0x14, &[4, 4])),
            ("log-mean-twice", of(0x15, &[5, 5])),
            ("log-next-twice", of(0x15, &[5, 6, 6])),
            ("log-state-twice", of(0x16, &[7, 7])),
        ],
    )
}

fn missing() -> Vec<Damage> {
    damages(
        "An event without a field it needs; a lax reader takes it for 0 or empty.",
        vec![
            ("log-event-without-time", of(0x10, &[2])),
            ("log-event-without-message", of(0x10, &[1])),
            ("log-event-empty", of(0x10, &[])),
            ("log-general-empty", of(0x11, &[])),
            ("log-stamp-without-time", of(0x12, &[3])),
            ("log-stamp-without-context", of(0x12, &[1])),
            ("log-delay-timer-empty", of(0x14, &[])),
            ("log-set-state-empty", of(0x16, &[])),
        ],
    )
}

fn not_taken() -> Vec<Damage> {
    damages(
        "An event with a field it does not take; a lax reader ignores it.",
        vec![
            ("log-event-with-context", of(0x10, &[1, 2, 3])),
            ("log-general-with-time", of(0x11, &[1, 2])),
            ("log-stamp-with-message", of(0x12, &[1, 2, 3])),
            ("log-stamp-with-draw", of(0x12, &[1, 3, 4])),
            ("log-sync-timer-with-time", of(0x13, &[1])),
            ("log-delay-timer-with-time", of(0x14, &[1, 4])),
            ("log-filter-with-draw", of(0x15, &[4, 5])),
            ("log-filter-with-state", of(0x15, &[5, 6, 7])),
            ("log-set-state-with-next", of(0x16, &[6, 7])),
            ("log-inner-tag-0", of(0x15, &[0])),
            ("log-inner-tag-8", of(0x16, &[7, 8])),
        ],
    )
}

fn widths() -> Vec<Damage> {
    damages(
        "A number of another width; a lax reader fills it up or cuts it.",
        vec![
            ("log-time-15", sized(0x10, &[(1, 15), (2, 44)])),
            ("log-time-17", sized(0x10, &[(1, 17), (2, 44)])),
            ("log-stamp-time-0", sized(0x12, &[(1, 0), (3, 3)])),
            ("log-draw-7", sized(0x14, &[(4, 7)])),
            ("log-draw-9", sized(0x14, &[(4, 9)])),
            ("log-mean-8", sized(0x15, &[(5, 8)])),
            ("log-mean-17", sized(0x15, &[(5, 17)])),
            ("log-next-4", sized(0x15, &[(6, 4)])),
        ],
    )
}

fn too_large() -> Vec<Damage> {
    damages(
        "A message has at most 1024 bytes; a reader with a larger buffer takes it.",
        vec![
            ("log-message-1025", sized(0x11, &[(2, 1_025)])),
            (
                "log-event-message-1025",
                sized(0x10, &[(1, 16), (2, 1_025)]),
            ),
        ],
    )
}

fn ends() -> Vec<Damage> {
    let behind = |good: Vec<u8>, rest: &[u8]| [&good, rest].concat();
    let mean = field(5, &[0; 16]);
    let state = field(7, &[0]);
    damages(
        "Inner fields end where the outer one does; a lax reader drops the rest or reads on behind \
         it.",
        vec![
            ("log-event-of-one-byte", field(0x10, &[1])),
            ("log-filter-one-byte-left", field(0x15, &behind(mean, &[6]))),
            ("log-state-two-bytes-left", field(0x16, &behind(state, &[8, 0]))),
            // One byte more than the outer field has; the next event's tag follows.
            ("log-state-reads-on", field(0x16, &stated(7, 2, &[1]))),
            ("log-message-reads-on", field(0x11, &stated(2, 45, &[0; 44]))),
        ],
    )
}
