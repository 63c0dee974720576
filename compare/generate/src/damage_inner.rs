//! Damage to the inner fields of an event; see `damage`.

use crate::build::{self, event_fields, joined, stated};
use crate::damage::{message, samples, Damage};
use plain::Context;
use std::slice::from_ref;

/// A good value for each inner tag.
fn inner_value(tag: u8) -> Vec<u8> {
    match tag {
        2 => message(),
        3 => build::context_bytes(&Context::DelayReq(2)),
        4 | 6 => vec![0; 8],
        7 => vec![0],
        _ => vec![0; 16],
    }
}

impl Damage<'_, '_> {
    /// Each inner field in turn with a wrong length, twice, missing, or out of order.
    pub fn inner_fields(&mut self) {
        let message = message();
        for event in samples(&message) {
            let (tag, fields) = event_fields(&event);
            for (place, field) in fields.iter().enumerate() {
                for value in lengths(&field.1) {
                    let mut wrong = fields.clone();
                    wrong[place].1 = value;
                    self.field("inner-length", tag, &joined(&wrong));
                }
                let mut twice = fields.clone();
                twice.insert(place, field.clone());
                self.field("inner-twice", tag, &joined(&twice));
                let mut missing = fields.clone();
                missing.remove(place);
                self.field("inner-missing", tag, &joined(&missing));
            }
            let mut swapped = fields.clone();
            swapped.reverse();
            self.field("inner-swapped", tag, &joined(&swapped));
            self.strangers(tag, &fields);
            self.inner_ends(tag, &joined(&fields));
        }
    }

    /// Inner tags that the event does not take, in front, behind, and where they belong.
    fn strangers(&mut self, tag: u8, fields: &[(u8, Vec<u8>)]) {
        for inner in [0, 1, 2, 3, 4, 5, 6, 7, 8, 9, 128, 255] {
            let stranger = (inner, inner_value(inner));
            let mut sorted = [fields, from_ref(&stranger)].concat();
            sorted.sort_by_key(|field| field.0);
            self.field("inner-stranger", tag, &joined(&sorted));
            self.field(
                "inner-first",
                tag,
                &joined(&[from_ref(&stranger), fields].concat()),
            );
            self.field("inner-last", tag, &joined(&[fields, &[stranger]].concat()));
        }
    }

    /// Bytes behind the inner fields, and an inner length past the outer end.
    fn inner_ends(&mut self, tag: u8, content: &[u8]) {
        for tail in [&[1][..], &[0, 0], &[6, 0]] {
            self.field("inner-tail", tag, &[content, tail].concat());
        }
        let Some(length) = content.len().checked_sub(4) else {
            return;
        };
        self.field("inner-cut", tag, &content[..content.len() - 1]);
        self.field("inner-cut", tag, &content[..length]);
        self.field("inner-cut", tag, &content[..2]);
        let mut long = content.to_vec();
        long[1] = 0xFF;
        self.field("inner-long", tag, &long);
    }
}

/// The value one byte shorter, one longer, empty, and with an identity more or less.
fn lengths(value: &[u8]) -> Vec<Vec<u8>> {
    let resized = |length: usize| {
        let mut bytes = value.to_vec();
        bytes.resize(length, 0);
        bytes
    };
    let right = value.len();
    [
        right - 1,
        right + 1,
        0,
        right + 10,
        right.saturating_sub(10),
    ]
    .map(resized)
    .to_vec()
}

impl Damage<'_, '_> {
    pub fn choices(&mut self) {
        for kind in [0, 1, 2, 3, 4, 5, 128, 255] {
            for length in [1, 2, 3, 12, 13, 14] {
                let context = [vec![kind], vec![0; length - 1]].concat();
                let fields = [(1, vec![0; 16]), (3, context)];
                self.field("context", build::STAMP, &joined(&fields));
            }
        }
        for state in [0, 1, 2, 3, 4, 5, 6, 128, 255] {
            for length in [1, 2, 10, 11, 12] {
                let value = [vec![state], vec![7; length - 1]].concat();
                self.field("state", build::SET_STATE, &joined(&[(7, value)]));
            }
        }
    }

    pub fn sizes(&mut self) {
        for length in [0, 1, 1023, 1024, 1025, 1026, 2000] {
            let bytes = vec![2; length];
            let time = (1, vec![0; 16]);
            self.field(
                "message-size",
                build::EVENT,
                &joined(&[time, (2, bytes.clone())]),
            );
            self.field("message-size", build::GENERAL, &joined(&[(2, bytes)]));
        }
        for content in [
            vec![0],
            vec![1, 0, 0],
            build::field(1, &[0; 16]),
            vec![9; 1100],
        ] {
            self.field("timer-content", build::SYNC_TIMER, &content);
        }
        // Larger than any good field, and all there.
        for tag in build::EVENT..=build::SET_STATE {
            self.field("huge", tag, &vec![0; 65_535]);
            self.field("huge-time", tag, &stated(1, 65_500, &[0; 65_500]));
        }
    }
}
