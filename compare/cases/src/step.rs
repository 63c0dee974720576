//! One event's expected answer.

use crate::cast::*;
use crate::record::{or_dash, span, time};
use crate::script::Script;

/// An event that still lacks its expected answer.
#[must_use = "an event needs its expected answer"]
pub struct Step<'a> {
    pub(crate) script: &'a mut Script,
}

/// What `trace` shows behind an answer's number.
#[derive(Default)]
struct Shown {
    kind: Option<char>,
    value: Option<i128>,
    event_time: Option<u128>,
    offset: Option<i128>,
    delay: Option<i128>,
    packet: Option<String>,
    actions: Option<String>,
    reset: bool,
}

impl Step<'_> {
    /// Taken, and that is all there is to see.
    pub fn nothing(self) {
        self.shows(Shown::default());
    }

    pub fn refused(self, number: u8) {
        if !matches!(number, 4..=6) {
            self.script.domain = false;
        }
        self.line(number, Shown::default());
    }

    pub fn reset(self) {
        self.resets(true);
    }

    /// `nothing` or `reset`.
    pub fn resets(self, reset: bool) {
        let rest = Shown::default();
        self.shows(Shown { reset, ..rest });
    }

    pub fn sync(self, raw: i128, event_time: u128, offset: Option<i128>) {
        let rest = measured('S', raw, event_time);
        self.shows(Shown { offset, ..rest });
    }

    pub fn delay(self, raw: i128, event_time: u128, delay: Option<i128>) {
        let rest = measured('D', raw, event_time);
        self.shows(Shown { delay, ..rest });
    }

    pub fn peer(self, value: i128, event_time: u128) {
        self.shows(measured('P', value, event_time));
    }

    /// A peer delay that brings Faulty back to Listening.
    pub fn recovery(self, value: i128, event_time: u128) {
        let (reset, rest) = (true, measured('P', value, event_time));
        self.shows(Shown { reset, ..rest });
    }

    pub fn sends(self, packet: &Message, actions: &str) {
        self.sends_hex(&hex(&packet.to_bytes()), actions);
    }

    pub fn sends_hex(self, packet: &str, actions: &str) {
        self.shows(Shown {
            packet: Some(packet.to_string()),
            actions: Some(actions.to_string()),
            ..Shown::default()
        });
    }

    /// A DelayResp, a PDelayResp or its follow-up to the client, with a time of whole
    /// nanoseconds.
    pub fn answers(self, kind: u8, id: u16, ns: u64) {
        let actions = match kind {
            3 => answers_peer(id, CLIENT),
            9 => "general".to_string(),
            _ => "general:link".to_string(),
        };
        let packet = sent(kind, id).with_ns(ns).with_requester(CLIENT);
        self.sends(&packet, &actions);
    }

    pub fn filter_timer(self, ns: u64) {
        let actions = Some(format!("filter-timer:{ns}"));
        let rest = Shown::default();
        self.shows(Shown { actions, ..rest });
    }

    fn shows(self, shown: Shown) {
        self.line(0, shown);
    }

    fn line(self, answer: u8, shown: Shown) {
        let number = self.script.lines.len() + 1;
        let columns = [
            number.to_string(),
            answer.to_string(),
            or_dash(shown.kind.map(String::from)),
            span(shown.value),
            time(shown.event_time),
            span(shown.offset),
            span(shown.delay),
            or_dash(shown.packet),
            or_dash(shown.actions),
            or_dash(shown.reset.then(|| "reset".to_string())),
        ];
        self.script.lines.push(columns.join(" "));
    }
}

fn measured(kind: char, value: i128, event_time: u128) -> Shown {
    Shown {
        kind: Some(kind),
        value: Some(value),
        event_time: Some(event_time),
        ..Shown::default()
    }
}
