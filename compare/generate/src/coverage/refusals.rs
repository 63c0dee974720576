//! Every condition of rows 2 to 6 and 8 of the table in 01, each on its own, so that
//! the report can tell which held alone and which row went before which.
//!
//! Not to be reached by a log, only by a direct call:
//! - row 1, because a replay lends a buffer of 64 bytes or more;
//! - row 2 for what it says of times and exchanges: no run of a fresh port leaves such a
//!   record behind.

use super::decode::Seen;
use plain::{Config, Event};

#[derive(Clone, Debug, Default, PartialEq, Eq)]
pub struct Refusals {
    // Row 2.
    pub sdo_limit: bool,
    pub minor_limit: bool,
    pub delay_interval: bool,
    pub sync_interval: bool,
    // Row 3.
    pub time: bool,
    pub draw: bool,
    // Row 4.
    pub under_two: bool,
    pub version: bool,
    // Row 5.
    pub under_header: bool,
    pub stated_low: bool,
    pub stated_high: bool,
    pub unknown: bool,
    pub under_table: bool,
    // Row 6.
    pub sdo: bool,
    pub domain: bool,
    // Row 8.
    pub host: bool,
}

fn interval_out(interval: i8) -> bool {
    !(-9..=16).contains(&interval)
}

impl Refusals {
    pub fn of(config: &Config, event: &Event) -> Refusals {
        let mut all = Refusals {
            sdo_limit: config.sdo >= 4096,
            minor_limit: config.minor >= 2,
            delay_interval: interval_out(config.delay_interval),
            sync_interval: interval_out(config.sync_interval),
            ..Refusals::default()
        };
        match event {
            Event::Event { time, message } => {
                all.time = *time >= 1 << 127;
                all.message(config, message);
            }
            Event::General { message } => all.message(config, message),
            Event::Stamp { time, .. } => all.time = *time >= 1 << 127,
            Event::DelayTimer { draw } => all.draw = *draw >= 1 << 52,
            _ => {}
        }
        all
    }

    fn message(&mut self, config: &Config, message: &[u8]) {
        self.under_two = message.len() < 2;
        self.version = message.len() >= 2 && message[1] % 16 != 2;
        self.under_header = message.len() < 34;
        let Some(seen) = Seen::of(message) else {
            return;
        };
        self.stated_low = seen.stated < 34;
        self.stated_high = seen.stated > seen.there;
        self.unknown = matches!(seen.kind, 4..=7 | 14 | 15);
        self.under_table = seen.listed() && seen.stated < seen.table();
        self.sdo = seen.sdo != config.sdo;
        self.domain = seen.domain != config.domain;
        self.host = matches!(seen.kind, 11..=13);
    }

    /// Whether a row of the table holds, whatever the rows before it say.
    pub fn row(&self, number: u8) -> bool {
        match number {
            2 => self.sdo_limit || self.minor_limit || self.delay_interval || self.sync_interval,
            3 => self.time || self.draw,
            4 => self.under_two || self.version,
            5 => self.five() > 0,
            6 => self.sdo || self.domain,
            8 => self.host,
            _ => false,
        }
    }

    /// How many conditions of row 5 hold.
    pub fn five(&self) -> usize {
        [
            self.under_header,
            self.stated_low,
            self.stated_high,
            self.unknown,
            self.under_table,
        ]
        .into_iter()
        .filter(|held| *held)
        .count()
    }

    /// The first of these rows that holds.
    pub fn first(&self) -> Option<u8> {
        [2, 3, 4, 5, 6, 8]
            .into_iter()
            .find(|number| self.row(*number))
    }
}
