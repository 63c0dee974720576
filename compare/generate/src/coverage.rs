//! How often the generated logs reach each rule of 01, counted for the logs of the
//! differential domain and for all others (damaged ones are among the others).
//!
//! The report reads logs and messages with code of its own and works out by itself
//! which row of the table should hold. Where the steered port answers otherwise, that
//! is said in `surprises`.

mod case;
mod decode;
mod history;
mod reader;
mod refusals;
mod rows_fields;
mod rows_limits;
mod rows_log;
mod rows_measured;
mod rows_peer;
mod rows_port;
mod rows_refused;
mod rows_slave;
mod rows_states;
mod rows_sums;
mod sums;
#[cfg(test)]
mod tests;
mod worked;

use crate::domain;
use crate::stage::Folder;
use case::{Case, Section};
use decode::Seen;
use history::History;
use plain::log::{Read, Reader};
use plain::{Answer, Config, Event, Port};
use reader::Reading;
use refusals::Refusals;
use rows_log::LogRow;
use std::fmt::Write;
use sums::Sums;

/// More surprises than this are only counted.
const TOLD: usize = 40;

/// How to read the rows of 'order'.
const LETTERS: &str = "S two-step Sync, 1 one-step Sync, F FollowUp, T stamp, R DelayResp, \
    P two-step peer response, O one-step peer response, U peer follow-up";

pub struct Coverage {
    sections: Vec<Section>,
    logs: Vec<LogRow>,
    told: Vec<String>,
    surprises: u64,
    counts: [(u64, u64); 3],
}

impl Default for Coverage {
    fn default() -> Coverage {
        let sections = [
            rows_limits::sections(),
            rows_refused::sections(),
            rows_sums::sections(),
            rows_fields::sections(),
            rows_slave::sections(),
            rows_peer::sections(),
            rows_port::sections(),
            rows_states::sections(),
            rows_measured::sections(),
        ];
        Coverage {
            sections: sections.into_iter().flatten().collect(),
            logs: rows_log::rows(),
            told: Vec::new(),
            surprises: 0,
            counts: [(0, 0); 3],
        }
    }
}

impl Coverage {
    pub fn new() -> Coverage {
        Coverage::default()
    }

    /// Counts a whole log.
    pub fn log(&mut self, folder: Folder, name: &str, bytes: &[u8]) {
        let reading = reader::read(bytes);
        if !reads_so(bytes, &reading) {
            self.surprise(name, 0, &format!("read otherwise: {:?}", reading.fault));
        }
        for row in &mut self.logs {
            if (row.test)(&reading) {
                count(folder, &mut row.domain, &mut row.beyond);
            }
        }
        let place = &mut self.counts[folder as usize];
        *place = (place.0 + 1, place.1 + reading.events.len() as u64);
        if let Some(config) = reading.config {
            self.events(folder, name, config, &reading);
        }
        if folder == Folder::Domain && reading.fault.is_some() {
            self.surprise(name, 0, "a bad log among those of the domain");
        }
    }

    fn events(&mut self, folder: Folder, name: &str, config: Config, reading: &Reading) {
        let mut port = Port::new(config);
        let mut history = History::default();
        for (number, event) in reading.events.iter().enumerate() {
            let before = port;
            let mut packet = [0xA5; 64];
            let answer = port.handle(event, &mut packet);
            let found = self.event(folder, &before, &port, event, &answer, &mut history);
            if let Some(found) = found.or_else(|| kept(&before, &port, &answer, &packet)) {
                self.surprise(name, number + 1, &found);
            }
        }
    }

    fn event(
        &mut self,
        folder: Folder,
        before: &Port,
        after: &Port,
        event: &Event,
        answer: &Answer,
        history: &mut History,
    ) -> Option<String> {
        let seen = match event {
            Event::Event { message, .. } | Event::General { message } => Seen::of(message),
            _ => None,
        };
        let refusals = Refusals::of(&before.config, event);
        // Sums are looked at behind rows 2 and 6 too, for the order of the table.
        let readable = [3, 4, 5, 8].iter().all(|row| !refusals.row(*row));
        let sums = match readable {
            true => Sums::of(before, event, seen.as_ref()),
            false => Sums::default(),
        };
        history.note(before, after, event, seen.as_ref(), answer);
        self.tally(
            folder,
            &Case {
                before,
                after,
                event,
                seen,
                refusals,
                sums,
                answer,
                history,
            },
        )
    }

    /// Counts the rows that a case meets, and says what is wrong with its answer.
    fn tally(&mut self, folder: Folder, case: &Case) -> Option<String> {
        for section in &mut self.sections {
            if !(section.when)(case) {
                continue;
            }
            for row in &mut section.rows {
                if (row.test)(case) {
                    count(folder, &mut row.domain, &mut row.beyond);
                }
            }
        }
        let (event, number) = (case.event, case.answer.number);
        let seven = 7 * u8::from(case.sums.leaves());
        let expected = case.refusals.first().unwrap_or(seven);
        if expected != number {
            return Some(format!("answered {number}, expected {expected}: {event:?}"));
        }
        let outside = folder == Folder::Domain && !domain::holds(event, number);
        outside.then(|| format!("not of the domain: {event:?}"))
    }

    fn surprise(&mut self, name: &str, number: usize, what: &str) {
        self.surprises += 1;
        if self.told.len() < TOLD {
            self.told.push(format!("{name} event {number}: {what}"));
        }
    }

    pub fn surprises(&self) -> u64 {
        self.surprises
    }

    /// Name, count in the domain and count beyond of every row.
    pub fn rows(&self) -> impl Iterator<Item = (&str, u64, u64)> {
        let events = self.sections.iter().flat_map(|section| &section.rows);
        let events = events.map(|row| (row.name.as_str(), row.domain, row.beyond));
        events.chain(
            self.logs
                .iter()
                .map(|row| (row.name.as_str(), row.domain, row.beyond)),
        )
    }

    /// How many rows no log reached.
    pub fn empty(&self) -> usize {
        self.rows().filter(|row| row.1 + row.2 == 0).count()
    }

    pub fn report(&self) -> String {
        let mut text = format!("{:<72} {:>10} {:>10}\n", "row", "domain", "beyond");
        for (name, domain, beyond) in self.rows() {
            let empty = if domain + beyond == 0 { " EMPTY" } else { "" };
            let _ = writeln!(text, "{name:<72} {domain:>10} {beyond:>10}{empty}");
        }
        let _ = writeln!(text, "\n{LETTERS}");
        let _ = writeln!(text, "{} rows, {} empty", self.rows().count(), self.empty());
        for folder in [Folder::Domain, Folder::Beyond, Folder::Damaged] {
            let (logs, events) = self.counts[folder as usize];
            let _ = writeln!(text, "{}: {logs} logs, {events} events", folder.name());
        }
        for told in &self.told {
            let _ = writeln!(text, "SURPRISE {told}");
        }
        let _ = writeln!(text, "{} surprises", self.surprises);
        text
    }
}

/// Whether the reader that plain's programs use finds the same in the log, field by field.
fn reads_so(bytes: &[u8], reading: &Reading) -> bool {
    let mut reader = Reader::new(bytes);
    let mut same = |expected: Read| reader.next().is_ok_and(|found| found == expected);
    let last = match reading.fault {
        Some(fault) => Read::Bad(fault.at as u64),
        None => Read::End,
    };
    reading
        .config
        .is_none_or(|config| same(Read::Config(config)))
        && reading.events.iter().all(|event| same(Read::Event(*event)))
        && same(last)
}

fn count(folder: Folder, domain: &mut u64, beyond: &mut u64) {
    match folder {
        Folder::Domain => *domain += 1,
        Folder::Beyond | Folder::Damaged => *beyond += 1,
    }
}

/// What a refusal must leave alone, and what lies behind a packet that is sent.
fn kept(before: &Port, after: &Port, answer: &Answer, packet: &[u8]) -> Option<String> {
    let silent = answer.length == 0
        && answer.measurement.is_none()
        && answer.actions == [None, None]
        && !answer.reset;
    if answer.number != 0 && !(silent && before == after) {
        return Some(format!(
            "refused by {}, yet something was done",
            answer.number
        ));
    }
    let rest = packet.get(answer.length..).unwrap_or_default();
    rest.iter()
        .any(|byte| *byte != 0xA5)
        .then(|| "bytes behind the packet changed".to_string())
}
