//! What is counted while judging, and the table at the end.

use crate::{judges::Outcome, predict::RULES};

struct Row {
    what: String,
    /// The earliest outcome that counts in it: rows stand in the order of these.
    first: (usize, usize),
    logs: usize,
    lines: usize,
    predicted: usize,
    different: usize,
}

#[derive(Default)]
pub struct Table {
    rows: Vec<Row>,
    used: [usize; RULES.len()],
}

impl Table {
    /// `place` is that of the log among the tasks, and of the outcome among the log's.
    pub fn count(&mut self, place: (usize, usize), outcome: &Outcome) {
        let row = self.row(&outcome.what, place);
        row.first = row.first.min(place);
        row.logs += 1;
        row.lines += outcome.lines;
        row.predicted += outcome.predicted;
        row.different += usize::from(outcome.difference.is_some());
        for (count, (rule, _)) in self.used.iter_mut().zip(RULES) {
            *count += outcome.used.iter().filter(|used| **used == rule).count();
        }
    }

    /// The row of that name, made when it is first asked for.
    fn row(&mut self, what: &str, first: (usize, usize)) -> &mut Row {
        let found = self.rows.iter().position(|row| row.what == what);
        let at = found.unwrap_or_else(|| {
            let what = what.to_string();
            self.rows.push(Row {
                what,
                first,
                logs: 0,
                lines: 0,
                predicted: 0,
                different: 0,
            });
            self.rows.len() - 1
        });
        &mut self.rows[at]
    }

    /// A listed difference that no log showed would not be tested.
    pub fn unused_rules(&self) -> usize {
        self.used.iter().filter(|count| **count == 0).count()
    }

    pub fn print(&mut self) {
        self.rows.sort_by_key(|row| row.first);
        println!(
            "{:<44} {:>7} {:>10} {:>10} {:>10}",
            "", "logs", "lines", "by rule", "different"
        );
        for row in &self.rows {
            println!(
                "{:<44} {:>7} {:>10} {:>10} {:>10}",
                row.what, row.logs, row.lines, row.predicted, row.different
            );
        }
        println!("\nlisted differences of the supplied Rust, and in how many packets each shows:");
        for ((_, name), count) in RULES.iter().zip(self.used) {
            let mark = if count == 0 { "  EMPTY" } else { "" };
            println!("{name:<64} {count:>10}{mark}");
        }
    }
}
