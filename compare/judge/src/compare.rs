//! Two outputs held against each other, line by line.

use crate::{
    fields,
    predict::{self, Rule},
    program::Output,
};

/// Where two outputs part.
#[derive(Clone, Debug, PartialEq, Eq)]
pub struct Difference {
    pub line: usize,
    pub expected: String,
    pub got: String,
    /// The program did not end by itself.
    pub stopped: bool,
}

/// What the Rust should write where plain writes `ours`; in how many lines a listed rule made
/// the difference, and which rules did.
pub fn expected_of_rust(log: &[u8], ours: &str) -> (Vec<String>, usize, Vec<Rule>) {
    let events = fields::split(log).unwrap_or_default();
    let config = events.first().map_or(&[][..], |field| &field[3..]);
    let mut predicted = 0;
    let mut all_used = Vec::new();
    let lines = ours.lines().enumerate().map(|(index, text)| {
        let event = events.get(index + 1).map(|event| fields::seen(event));
        let (text, used) = predict::line(text, config, event.unwrap_or_default());
        predicted += usize::from(!used.is_empty());
        all_used.extend(used);
        text
    });
    let lines = lines.collect();
    (lines, predicted, all_used)
}

/// A program that did not end well differs from anything.
pub fn difference(expected: &[String], got: &Output) -> Option<Difference> {
    match got {
        Ok(got) => first_difference(expected.iter().map(String::as_str), got),
        Err(error) => Some(Difference {
            line: 0,
            expected: "an answer".into(),
            got: error.to_string(),
            stopped: error.stopped(),
        }),
    }
}

/// The first line in which the two are not the same, also where one has ended.
fn first_difference<'a>(
    expected: impl IntoIterator<Item = &'a str>,
    got: &str,
) -> Option<Difference> {
    let mut got_lines = got.split_inclusive('\n');
    let mut expected = expected.into_iter();
    for line in 1.. {
        let (left, right) = (expected.next(), got_lines.next());
        if left.is_none() && right.is_none() {
            return None;
        }
        // A line without its newline is not the expected line.
        if left.is_none() || left != right.and_then(|text| text.strip_suffix('\n')) {
            let text = |side: Option<&str>| side.unwrap_or("(nothing)").trim_end().to_string();
            return Some(Difference {
                line,
                expected: text(left),
                got: text(right),
                stopped: false,
            });
        }
    }
    unreachable!("outputs end")
}

/// Document 01's lines are the first four fields of trace's, without the record at the end.
pub fn replay_of_trace(trace: &str) -> Vec<String> {
    trace
        .lines()
        .filter(|line| !line.starts_with("end "))
        .map(|line| match line.starts_with("bad at ") {
            true => line.to_string(),
            false => line.split(' ').take(4).collect::<Vec<_>>().join(" "),
        })
        .collect()
}

/// Whether every event was answered 0, 4, 5 or 6: the Rust is held to nothing else.
pub fn in_domain(trace: &str) -> bool {
    let answer = |line: &str| line.split(' ').nth(1).map(str::to_string);
    trace.lines().all(|line| {
        line.starts_with("end ")
            || answer(line).is_some_and(|n| ["0", "4", "5", "6"].contains(&n.as_str()))
    })
}

#[cfg(test)]
mod tests {
    use super::*;

    #[test]
    fn a_difference_is_found_wherever_it_is() {
        let first =
            |expected: &str, got: &str| first_difference(expected.lines(), got).map(|d| d.line);
        assert_eq!(first("a\nb\n", "a\nb\n"), None);
        assert_eq!(first("a\nb\n", "a\nc\n"), Some(2));
        assert_eq!(first("a\nb\n", "a\n"), Some(2), "too short");
        assert_eq!(first("a\n", "a\nb\n"), Some(2), "too long");
        assert_eq!(first("a\nb\n", "a\nb"), Some(2), "no newline");
        assert_eq!(first("a\n", ""), Some(1));
        assert_eq!(first("", ""), None);
    }

    #[test]
    fn replay_is_the_front_of_trace() {
        let trace = "1 0 S 64 3e8 - - - - -\nbad at 7\n";
        assert_eq!(replay_of_trace(trace), ["1 0 S 64", "bad at 7"]);
        assert_eq!(replay_of_trace("end 0 - - - - - - 0:0:0\n"), [""; 0]);
    }

    #[test]
    fn the_domain_is_known_by_its_answers() {
        assert!(in_domain("1 0 - -\n2 6 - -\nend 0\n"));
        assert!(!in_domain("1 0 - -\n2 7 - -\nend 0\n"));
        assert!(!in_domain("bad at 0\n"));
    }
}
