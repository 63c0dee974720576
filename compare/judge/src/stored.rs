//! The stored answers as text. A log begins with `# name: what it shows`, or `# name (domain): ..`
//! where the supplied Rust answers it too. Then come its bytes, a `>` line for each outer field
//! and one for what is left when no whole field is; an `=` line for each line of plain's trace; and
//! behind that a `~` line with the Rust's, where it is another one.

use std::fmt::Write;

use crate::{
    fields,
    hex::{hex, unhex},
};

#[derive(Clone, Debug, PartialEq, Eq)]
pub struct Stored {
    pub name: String,
    pub about: String,
    pub log: Vec<u8>,
    pub trace: Vec<String>,
    /// The Rust's lines, for a log of the domain.
    pub rust: Option<Vec<String>>,
}

impl Stored {
    pub fn to_text(&self) -> String {
        let mut text = String::new();
        let domain = if self.rust.is_some() { " (domain)" } else { "" };
        writeln!(text, "# {}{domain}: {}", self.name, self.about).unwrap();
        let (fields, rest) = fields::split_off(&self.log);
        let rest = (!rest.is_empty()).then_some(rest);
        let mut fields = fields.into_iter().chain(rest);
        let mut field = |text: &mut String| {
            if let Some(bytes) = fields.next() {
                writeln!(text, "> {}", hex(bytes)).unwrap();
            }
        };
        field(&mut text);
        for (at, line) in self.trace.iter().enumerate() {
            field(&mut text);
            writeln!(text, "= {line}").unwrap();
            let rust = self.rust.as_ref().map(|lines| &lines[at]);
            if let Some(rust) = rust.filter(|rust| *rust != line) {
                writeln!(text, "~ {rust}").unwrap();
            }
        }
        // What stands behind a bad field has no line.
        for bytes in fields {
            writeln!(text, "> {}", hex(bytes)).unwrap();
        }
        text
    }

    fn begin(title: &str) -> Option<Stored> {
        let (name, about) = title.split_once(": ")?;
        let (name, rust) = match name.strip_suffix(" (domain)") {
            Some(name) => (name, Some(Vec::new())),
            None => (name, None),
        };
        let (name, about) = (name.to_string(), about.to_string());
        Some(Stored {
            name,
            about,
            log: Vec::new(),
            trace: Vec::new(),
            rust,
        })
    }

    fn line(&mut self, mark: &str, rest: &str) -> Option<()> {
        match mark {
            ">" => self.log.extend(unhex(rest)?),
            "=" => {
                self.trace.push(rest.to_string());
                self.rust
                    .iter_mut()
                    .for_each(|lines| lines.push(rest.to_string()));
            }
            "~" => *self.rust.as_mut()?.last_mut()? = rest.to_string(),
            _ => return None,
        }
        Some(())
    }
}

/// All logs of a file, or the number of the first line that is none of its kind.
pub fn parse(text: &str) -> Result<Vec<Stored>, usize> {
    let mut all: Vec<Stored> = Vec::new();
    for (at, line) in text.lines().enumerate() {
        let (mark, rest) = line.split_once(' ').ok_or(at + 1)?;
        if mark == "#" {
            all.push(Stored::begin(rest).ok_or(at + 1)?);
        } else {
            all.last_mut()
                .and_then(|stored| stored.line(mark, rest))
                .ok_or(at + 1)?;
        }
    }
    Ok(all)
}

#[cfg(test)]
mod tests {
    use super::*;

    fn stored(log: &[u8], trace: &[&str], rust: Option<&[&str]>) -> Stored {
        let own = |lines: &[&str]| lines.iter().map(|line| line.to_string()).collect();
        Stored {
            name: "a".into(),
            about: "b: c".into(),
            log: log.to_vec(),
            trace: own(trace),
            rust: rust.map(own),
        }
    }

    #[test]
    fn what_is_written_is_read_back() {
        let all = [
            stored(
                &[15, 0, 1, 9, 19, 0, 0],
                &["1 0 -", "end"],
                Some(&["1 5 -", "end"]),
            ),
            stored(&[15, 0, 0, 16, 0, 9], &["bad at 3"], None),
            stored(&[15, 0, 0, 99, 0, 0, 19, 0, 0], &["bad at 3"], None),
            stored(&[], &["bad at 0"], None),
        ];
        let text: String = all.iter().map(Stored::to_text).collect();
        assert_eq!(parse(&text), Ok(all.to_vec()));
        assert_eq!(parse("= 1"), Err(1));
        assert_eq!(parse("# a: b\n> 0"), Err(2));
    }
}
