//! The body of the two programs: one loop that reads events, hands them to a port and
//! writes lines, and the little that a command line needs.

use crate::log::{Read, Reader};
use crate::out::Lines;
use crate::Port;
use std::ffi::OsString;
use std::fs::File;
use std::io::{self, Write};
use std::os::fd::AsFd;
use std::process::ExitCode;

/// Which lines are written.
#[derive(Clone, Copy, Debug, PartialEq, Eq)]
pub enum Style {
    Replay,
    Trace,
}

/// Why a run stopped before the log did.
#[derive(Debug)]
pub enum Failure {
    Read(io::Error),
    Write(io::Error),
}

/// Plays the log of `source` to a fresh port and writes the lines to `sink`. A bad
/// field is no failure: it has a line of its own.
pub fn run<R: io::Read, W: Write>(source: R, sink: W, style: Style) -> Result<(), Failure> {
    let mut lines = Lines::new(sink);
    let played = play(&mut Reader::new(source), &mut lines, style);
    // The lines of what could be read are worth having even if the rest could not.
    match played {
        Err(Failure::Write(_)) => played,
        _ => lines.flush().map_err(Failure::Write).and(played),
    }
}

fn play<R: io::Read, W: Write>(
    reader: &mut Reader<R>,
    lines: &mut Lines<W>,
    style: Style,
) -> Result<(), Failure> {
    let mut port = match reader.next() {
        Ok(Read::Config(config)) => Port::new(config),
        Ok(Read::Bad(offset)) => return lines.bad_line(offset).map_err(Failure::Write),
        Ok(_) => unreachable!("a log begins with its configuration"),
        Err(error) => return Err(Failure::Read(error)),
    };
    // Not zeros, so that a byte of a packet that is never written shows.
    let mut packet = [0xA5; 64];
    let mut number = 0;
    loop {
        let written = match reader.next() {
            Ok(Read::Event(event)) => {
                number += 1;
                let answer = port.handle(&event, &mut packet);
                match style {
                    Style::Replay => lines.replay_line(number, &answer),
                    Style::Trace => lines.trace_line(number, &answer, &packet[..answer.length]),
                }
            }
            Ok(Read::Bad(offset)) => return lines.bad_line(offset).map_err(Failure::Write),
            Ok(Read::End) if style == Style::Replay => return Ok(()),
            Ok(Read::End) => return lines.end_line(&port).map_err(Failure::Write),
            Ok(Read::Config(_)) => unreachable!("a second configuration is a bad field"),
            Err(error) => return Err(Failure::Read(error)),
        };
        written.map_err(Failure::Write)?;
    }
}

/// The program `name`: its only argument names the log, which is standard input
/// without one.
pub fn program(name: &str, style: Style) -> ExitCode {
    let arguments: Vec<OsString> = std::env::args_os().skip(1).collect();
    let source = match arguments.as_slice() {
        [] => duplicate(io::stdin()).map_err(|error| format!("standard input: {error}")),
        // The programs have no options. A log of such a name can be called ./-name.
        [path] if !path.as_encoded_bytes().starts_with(b"-") => {
            File::open(path).map_err(|error| format!("{}: {error}", path.to_string_lossy()))
        }
        _ => return complain(format_args!("usage: {name} [LOG]"), 2),
    };
    let source = match source {
        Ok(source) => source,
        Err(error) => return complain(format_args!("{name}: cannot open {error}"), 1),
    };
    let result = match duplicate(io::stdout()) {
        Ok(sink) => run(source, sink, style),
        Err(error) => Err(Failure::Write(error)),
    };
    match result {
        Ok(()) => ExitCode::SUCCESS,
        Err(Failure::Read(error)) => complain(format_args!("{name}: cannot read: {error}"), 1),
        Err(Failure::Write(error)) => complain(format_args!("{name}: cannot write: {error}"), 1),
    }
}

/// A standard stream as a plain file. The handles of the standard library buffer once
/// more, and they hide that a stream cannot be read or written at all.
fn duplicate(stream: impl AsFd) -> io::Result<File> {
    stream.as_fd().try_clone_to_owned().map(File::from)
}

fn complain(message: std::fmt::Arguments, code: u8) -> ExitCode {
    // There is nobody left to tell if this fails.
    let _ = writeln!(io::stderr(), "{message}");
    ExitCode::from(code)
}
