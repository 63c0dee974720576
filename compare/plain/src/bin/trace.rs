//! Plays an event log to a port and writes every part of each answer, and the record
//! that is left at the end.

use plain::run::{program, Style};
use std::process::ExitCode;

fn main() -> ExitCode {
    program("trace", Style::Trace)
}
