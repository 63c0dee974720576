//! Plays an event log to a port and writes one line an event.

use plain::run::{program, Style};
use std::process::ExitCode;

fn main() -> ExitCode {
    program("replay", Style::Replay)
}
