//! The two programs as they are started: where they read, what they say, how they end
//! (reading 7).

use crate::common::*;
use plain::*;
use std::fs::{self, File};
use std::io::Write;
use std::path::PathBuf;
use std::process::{Command, Output, Stdio};

const REPLAY: &str = env!("CARGO_BIN_EXE_replay");
const TRACE: &str = env!("CARGO_BIN_EXE_trace");

fn log() -> Vec<u8> {
    let events = [Event::SyncTimer, Event::SetState(NewState::Faulty)];
    log_of(&config(Mechanism::EndToEnd), &events)
}

/// A file of its own for each test, in the folder that cargo gives to tests.
fn file(name: &str, bytes: &[u8]) -> PathBuf {
    let path = PathBuf::from(env!("CARGO_TARGET_TMPDIR")).join(name);
    fs::write(&path, bytes).unwrap();
    path
}

fn fed(program: &str, bytes: &[u8]) -> Output {
    let mut child = Command::new(program)
        .stdin(Stdio::piped())
        .stdout(Stdio::piped())
        .stderr(Stdio::piped())
        .spawn()
        .unwrap();
    child.stdin.take().unwrap().write_all(bytes).unwrap();
    child.wait_with_output().unwrap()
}

fn check(output: Output, code: i32, out: &str) {
    assert_eq!(output.status.code(), Some(code));
    assert_eq!(String::from_utf8(output.stdout).unwrap(), out);
    // Failures are told on standard error, and nothing else is.
    assert_eq!(output.stderr.is_empty(), code == 0);
}

#[test]
fn from_a_file_and_from_standard_input() {
    let path = file("good.log", &log());
    let short = "1 0 - -\n2 0 - -\n";
    let long = "1 0 - - - - - - - -\n2 0 - - - - - - - reset\nend 3 - - - - - - 0:0:0\n";
    for (program, expected) in [(REPLAY, short), (TRACE, long)] {
        let output = Command::new(program).arg(&path).output().unwrap();
        check(output, 0, expected);
        check(fed(program, &log()), 0, expected);
    }
}

/// A bad field is a line, not a failure; the lines before it stay.
#[test]
fn bad_logs() {
    let bytes = [log(), vec![0x13]].concat();
    let path = file("bad.log", &bytes);
    let short = "1 0 - -\n2 0 - -\nbad at 46\n";
    let long = "1 0 - - - - - - - -\n2 0 - - - - - - - reset\nbad at 46\n";
    for (program, expected) in [(REPLAY, short), (TRACE, long)] {
        let output = Command::new(program).arg(&path).output().unwrap();
        check(output, 0, expected);
        check(fed(program, &[]), 0, "bad at 0\n");
    }
}

#[test]
fn usage() {
    for program in [REPLAY, TRACE] {
        for arguments in [&["a", "b"][..], &["--help"], &["-"], &["a", "b", "c"]] {
            let output = Command::new(program).args(arguments).output().unwrap();
            assert!(output.stderr.starts_with(b"usage: "));
            check(output, 2, "");
        }
    }
}

#[test]
fn what_cannot_be_opened_or_read() {
    for program in [REPLAY, TRACE] {
        let missing = PathBuf::from(env!("CARGO_TARGET_TMPDIR")).join("missing.log");
        check(Command::new(program).arg(missing).output().unwrap(), 1, "");
        check(Command::new(program).arg("").output().unwrap(), 1, "");
        // A folder opens, but does not read.
        let folder = env!("CARGO_TARGET_TMPDIR");
        check(Command::new(program).arg(folder).output().unwrap(), 1, "");
        let stdin = File::open(folder).unwrap();
        let output = Command::new(program).stdin(stdin).output().unwrap();
        check(output, 1, "");
        // Open for writing only.
        let path = file("unread.log", &log());
        let stdin = File::options().append(true).open(path).unwrap();
        let output = Command::new(program).stdin(stdin).output().unwrap();
        check(output, 1, "");
    }
}

#[test]
fn what_cannot_be_written() {
    let path = file("unwritten.log", &log());
    for program in [REPLAY, TRACE] {
        // Open for reading only.
        let stdout = File::open(&path).unwrap();
        let output = Command::new(program).arg(&path).stdout(stdout).output();
        check(output.unwrap(), 1, "");
        if let Ok(full) = File::options().write(true).open("/dev/full") {
            let output = Command::new(program).arg(&path).stdout(full).output();
            check(output.unwrap(), 1, "");
        }
    }
}
