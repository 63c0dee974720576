//! The streaming reader gives the same lines in whatever pieces a log arrives.

use crate::common::*;
use plain::run::{run, Failure, Style};
use plain::*;
use std::io::{self, ErrorKind, Read, Write};

/// A source that gives at most `piece` bytes at a time, and is interrupted in between.
struct Pieces<'a> {
    rest: &'a [u8],
    piece: usize,
    interrupt: bool,
}

impl Read for Pieces<'_> {
    fn read(&mut self, buffer: &mut [u8]) -> io::Result<usize> {
        self.interrupt = !self.interrupt;
        if self.interrupt {
            return Err(ErrorKind::Interrupted.into());
        }
        assert!(!buffer.is_empty(), "no room in the window");
        let size = self.piece.min(buffer.len()).min(self.rest.len());
        let (now, rest) = self.rest.split_at(size);
        buffer[..size].copy_from_slice(now);
        self.rest = rest;
        Ok(size)
    }
}

fn in_pieces(log: &[u8], piece: usize, style: Style) -> String {
    let source = Pieces {
        rest: log,
        piece,
        interrupt: false,
    };
    let mut written = Vec::new();
    run(source, &mut written, style).unwrap();
    String::from_utf8(written).unwrap()
}

/// A log of some length with every kind of event in it, long messages too.
fn long_log(turns: u16) -> Vec<u8> {
    let mut log = config_field(&config(Mechanism::EndToEnd));
    let mut push = |event: Event| log.extend(event_field(&event));
    push(Event::SetState(NewState::Slave(MASTER)));
    for turn in 0..turns {
        let time = ns(u128::from(turn) * 1_000_000);
        let filler = vec![0; usize::from(turn) % 971];
        push(sync(turn).two_step().tail(&filler).on_event(time));
        push(follow_up(turn, u64::from(turn) * 999_000).on_general());
        push(Event::DelayTimer {
            draw: u64::from(turn) << 40,
        });
        push(Event::Stamp {
            time: time + 5,
            context: Context::DelayReq(turn),
        });
        push(delay_resp(turn, u64::from(turn) * 999_001).on_general());
        push(Wire::new(2).on_event(time));
        push(Event::Filter {
            mean: Some(i128::from(turn) - 100),
            next: (turn % 3 == 0).then_some(5),
        });
        push(Event::SyncTimer);
        push(Wire::new(11).on_general());
    }
    log
}

/// The lines of a log that is read at once, worked out event by event.
fn plainly(log: &[u8]) -> String {
    let (config, events, bad) = parse(log);
    let mut port = Port::new(config.unwrap());
    let mut lines = String::new();
    for (index, event) in events.iter().enumerate() {
        let answer = act(&mut port, *event);
        let (letter, value) = match answer.measurement {
            None => ("-", "-".to_string()),
            Some(measurement) => (
                match measurement.kind {
                    Kind::Sync => "S",
                    Kind::Delay => "D",
                    Kind::Peer => "P",
                },
                format!("{:032x}", measurement.value),
            ),
        };
        let number = index + 1;
        lines += &format!("{number} {} {letter} {value}\n", answer.number);
    }
    bad.map_or(lines.clone(), |at| lines + &format!("bad at {at}\n"))
}

#[test]
fn any_pieces() {
    let log = long_log(120);
    let (replayed, traced) = (replay(&log), trace(&log));
    assert_eq!(replayed, plainly(&log));
    assert_eq!(replayed.lines().count(), 1 + 9 * 120);
    assert_eq!(traced.lines().count(), 2 + 9 * 120);
    for (short, long) in replayed.lines().zip(traced.lines()) {
        assert_eq!(long.split(' ').count(), 10);
        assert!(long.starts_with(&format!("{short} ")));
    }
    for piece in [1, 2, 3, 7, 1000, 65_535, 65_536, 65_537] {
        assert_eq!(in_pieces(&log, piece, Style::Replay), replayed);
        assert_eq!(in_pieces(&log, piece, Style::Trace), traced);
    }
}

/// Cut off anywhere, a log is bad at the offset in the whole of it, pieces or not.
#[test]
fn any_pieces_of_a_cut_log() {
    let log = long_log(2);
    for cut in 36..log.len() {
        let expected = plainly(&log[..cut]);
        for piece in [1, 3, 1000] {
            assert_eq!(in_pieces(&log[..cut], piece, Style::Replay), expected);
        }
    }
}

/// A bad field far beyond the first window keeps its offset in the file.
#[test]
fn far_offset() {
    let mut log = long_log(1500);
    let at = log.len();
    assert!(at > 5 * 65_536);
    log.extend([0x13, 0, 1, 0, 0x13, 0, 0]);
    for piece in [3, 1000, 65_536] {
        let written = in_pieces(&log, piece, Style::Trace);
        let end = format!("\nbad at {at}\n");
        assert!(written.ends_with(&end) && !written.contains("end"));
        assert_eq!(in_pieces(&log, piece, Style::Replay), plainly(&log));
    }
}

/// The largest good fields, one after the other, at every position against the window.
#[test]
fn largest_fields() {
    let message = [0x12; 1024];
    let event = Event::Event {
        time: 0,
        message: &message,
    };
    assert_eq!(event_field(&event).len(), 1049);
    let log = log_of(&config(Mechanism::Peer), &[event; 200]);
    assert_eq!(replay(&log), plainly(&log));
    assert_eq!(in_pieces(&log, 1049, Style::Replay), plainly(&log));
}

/// A source that fails after a while: what was read is written, and the failure told.
#[test]
fn failing_source_and_sink() {
    struct Broken;
    impl Read for Broken {
        fn read(&mut self, _: &mut [u8]) -> io::Result<usize> {
            Err(ErrorKind::TimedOut.into())
        }
    }
    impl Write for Broken {
        fn write(&mut self, _: &[u8]) -> io::Result<usize> {
            Err(ErrorKind::BrokenPipe.into())
        }
        fn flush(&mut self) -> io::Result<()> {
            Ok(())
        }
    }
    let log = long_log(1);
    let mut written = Vec::new();
    let result = run(log.chain(Broken), &mut written, Style::Replay);
    assert!(matches!(result, Err(Failure::Read(_))));
    assert_eq!(written, replay(&log).as_bytes());
    for style in [Style::Replay, Style::Trace] {
        let result = run(&log[..], Broken, style);
        assert!(matches!(result, Err(Failure::Write(_))));
        let long = long_log(3000);
        let result = run(&long[..], Broken, style);
        assert!(matches!(result, Err(Failure::Write(_))));
    }
}
