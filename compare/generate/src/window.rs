//! Logs that cross the places where a program with a buffer of 64 KiB reads on: a field
//! begins at each of the last bytes before such a place, whole or cut.

use crate::build::{Log, Message};
use crate::stage::{config_of, Folder, Sink, Stage, MASTER};
use plain::{Event, Mechanism, NewState};

const BUFFER: usize = 65_536;
/// The largest good outer field.
const LARGEST: usize = 1_049;

pub fn write(sink: &mut Sink) {
    let near = 0..=20;
    let far = [40, 68, 69, 70, 71, 500, LARGEST - 1, LARGEST, LARGEST + 1];
    for before in near.chain(far) {
        let mut stage = Stage::new(config_of(Mechanism::EndToEnd));
        stage.set(NewState::Master);
        fill(&mut stage, BUFFER - before);
        // The largest field first: it lies across the end of the buffer.
        let long = [vec![0; 4], vec![2; 1020]].concat();
        stage.play(&Event::Event {
            time: 7,
            message: &long,
        });
        let sync = Message::sync(&stage.config, MASTER, 1);
        stage.slave();
        stage.event(1 << 40, &sync);
        stage.event(1 << 41, &sync);
        stage.finish(&format!("window-{before:04}"), sink);
        let cut = Log {
            bytes: stage.log.bytes[..BUFFER - before + 30].to_vec(),
        };
        sink(
            Folder::Damaged,
            &format!("window-cut-{before:04}"),
            &cut.bytes,
        );
    }
}

/// Plays messages that row 4 refuses until the log is exactly so long.
fn fill(stage: &mut Stage, length: usize) {
    loop {
        let left = length - stage.log.offset();
        // Outer and inner heads take 6 bytes; the last two messages share the rest.
        let size = match left {
            0 => return,
            2060.. => 1024,
            1031.. => left / 2 - 6,
            _ => left - 6,
        };
        stage.play(&Event::General {
            message: &vec![0; size],
        });
    }
}
