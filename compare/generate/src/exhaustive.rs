//! Short messages without gaps: every type and version, every length from 0 to 60, and
//! stated lengths around each edge, on both entries.

use crate::build::Message;
use crate::stage::{config_of, Sink, Stage, MASTER, OWN};
use plain::{Event, Mechanism};

const LONGEST: usize = 60;
/// Stated lengths around the header's and the table's.
const STATED: [usize; 11] = [0, 33, 34, 35, 43, 44, 45, 53, 54, 55, 65_535];

/// Two logs that grow side by side, one for each part.
struct Pair {
    domain: Stage,
    beyond: Stage,
}

impl Pair {
    /// A Slave that measures peer delays, so that most whole messages do something.
    fn new() -> Pair {
        let mut stage = Stage::new(config_of(Mechanism::Peer));
        stage.slave();
        stage.delay_timer(1);
        Pair {
            domain: stage.clone(),
            beyond: stage,
        }
    }

    /// To the log of the domain if the answer allows it, else to the other.
    fn play(&mut self, event: &Event) {
        if self.domain.offer(event).is_none() {
            self.beyond.play(event);
        }
    }

    fn both(&mut self, message: &[u8]) {
        self.play(&Event::Event {
            time: 1 << 90,
            message,
        });
        self.play(&Event::General { message });
    }

    fn finish(&self, name: &str, sink: &mut Sink) {
        for stage in [&self.domain, &self.beyond] {
            if stage.events > 2 {
                stage.finish(name, sink);
            }
        }
    }
}

/// A message of 60 bytes of which any part can be cut off.
fn longest(kind: u8, version: u8, stated: usize) -> Vec<u8> {
    let config = config_of(Mechanism::Peer);
    let message = Message {
        version,
        requester: OWN,
        seconds: 3,
        nanoseconds: 1_000_000_007,
        ..Message::of(kind, &config, MASTER, 0)
    };
    let mut bytes = message.with_length(stated as u16).to_bytes();
    bytes.resize(LONGEST, 0xEE);
    bytes
}

/// The lengths to state where so many bytes are there.
fn stated(there: usize) -> Vec<usize> {
    if there < 4 {
        // The field is cut off, or away.
        return vec![0];
    }
    let mut lengths: Vec<usize> = STATED.to_vec();
    lengths.extend([there - 1, there, there + 1]);
    lengths.sort();
    lengths.dedup();
    lengths
}

pub fn write(sink: &mut Sink) {
    for kind in 0..16 {
        let mut pair = Pair::new();
        for there in 0..=LONGEST {
            for stated in stated(there) {
                pair.both(&longest(kind, 2, stated)[..there]);
            }
        }
        pair.finish(&format!("short-{kind:02}"), sink);
    }
    for version in (0..16).filter(|version| *version != 2) {
        versions(version, sink);
    }
}

/// The other versions, on the two entries by turns: both see every type and every length.
fn versions(version: u8, sink: &mut Sink) {
    let mut pair = Pair::new();
    for kind in 0..16 {
        for there in 0..=LONGEST {
            for (turn, stated) in stated(there).into_iter().enumerate() {
                let message = &longest(kind, version, stated)[..there];
                let time = 1 << 90;
                pair.play(&match (turn + there) % 2 {
                    0 => Event::Event { time, message },
                    _ => Event::General { message },
                });
            }
        }
    }
    pair.finish(&format!("version-{version:02}"), sink);
}

#[cfg(test)]
mod tests {
    use super::*;

    #[test]
    fn parts_are_kept_apart() {
        let mut pair = Pair::new();
        pair.both(&longest(0, 2, 44)[..44]);
        pair.both(&longest(0, 2, 45)[..45]);
        pair.both(&longest(11, 2, 34)[..34]);
        assert_eq!((pair.domain.events, pair.beyond.events), (4, 6));
    }
}
