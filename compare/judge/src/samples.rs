//! The logs of the folder samples/: the marked examples of 01 from the cases, and a few more.

use std::{
    fs, io,
    path::{Path, PathBuf},
};

use generate::{
    build::{correction, duration, units, Message},
    domain::Part,
    random::Random,
    stage::{config_of, Stage, MASTER, OWN},
    walk::Walk,
};
use plain::{Config, Context, Event, Mechanism, NewState};

/// Events of a mixed run.
const EVENTS: usize = 3_000;

/// The cases that are samples, and the name of the sample. Example I is too long.
const CASES: [(&str, &str); 11] = [
    ("example-a", "a-sync-then-follow-up"),
    ("example-b", "b-follow-up-then-sync"),
    ("example-c", "c-one-step-after-follow-up"),
    ("example-d", "d-follow-up-of-another-id"),
    ("example-e", "e-peer-two-step"),
    ("example-f", "f-peer-one-step"),
    ("example-g", "g-asymmetry"),
    ("example-h-delay", "h-halves-end-to-end"),
    ("example-h-peer", "h-halves-peer"),
    ("example-j-delay", "j-draw-end-to-end"),
    ("example-j-peer", "j-draw-peer"),
];

/// Writes all of them.
pub fn write(folder: &Path) -> io::Result<()> {
    let cases = cases::all();
    for (case, name) in CASES {
        let case = cases.iter().find(|known| known.name == case);
        put(folder, name, &case.expect("a case of that name").log)?;
    }
    put(folder, "every-event", &every_event().log.bytes)?;
    put(folder, "bad", &bad())?;
    // The streams were chosen for runs in which a clock of our days meets many exchanges.
    put(folder, "end-to-end", &mixed(Mechanism::EndToEnd, 10))?;
    put(folder, "peer", &mixed(Mechanism::Peer, 14))
}

fn put(folder: &Path, name: &str, log: &[u8]) -> io::Result<()> {
    let file: PathBuf = folder.join(name).with_extension("log");
    fs::write(file, log)
}

/// A Slave that measures offset and delay and then becomes Master: each kind of event once or more.
fn every_event() -> Stage {
    let mut stage = Stage::new(config_of(Mechanism::EndToEnd));
    let config = stage.config;
    stage.slave();
    let sync = Message::sync(&config, MASTER, 41).two_step();
    stage.event(units(1_000_250), &sync.with_correction(correction(50)));
    let follow_up = Message::follow_up(&config, MASTER, 41);
    stage.general(&follow_up.with_ns(1_000_000));
    stage.delay_timer((1 << 51) - 1);
    stage.stamp(units(1_002_000), Context::DelayReq(0));
    let response = Message::delay_resp(&config, MASTER, 0, OWN);
    stage.general(&response.with_ns(1_001_900));
    stage.play(&Event::Filter {
        mean: Some(duration(50)),
        next: Some(1_000_000_000),
    });
    stage.set(NewState::Master);
    stage.sync_timer();
    stage.stamp(units(1_500_000) + (1 << 31), Context::Sync(0));
    stage
}

/// Good up to a delay timer whose draw has seven bytes. The good timer behind it is not reached.
fn bad() -> Vec<u8> {
    let mut stage = Stage::new(config_of(Mechanism::EndToEnd));
    stage.slave();
    stage.delay_timer(1);
    stage.log.outer(0x14, &[4, 0, 7, 0, 0, 0, 0, 0, 0, 1]);
    stage.delay_timer(2);
    stage.log.bytes
}

/// A random run in the differential domain.
fn mixed(mechanism: Mechanism, number: u64) -> Vec<u8> {
    let config = Config {
        asymmetry: duration(25),
        ..config_of(mechanism)
    };
    let random = Random::stream(1, "sample", number);
    let stage = Walk::new(config, Part::Domain, random).run(EVENTS);
    stage.log.bytes
}

#[cfg(test)]
mod tests {
    use super::*;
    use crate::fields;

    #[test]
    fn every_kind_of_event_is_there() {
        let log = every_event().log.bytes;
        let fields = fields::split(&log).unwrap();
        for tag in 0x0F..=0x16 {
            assert!(fields.iter().any(|field| field[0] == tag), "{tag:#x}");
        }
    }
}
