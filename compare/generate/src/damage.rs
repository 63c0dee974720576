//! Logs that are bad, or only just good, each for one reason (01, 'Event log'; readings
//! 1 to 6).

use crate::build::{self, event_fields, joined, stated, Log, Message};
use crate::domain::Part;
use crate::random::Random;
use crate::stage::{config_of, Folder, Sink, MASTER, OTHER};
use crate::values;
use crate::walk::Walk;
use plain::{Config, Context, Event, Mechanism, NewState};

/// Numbers the logs, so that many can share a name.
pub struct Damage<'a, 'b> {
    sink: &'a mut Sink<'b>,
    number: usize,
}

/// Every event kind, with each inner field at least once.
pub fn samples(message: &[u8]) -> Vec<Event<'_>> {
    let (time, resp) = (5 << 32, Context::PDelayResp(3, OTHER));
    vec![
        Event::SetState(NewState::Slave(MASTER)),
        Event::Event { time, message },
        Event::General { message },
        Event::Stamp {
            time,
            context: Context::Sync(1),
        },
        Event::Stamp {
            time,
            context: resp,
        },
        Event::SyncTimer,
        Event::DelayTimer { draw: 9 },
        Event::Filter {
            mean: Some(-1),
            next: Some(2),
        },
        Event::Filter {
            mean: None,
            next: None,
        },
        Event::SetState(NewState::Master),
    ]
}

fn config() -> Config {
    config_of(Mechanism::Peer)
}

pub fn message() -> Vec<u8> {
    Message::sync(&config(), MASTER, 1).to_bytes()
}

impl Damage<'_, '_> {
    fn put(&mut self, name: &str, log: &Log) {
        let name = format!("{:05}-{name}", self.number);
        (self.sink)(Folder::Damaged, &name, &log.bytes);
        self.number += 1;
    }

    /// A good event, the bytes, and another good event.
    fn between(&mut self, name: &str, bytes: &[u8]) {
        let mut log = Log::new(&config());
        log.push(&Event::SyncTimer);
        log.raw(bytes);
        log.push(&Event::SetState(NewState::Master));
        self.put(name, &log);
    }

    pub fn field(&mut self, name: &str, tag: u8, content: &[u8]) {
        self.between(name, &build::field(tag, content));
    }

    fn cuts(&mut self) {
        let message = message();
        let mut log = Log::new(&config());
        samples(&message).iter().for_each(|event| log.push(event));
        for length in 0..=log.bytes.len() {
            let bytes = log.bytes[..length].to_vec();
            self.put("cut", &Log { bytes });
        }
    }

    fn outer_tags(&mut self) {
        for tag in 0..=255 {
            self.field("outer-tag", tag, &[]);
            let mut log = Log::empty();
            log.outer(tag, &build::config_bytes(&config()));
            log.push(&Event::SyncTimer);
            self.put("first-tag", &log);
        }
        self.field(
            "second-configuration",
            build::CONFIG,
            &build::config_bytes(&config()),
        );
        let mut log = Log::empty();
        log.push(&Event::SyncTimer);
        self.put("no-configuration", &log);
    }

    fn configurations(&mut self) {
        let right = build::config_bytes(&config());
        for mechanism in [2, 3, 4, 127, 128, 255] {
            let mut bytes = right.clone();
            bytes[14] = mechanism;
            let mut log = Log::empty();
            log.outer(build::CONFIG, &bytes);
            self.put("mechanism", &log);
        }
        for length in [0, 1, 32, 34, 66] {
            let mut bytes = right.clone();
            bytes.resize(length, 0);
            let mut log = Log::empty();
            log.outer(build::CONFIG, &bytes);
            self.put("configuration-length", &log);
        }
        for length in [0, 32, 34, 35, 36, 65_535] {
            let mut log = Log::empty();
            log.outer_stating(build::CONFIG, length, &right);
            self.put("configuration-states", &log.clone());
            log.push(&Event::SyncTimer);
            self.put("configuration-states", &log);
        }
    }

    /// Lengths that an outer field states while its content stays the same: one less or
    /// more, so that the next field is read from the wrong place, and past the end.
    fn outer_lengths(&mut self) {
        let message = message();
        for event in samples(&message) {
            let (tag, fields) = event_fields(&event);
            let content = joined(&fields);
            let right = content.len() as u16;
            for length in [
                right.saturating_sub(1),
                right + 1,
                right + 3,
                0,
                1050,
                65_535,
            ] {
                self.between("outer-states", &stated(tag, length, &content));
                let mut log = Log::new(&config());
                log.outer_stating(tag, length, &content);
                self.put("outer-states-last", &log);
            }
        }
    }

    /// Random bytes of random logs changed, put in or taken out.
    fn flips(&mut self, seed: u64) {
        for number in 0..400 {
            let mut random = Random::stream(seed, "flips", number);
            let config = values::config(&mut random);
            let events = 3 + random.index(40);
            let walk = Walk::new(
                config,
                Part::Beyond,
                Random::stream(seed, "flip-log", number),
            );
            let mut log = walk.run(events).log;
            for _ in 0..1 + random.index(3) {
                let at = random.index(log.bytes.len());
                match random.below(6) {
                    0 => {
                        log.bytes.remove(at);
                    }
                    1 => log.bytes.insert(at, random.byte()),
                    2 => log.bytes[at] = random.byte(),
                    _ => log.bytes[at] ^= 1 << random.below(8),
                }
            }
            self.put("flip", &log);
        }
    }
}

pub fn write(seed: u64, sink: &mut Sink) {
    let mut damage = Damage { sink, number: 0 };
    damage.put("empty", &Log::empty());
    damage.put("configuration-alone", &Log::new(&config()));
    damage.cuts();
    damage.outer_tags();
    damage.configurations();
    damage.outer_lengths();
    damage.inner_fields();
    damage.choices();
    damage.sizes();
    damage.flips(seed);
}
