//! A log as it is played: each event is answered by a port that follows the log, and
//! the log knows in which folder it belongs.

use crate::build::{Log, Message};
use crate::domain::{self, Part};
use plain::{Answer, Config, Context, Event, Identity, Mechanism, NewState, Port};

/// Where a finished log goes.
#[derive(Clone, Copy, Debug, PartialEq, Eq)]
pub enum Folder {
    Domain,
    Beyond,
    Damaged,
}

impl Folder {
    pub fn name(self) -> &'static str {
        match self {
            Folder::Domain => "domain",
            Folder::Beyond => "beyond",
            Folder::Damaged => "damaged",
        }
    }
}

/// Takes a finished log: folder, name, bytes.
pub type Sink<'a> = dyn FnMut(Folder, &str, &[u8]) + 'a;

/// Parts for written scenes. Master and other differ in the clock only, master and
/// neighbour, responder and rival in the port number only.
pub const OWN: Identity = [2, 0, 0, 0xFF, 0xFE, 0, 0, 1, 0, 1];
pub const MASTER: Identity = [2, 0, 0, 0xFF, 0xFE, 0, 0, 9, 0, 1];
pub const OTHER: Identity = [2, 0, 0, 0xFF, 0xFE, 0, 1, 9, 0, 1];
pub const NEIGHBOUR: Identity = [2, 0, 0, 0xFF, 0xFE, 0, 0, 9, 0, 2];
pub const RESPONDER: Identity = [2, 0, 0, 0xFF, 0xFE, 0, 0, 5, 0, 1];
pub const RIVAL: Identity = [2, 0, 0, 0xFF, 0xFE, 0, 0, 5, 0, 2];

/// The states that the host can set.
pub const STATES: [NewState; 5] = [
    NewState::Listening,
    NewState::Master,
    NewState::Passive,
    NewState::Faulty,
    NewState::Slave(MASTER),
];

/// The largest time.
pub const LATEST: u128 = (1 << 127) - 1;

pub fn config_of(mechanism: Mechanism) -> Config {
    Config {
        identity: OWN,
        sdo: 0x100,
        domain: 24,
        minor: 1,
        mechanism,
        delay_interval: 0,
        sync_interval: -3,
        asymmetry: 0,
    }
}

#[derive(Clone, Debug)]
pub struct Stage {
    pub config: Config,
    pub port: Port,
    pub log: Log,
    pub events: usize,
    pub part: Part,
    packet: [u8; 64],
}

impl Stage {
    pub fn new(config: Config) -> Stage {
        Stage {
            config,
            port: Port::new(config),
            log: Log::new(&config),
            events: 0,
            part: Part::Domain,
            packet: [0; 64],
        }
    }

    /// Plays an event whatever its answer.
    pub fn play(&mut self, event: &Event) -> Answer {
        let answer = self.port.handle(event, &mut self.packet);
        if !domain::holds(event, answer.number) {
            self.part = Part::Beyond;
        }
        self.log.push(event);
        self.events += 1;
        answer
    }

    /// Plays an event only if the log stays in the differential domain.
    pub fn offer(&mut self, event: &Event) -> Option<Answer> {
        let mut port = self.port;
        let answer = port.handle(event, &mut self.packet);
        if !domain::holds(event, answer.number) {
            return None;
        }
        self.port = port;
        self.log.push(event);
        self.events += 1;
        Some(answer)
    }

    pub fn event(&mut self, time: u128, message: &Message) {
        let message = &message.to_bytes();
        self.play(&Event::Event { time, message });
    }

    pub fn general(&mut self, message: &Message) {
        let message = &message.to_bytes();
        self.play(&Event::General { message });
    }

    pub fn stamp(&mut self, time: u128, context: Context) {
        self.play(&Event::Stamp { time, context });
    }

    pub fn delay_timer(&mut self, draw: u64) {
        self.play(&Event::DelayTimer { draw });
    }

    pub fn sync_timer(&mut self) {
        self.play(&Event::SyncTimer);
    }

    pub fn mean(&mut self, mean: i128) {
        self.play(&Event::Filter {
            mean: Some(mean),
            next: None,
        });
    }

    pub fn set(&mut self, state: NewState) {
        self.play(&Event::SetState(state));
    }

    pub fn slave(&mut self) {
        self.set(NewState::Slave(MASTER));
    }

    pub fn folder(&self) -> Folder {
        match self.part {
            Part::Domain => Folder::Domain,
            Part::Beyond => Folder::Beyond,
        }
    }

    pub fn finish(&self, name: &str, sink: &mut Sink) {
        sink(self.folder(), name, &self.log.bytes);
    }
}
