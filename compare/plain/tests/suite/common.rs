//! Builders for messages, logs and ports, written apart from the crate's own code.

use plain::log::{Read, Reader};
use plain::run::{run, Style};
use plain::*;

pub const US: Identity = [0xA0, 0xA1, 0xA2, 0xA3, 0xA4, 0xA5, 0xA6, 0xA7, 0, 1];
pub const MASTER: Identity = [0xB0, 0xB1, 0xB2, 0xB3, 0xB4, 0xB5, 0xB6, 0xB7, 0, 2];
pub const OTHER: Identity = [0xC0, 0xC1, 0xC2, 0xC3, 0xC4, 0xC5, 0xC6, 0xC7, 0, 3];

/// The last time.
pub const LAST: u128 = (1 << 127) - 1;

/// Whole nanoseconds in units.
pub fn ns(nanos: u128) -> u128 {
    nanos << 32
}

pub fn config(mechanism: Mechanism) -> Config {
    Config {
        identity: US,
        sdo: 0x123,
        domain: 5,
        minor: 1,
        mechanism,
        delay_interval: 1,
        sync_interval: -2,
        asymmetry: 0,
    }
}

/// A fresh end-to-end port in the given state.
pub fn port(state: NewState) -> Port {
    let mut port = Port::new(config(Mechanism::EndToEnd));
    assert_eq!(act(&mut port, Event::SetState(state)).number, 0);
    port
}

pub fn slave() -> Port {
    port(NewState::Slave(MASTER))
}

/// A peer port whose first request (id 0) has just gone out.
pub fn measuring() -> Port {
    let mut port = Port::new(config(Mechanism::Peer));
    assert_eq!(act(&mut port, Event::DelayTimer { draw: 0 }).number, 0);
    port
}

/// Hands an event over with a buffer of the least size that is taken.
pub fn act(port: &mut Port, event: Event) -> Answer {
    port.handle(&event, &mut [0; 64])
}

/// Hands over an event that must be refused, and checks that it left no trace.
pub fn refused(port: &mut Port, event: Event) -> u8 {
    let before = *port;
    let mut packet = [0x5A; 70];
    let answer = port.handle(&event, &mut packet);
    assert_ne!(answer.number, 0);
    assert_eq!(answer, nothing(answer.number));
    assert_eq!(*port, before);
    assert_eq!(packet, [0x5A; 70]);
    answer.number
}

/// Hands over an event that must be taken and then do nothing at all.
pub fn ignored(port: &mut Port, event: Event) {
    let before = *port;
    let mut packet = [0x5A; 70];
    assert_eq!(port.handle(&event, &mut packet), nothing(0));
    assert_eq!(*port, before);
    assert_eq!(packet, [0x5A; 70]);
}

pub fn nothing(number: u8) -> Answer {
    Answer {
        number,
        measurement: None,
        length: 0,
        actions: [None, None],
        reset: false,
    }
}

/// The state of a port that must be Slave.
pub fn slave_state(port: &Port) -> Slave {
    match port.state {
        State::Slave(slave) => slave,
        other => panic!("not a slave: {other:?}"),
    }
}

/// A message in the making. It starts with our sdo id and domain, from our master, for
/// us, one-step, all numbers zero.
#[derive(Clone)]
pub struct Wire(Vec<u8>);

impl Wire {
    pub fn new(kind: u8) -> Wire {
        let length = match kind {
            0 | 1 | 8 => 44,
            2 | 3 | 9 | 10 => 54,
            _ => 34,
        };
        let mut bytes = vec![0; length];
        bytes[0] = 0x10 | kind;
        bytes[1] = 0x12;
        bytes[3] = length as u8;
        bytes[4] = 5;
        bytes[5] = 0x23;
        bytes[20..30].copy_from_slice(&MASTER);
        if length == 54 {
            bytes[44..54].copy_from_slice(&US);
        }
        Wire(bytes)
    }

    pub fn two_step(self) -> Wire {
        self.byte(6, 0x02)
    }

    pub fn id(self, id: u16) -> Wire {
        self.bytes(30, &id.to_be_bytes())
    }

    pub fn from(self, source: Identity) -> Wire {
        self.bytes(20, &source)
    }

    pub fn to(self, requester: Identity) -> Wire {
        self.bytes(44, &requester)
    }

    /// The timestamp of the body, in nanoseconds.
    pub fn at(self, nanos: u64) -> Wire {
        let seconds = (nanos / 1_000_000_000).to_be_bytes();
        let rest = ((nanos % 1_000_000_000) as u32).to_be_bytes();
        self.bytes(34, &seconds[2..]).bytes(40, &rest)
    }

    /// The correction field as it stands, in 2^-16 ns.
    pub fn correct(self, field: i64) -> Wire {
        self.bytes(8, &field.to_be_bytes())
    }

    pub fn byte(self, at: usize, value: u8) -> Wire {
        self.bytes(at, &[value])
    }

    pub fn bytes(mut self, at: usize, bytes: &[u8]) -> Wire {
        self.0[at..at + bytes.len()].copy_from_slice(bytes);
        self
    }

    /// Puts bytes behind the message and leaves the stated length alone.
    pub fn tail(mut self, bytes: &[u8]) -> Wire {
        self.0.extend_from_slice(bytes);
        self
    }

    pub fn on_event(&self, time: u128) -> Event<'_> {
        Event::Event {
            time,
            message: &self.0,
        }
    }

    pub fn on_general(&self) -> Event<'_> {
        Event::General { message: &self.0 }
    }

    pub fn raw(&self) -> &[u8] {
        &self.0
    }
}

pub fn sync(id: u16) -> Wire {
    Wire::new(0).id(id)
}

pub fn follow_up(id: u16, nanos: u64) -> Wire {
    Wire::new(8).id(id).at(nanos)
}

pub fn delay_resp(id: u16, nanos: u64) -> Wire {
    Wire::new(9).id(id).at(nanos)
}

pub fn peer_resp(id: u16, nanos: u64) -> Wire {
    Wire::new(3).id(id).at(nanos)
}

pub fn peer_follow_up(id: u16, nanos: u64) -> Wire {
    Wire::new(10).id(id).at(nanos)
}

/// A field of a log, outer or inner.
pub fn field(tag: u8, value: &[u8]) -> Vec<u8> {
    let length = u16::try_from(value.len()).unwrap().to_be_bytes();
    [&[tag], &length[..], value].concat()
}

pub fn config_field(config: &Config) -> Vec<u8> {
    let mut value = config.identity.to_vec();
    value.extend(config.sdo.to_be_bytes());
    value.extend([config.domain, config.minor]);
    value.push(u8::from(config.mechanism == Mechanism::Peer));
    value.extend(config.delay_interval.to_be_bytes());
    value.extend(config.sync_interval.to_be_bytes());
    value.extend(config.asymmetry.to_be_bytes());
    field(0x0F, &value)
}

pub fn event_field(event: &Event) -> Vec<u8> {
    match event {
        Event::Event { time, message } => {
            let inner = [field(1, &time.to_be_bytes()), field(2, message)];
            field(0x10, &inner.concat())
        }
        Event::General { message } => field(0x11, &field(2, message)),
        Event::Stamp { time, context } => {
            let inner = [field(1, &time.to_be_bytes()), field(3, &kind(context))];
            field(0x12, &inner.concat())
        }
        Event::SyncTimer => field(0x13, &[]),
        Event::DelayTimer { draw } => field(0x14, &field(4, &draw.to_be_bytes())),
        Event::Filter { mean, next } => {
            let mean = mean.map_or(vec![], |mean| field(5, &mean.to_be_bytes()));
            let next = next.map_or(vec![], |next| field(6, &next.to_be_bytes()));
            field(0x15, &[mean, next].concat())
        }
        Event::SetState(new) => field(0x16, &field(7, &state(new))),
    }
}

fn kind(context: &Context) -> Vec<u8> {
    let (kind, id, identity): (u8, u16, &[u8]) = match context {
        Context::Sync(id) => (0, *id, &[]),
        Context::DelayReq(id) => (1, *id, &[]),
        Context::PDelayReq(id) => (2, *id, &[]),
        Context::PDelayResp(id, identity) => (3, *id, identity),
    };
    [&[kind], &id.to_be_bytes()[..], identity].concat()
}

fn state(new: &NewState) -> Vec<u8> {
    match new {
        NewState::Listening => vec![0],
        NewState::Master => vec![1],
        NewState::Passive => vec![2],
        NewState::Faulty => vec![3],
        NewState::Slave(master) => [&[4], &master[..]].concat(),
    }
}

pub fn log_of(config: &Config, events: &[Event]) -> Vec<u8> {
    let mut log = config_field(config);
    log.extend(events.iter().flat_map(event_field));
    log
}

pub fn replay(log: &[u8]) -> String {
    lines(log, Style::Replay)
}

pub fn trace(log: &[u8]) -> String {
    lines(log, Style::Trace)
}

fn lines(log: &[u8], style: Style) -> String {
    let mut written = Vec::new();
    run(log, &mut written, style).unwrap();
    String::from_utf8(written).unwrap()
}

/// What the reader finds in a log: configuration, events, and where a bad field is. Messages
/// outlive the reader's window by never being freed.
pub fn parse(log: &[u8]) -> (Option<Config>, Vec<Event<'static>>, Option<usize>) {
    let mut reader = Reader::new(log);
    let (mut config, mut events) = (None, Vec::new());
    let kept = |message: &[u8]| -> &'static [u8] { message.to_vec().leak() };
    loop {
        events.push(match reader.next().expect("memory can be read") {
            Read::Config(found) => {
                config = Some(found);
                continue;
            }
            Read::End => return (config, events, None),
            Read::Bad(at) => return (config, events, Some(at as usize)),
            Read::Event(event) => match event {
                Event::Event { time, message } => Event::Event {
                    time,
                    message: kept(message),
                },
                Event::General { message } => Event::General {
                    message: kept(message),
                },
                Event::Stamp { time, context } => Event::Stamp { time, context },
                Event::SyncTimer => Event::SyncTimer,
                Event::DelayTimer { draw } => Event::DelayTimer { draw },
                Event::Filter { mean, next } => Event::Filter { mean, next },
                Event::SetState(state) => Event::SetState(state),
            },
        });
    }
}
