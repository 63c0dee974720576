//! Writers: an event log field by field, and (from `message`) a message byte by byte.
//!
//! Nothing here checks anything. A log or message may be wrong in any way that its
//! caller asks for, because wrong ones are wanted as much as right ones.

pub use crate::message::{correction, table_length, Message, TWO_STEP};
use plain::{Config, Context, Event, Mechanism, NewState};

/// Outer tags of 01, 'Event log'.
pub const CONFIG: u8 = 0x0F;
pub const EVENT: u8 = 0x10;
pub const GENERAL: u8 = 0x11;
pub const STAMP: u8 = 0x12;
pub const SYNC_TIMER: u8 = 0x13;
pub const DELAY_TIMER: u8 = 0x14;
pub const FILTER: u8 = 0x15;
pub const SET_STATE: u8 = 0x16;

/// Whole nanoseconds as units of 2^-32 ns.
pub const fn units(ns: u128) -> u128 {
    ns << 32
}

/// Signed whole nanoseconds as units.
pub const fn duration(ns: i128) -> i128 {
    ns << 32
}

/// One field with the length of what it holds. Contents stay far below 65,536 bytes.
pub fn field(tag: u8, value: &[u8]) -> Vec<u8> {
    stated(tag, value.len() as u16, value)
}

/// One field that states a length of the caller's choice.
pub fn stated(tag: u8, length: u16, value: &[u8]) -> Vec<u8> {
    let mut bytes = vec![tag];
    bytes.extend(length.to_be_bytes());
    bytes.extend(value);
    bytes
}

/// Inner fields with true lengths, one behind the other.
pub fn joined(fields: &[(u8, Vec<u8>)]) -> Vec<u8> {
    fields
        .iter()
        .flat_map(|(tag, value)| field(*tag, value))
        .collect()
}

/// The 33 bytes of the first field.
pub fn config_bytes(config: &Config) -> Vec<u8> {
    let mut bytes = config.identity.to_vec();
    bytes.extend(config.sdo.to_be_bytes());
    bytes.push(config.domain);
    bytes.push(config.minor);
    bytes.push(match config.mechanism {
        Mechanism::EndToEnd => 0,
        Mechanism::Peer => 1,
    });
    bytes.extend(config.delay_interval.to_be_bytes());
    bytes.extend(config.sync_interval.to_be_bytes());
    bytes.extend(config.asymmetry.to_be_bytes());
    bytes
}

pub fn context_bytes(context: &Context) -> Vec<u8> {
    let (kind, id, requester) = match context {
        Context::Sync(id) => (0, id, None),
        Context::DelayReq(id) => (1, id, None),
        Context::PDelayReq(id) => (2, id, None),
        Context::PDelayResp(id, requester) => (3, id, Some(requester)),
    };
    let mut bytes = vec![kind];
    bytes.extend(id.to_be_bytes());
    bytes.extend(requester.into_iter().flatten());
    bytes
}

pub fn state_bytes(state: &NewState) -> Vec<u8> {
    match state {
        NewState::Listening => vec![0],
        NewState::Master => vec![1],
        NewState::Passive => vec![2],
        NewState::Faulty => vec![3],
        NewState::Slave(master) => [&[4], master.as_slice()].concat(),
    }
}

/// An event's outer tag and its inner fields, in order and not yet joined, so that
/// damage can be done to any one of them.
pub fn event_fields(event: &Event) -> (u8, Vec<(u8, Vec<u8>)>) {
    let time = |time: &u128| (1, time.to_be_bytes().to_vec());
    match event {
        Event::Event { time: at, message } => (EVENT, vec![time(at), (2, message.to_vec())]),
        Event::General { message } => (GENERAL, vec![(2, message.to_vec())]),
        Event::Stamp { time: at, context } => (STAMP, vec![time(at), (3, context_bytes(context))]),
        Event::SyncTimer => (SYNC_TIMER, vec![]),
        Event::DelayTimer { draw } => (DELAY_TIMER, vec![(4, draw.to_be_bytes().to_vec())]),
        Event::Filter { mean, next } => {
            let mean = mean.map(|mean| (5, mean.to_be_bytes().to_vec()));
            let next = next.map(|next| (6, next.to_be_bytes().to_vec()));
            (FILTER, mean.into_iter().chain(next).collect())
        }
        Event::SetState(state) => (SET_STATE, vec![(7, state_bytes(state))]),
    }
}

/// A log as it grows.
#[derive(Clone, Debug, Default, PartialEq, Eq)]
pub struct Log {
    pub bytes: Vec<u8>,
}

impl Log {
    /// Not even a configuration.
    pub fn empty() -> Log {
        Log::default()
    }

    pub fn new(config: &Config) -> Log {
        let mut log = Log::empty();
        log.outer(CONFIG, &config_bytes(config));
        log
    }

    pub fn push(&mut self, event: &Event) {
        let (tag, fields) = event_fields(event);
        self.outer(tag, &joined(&fields));
    }

    /// Any outer field, with the length of what it holds.
    pub fn outer(&mut self, tag: u8, content: &[u8]) {
        self.bytes.extend(field(tag, content));
    }

    /// Any outer field, with a stated length of the caller's choice.
    pub fn outer_stating(&mut self, tag: u8, length: u16, content: &[u8]) {
        self.bytes.extend(stated(tag, length, content));
    }

    pub fn raw(&mut self, bytes: &[u8]) {
        self.bytes.extend(bytes);
    }

    pub fn offset(&self) -> usize {
        self.bytes.len()
    }
}

#[cfg(test)]
mod tests {
    use super::*;
    use crate::stage::{config_of, MASTER};

    /// Hexadecimal digits with blanks between them.
    fn hex(digits: &str) -> Vec<u8> {
        let digits: Vec<u8> = digits.bytes().filter(u8::is_ascii_hexdigit).collect();
        let value = |digit: u8| (digit as char).to_digit(16).map_or(0, |value| value as u8);
        digits
            .chunks(2)
            .map(|pair| value(pair[0]) << 4 | value(pair[1]))
            .collect()
    }

    /// Marked example A, written out by hand.
    const EXAMPLE_A: &str = "
        0f 0021  020000fffe0000010001 0100 18 01 00 00 fd 00000000000000000000000000000000
        16 000e  07 000b 04 020000fffe0000090001
        10 0042  01 0010 0000000000000000000003e800000000
                 02 002c 10 12 002c 18 00 0200 0000000000000000 00000000
                         020000fffe0000090001 0007 00 fd 000000000000 00000000
        11 002f  02 002c 18 12 002c 18 00 0000 0000000000000000 00000000
                         020000fffe0000090001 0007 02 fd 000000000000 00000384";

    #[test]
    fn example_a() {
        let config = config_of(Mechanism::EndToEnd);
        let sync = Message::sync(&config, MASTER, 7).two_step().to_bytes();
        let follow_up = Message::follow_up(&config, MASTER, 7)
            .with_ns(900)
            .to_bytes();
        let mut log = Log::new(&config);
        log.push(&Event::SetState(NewState::Slave(MASTER)));
        log.push(&Event::Event {
            time: units(1000),
            message: &sync,
        });
        log.push(&Event::General {
            message: &follow_up,
        });
        assert_eq!(log.bytes, hex(EXAMPLE_A));
    }

    #[test]
    fn other_events() {
        let mut log = Log::empty();
        log.push(&Event::Stamp {
            time: 1,
            context: Context::PDelayResp(258, [9; 10]),
        });
        log.push(&Event::SyncTimer);
        log.push(&Event::DelayTimer { draw: 3 });
        log.push(&Event::Filter {
            mean: Some(-1),
            next: Some(4),
        });
        log.push(&Event::Filter {
            mean: None,
            next: None,
        });
        log.push(&Event::SetState(NewState::Faulty));
        let expected = hex("
            12 0023 01 0010 00000000000000000000000000000001
                    03 000d 03 0102 09090909090909090909
            13 0000
            14 000b 04 0008 0000000000000003
            15 001e 05 0010 ffffffffffffffffffffffffffffffff 06 0008 0000000000000004
            15 0000
            16 0004 07 0001 03");
        assert_eq!(log.bytes, expected);
    }

    #[test]
    fn addressed_message() {
        let config = config_of(Mechanism::Peer);
        let message = Message::pdelay_resp_follow_up(&config, MASTER, 1, [7; 10])
            .with_timestamp(0x0102_0304_0506, 0x0708_090A)
            .with_correction(-2)
            .with_extra(&[0xEE]);
        let expected = hex("
            1a 12 0036 18 00 0000 fffffffffffffffe 00000000 020000fffe0000090001 0001 05 7f
            010203040506 0708090a 07070707070707070707 ee");
        assert_eq!(message.to_bytes(), expected);
    }
}
