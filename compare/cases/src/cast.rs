//! Who is on the wire and what each of them says, and the numbers all cases share.

pub use generate::build::{correction, duration, units, Message, TWO_STEP};
pub use plain::{Config, Context, Identity, Mechanism, NewState};

// No byte comes twice at the same place, so that mixed-up identities show.
pub const US: Identity = [0x02, 0x13, 0x24, 0x35, 0x46, 0x57, 0x68, 0x79, 0x8A, 0x9B];
pub const MASTER: Identity = [0xC1, 0xD2, 0xE3, 0xF4, 0x05, 0x16, 0x27, 0x38, 0x49, 0x5A];
pub const PEER: Identity = [0x3B, 0x4C, 0x5D, 0x6E, 0x7F, 0x80, 0x91, 0xA2, 0xB3, 0xC4];
pub const RIVAL: Identity = [0x9E, 0xAF, 0xB0, 0xC2, 0xD3, 0xE4, 0xF5, 0x06, 0x17, 0x28];
pub const CLIENT: Identity = [0x61, 0x70, 0x8F, 0x9C, 0xAD, 0xBE, 0xCF, 0xD0, 0xE1, 0xF2];

/// The port of most cases. The two intervals differ, and both differ from 0x7F.
pub const BASE: Config = Config {
    identity: US,
    sdo: 0xA5C,
    domain: 0x7B,
    minor: 1,
    mechanism: Mechanism::EndToEnd,
    delay_interval: -3,
    sync_interval: 2,
    asymmetry: 0,
};

/// What the others put in their headers where we do not look: a copy of it in one of
/// our own messages shows.
const THEIRS: Config = Config {
    minor: 0,
    delay_interval: 5,
    sync_interval: -7,
    ..BASE
};

/// The largest time.
pub const TOP: u128 = (1 << 127) - 1;

/// The first time whose seconds need 49 bits: 2^48 s of 10^9 ns of 2^32 units.
pub const LATE: u128 = 1_000_000_000 << 80;

/// One step of a correction field, in units.
pub const STEP: u128 = 65_536;

/// The draw of example J: the delay timer is the interval itself.
pub const MIDDLE: u64 = (1 << 51) - 1;

pub const fn end_to_end(asymmetry: i128) -> Config {
    Config { asymmetry, ..BASE }
}

pub const fn peer(asymmetry: i128) -> Config {
    Config {
        asymmetry,
        mechanism: Mechanism::Peer,
        ..BASE
    }
}

/// An identity that differs in one bit of one byte.
pub fn near(mut identity: Identity, byte: usize) -> Identity {
    identity[byte] ^= 0x10;
    identity
}

pub fn by(source: Identity, message: Message) -> Message {
    Message { source, ..message }
}

pub fn of_type(kind: u8, message: Message) -> Message {
    Message { kind, ..message }
}

/// Both halves of byte 1.
pub fn in_version(minor: u8, version: u8, message: Message) -> Message {
    Message {
        minor,
        version,
        ..message
    }
}

pub fn in_domain(sdo: u16, domain: u8, message: Message) -> Message {
    Message {
        sdo,
        domain,
        ..message
    }
}

/// Out of our domain by one bit.
pub fn foreign(message: Message) -> Message {
    in_domain(BASE.sdo, BASE.domain ^ 1, message)
}

/// From our master, one-step.
pub fn sync(id: u16) -> Message {
    Message::of(0, &THEIRS, MASTER, id)
}

pub fn two_step_sync(id: u16) -> Message {
    sync(id).two_step()
}

pub fn follow_up(id: u16) -> Message {
    Message::of(8, &THEIRS, MASTER, id)
}

/// From our master to us.
pub fn delay_resp(id: u16) -> Message {
    Message::of(9, &THEIRS, MASTER, id).with_requester(US)
}

/// From the peer to us, one-step.
pub fn response(id: u16) -> Message {
    Message::of(3, &THEIRS, PEER, id).with_requester(US)
}

pub fn two_step_response(id: u16) -> Message {
    response(id).two_step()
}

pub fn response_follow_up(id: u16) -> Message {
    Message::of(10, &THEIRS, PEER, id).with_requester(US)
}

pub fn delay_req(id: u16) -> Message {
    Message::of(1, &THEIRS, CLIENT, id)
}

pub fn pdelay_req(id: u16) -> Message {
    Message::of(2, &THEIRS, CLIENT, id)
}

/// A message as we send it, with times, correction and requester 0.
pub fn sent(kind: u8, id: u16) -> Message {
    sent_under(&BASE, kind, id)
}

/// The same from a port that is configured otherwise. Control, interval and flags are
/// set here from 01, 'Wire form', whatever the writer thinks of them.
pub fn sent_under(config: &Config, kind: u8, id: u16) -> Message {
    let (control, interval, flags) = match kind {
        0 => (0, config.sync_interval as u8, TWO_STEP),
        1 => (1, 0x7F, 0),
        2 | 10 => (5, 0x7F, 0),
        3 => (5, 0x7F, TWO_STEP),
        8 => (2, config.sync_interval as u8, 0),
        9 => (3, config.delay_interval as u8, 0),
        _ => unreachable!("a port does not send type {kind}"),
    };
    Message {
        control,
        interval,
        flags,
        ..Message::of(kind, config, config.identity, id)
    }
}

/// The actions of a PDelayResp sent to `requester`.
pub fn answers_peer(id: u16, requester: Identity) -> String {
    format!("event:3:{id}:{}:link", hex(&requester))
}

pub fn hex(bytes: &[u8]) -> String {
    bytes.iter().map(|byte| format!("{byte:02x}")).collect()
}
