//! Document 01's event log, for good logs only: a bad field panics.

use statime::observability::open::{OpenContext, OpenState};

pub struct Config {
    pub identity: [u8; 10],
    pub sdo: u16,
    pub domain: u8,
    pub minor: u8,
    pub mechanism: u8,
    pub delay_interval: i8,
    pub sync_interval: i8,
    pub asymmetry: i128,
}

pub enum Event<'a> {
    Event {
        at: u128,
        message: &'a [u8],
    },
    General {
        message: &'a [u8],
    },
    Stamp {
        at: u128,
        context: OpenContext,
    },
    SyncTimer,
    DelayTimer {
        draw: u64,
    },
    Filter {
        mean: Option<i128>,
        next: Option<u64>,
    },
    SetState(OpenState),
}

/// A number of exactly as many bytes as its type has.
macro_rules! number {
    ($type:ty, $bytes:expr) => {
        <$type>::from_be_bytes($bytes.try_into().expect("bad log: width"))
    };
}

/// Takes one field off the front: its tag and its value.
fn field<'a>(rest: &mut &'a [u8]) -> Option<(u8, &'a [u8])> {
    if rest.is_empty() {
        return None;
    }
    let (head, behind) = rest.split_at(3);
    let (value, behind) = behind.split_at(number!(u16, head[1..]).into());
    *rest = behind;
    Some((head[0], value))
}

fn config(b: &[u8]) -> Config {
    assert_eq!(b.len(), 33, "bad log: configuration");
    Config {
        identity: b[..10].try_into().unwrap(),
        sdo: number!(u16, b[10..12]),
        domain: b[12],
        minor: b[13],
        mechanism: b[14],
        delay_interval: b[15] as i8,
        sync_interval: b[16] as i8,
        asymmetry: number!(i128, b[17..]),
    }
}

fn context(b: &[u8]) -> OpenContext {
    let id = number!(u16, b[1..3]);
    match (b[0], b.len()) {
        (0, 3) => OpenContext::Sync(id),
        (1, 3) => OpenContext::DelayReq(id),
        (2, 3) => OpenContext::PDelayReq(id),
        (3, 13) => OpenContext::PDelayResp(id, b[3..].try_into().unwrap()),
        _ => panic!("bad log: context"),
    }
}

fn state(b: &[u8]) -> OpenState {
    match (b[0], b.len()) {
        (0, 1) => OpenState::Listening,
        (1, 1) => OpenState::Master,
        (2, 1) => OpenState::Passive,
        (3, 1) => OpenState::Faulty,
        (4, 11) => OpenState::Slave(b[1..].try_into().unwrap()),
        _ => panic!("bad log: state"),
    }
}

fn event(tag: u8, mut value: &[u8]) -> Event<'_> {
    let mut inner = [None; 8];
    while let Some((tag, value)) = field(&mut value) {
        inner[usize::from(tag)] = Some(value);
    }
    let need = |tag: usize| inner[tag].expect("bad log: a field is missing");
    match tag {
        0x10 => Event::Event {
            at: number!(u128, need(1)),
            message: need(2),
        },
        0x11 => Event::General { message: need(2) },
        0x12 => Event::Stamp {
            at: number!(u128, need(1)),
            context: context(need(3)),
        },
        0x13 => Event::SyncTimer,
        0x14 => Event::DelayTimer {
            draw: number!(u64, need(4)),
        },
        0x15 => Event::Filter {
            mean: inner[5].map(|b| number!(i128, b)),
            next: inner[6].map(|b| number!(u64, b)),
        },
        0x16 => Event::SetState(state(need(7))),
        other => panic!("bad log: outer field {other}"),
    }
}

pub fn read(mut rest: &[u8]) -> (Config, impl Iterator<Item = Event<'_>>) {
    let (tag, value) = field(&mut rest).expect("bad log: empty");
    assert_eq!(tag, 0x0f, "bad log: first field");
    (
        config(value),
        std::iter::from_fn(move || field(&mut rest).map(|(tag, value)| event(tag, value))),
    )
}
