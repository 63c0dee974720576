//! Reads a log for the report and says why a field is bad (01, 'Event log'; readings
//! 1 to 6). Written apart from the writer in `build` and from the port's own reader,
//! with which it is compared.

use plain::{Config, Context, Event, Mechanism, NewState};

/// How the length of a field is wrong.
#[derive(Clone, Copy, Debug, PartialEq, Eq)]
pub enum Wrong {
    Zero,
    OneLess,
    OneMore,
    Other,
}

#[derive(Clone, Copy, Debug, PartialEq, Eq)]
pub enum Bad {
    /// No byte at all.
    Empty,
    /// So many bytes where an outer field should begin.
    Tail(usize),
    PastEnd,
    FirstTag,
    ConfigLength(Wrong),
    Mechanism(u8),
    SecondConfig,
    OuterTag,
    /// Something in a field that holds nothing.
    Content,
    /// So many bytes where an inner field should begin.
    InnerTail(usize),
    InnerPastEnd,
    UnknownInner(u8),
    NotTaken(u8),
    Repeated(u8),
    Order(u8),
    Missing(u8),
    Length(u8, Wrong),
    ContextKind(u8),
    IdentityMissing(u8),
    IdentityTooMuch(u8),
    StateValue(u8),
}

/// A bad field: its offset, its outer tag (0 if there is none) and the reason.
#[derive(Clone, Copy, Debug, PartialEq, Eq)]
pub struct Fault {
    pub at: usize,
    pub tag: u8,
    pub bad: Bad,
}

pub struct Reading<'a> {
    pub config: Option<Config>,
    pub events: Vec<Event<'a>>,
    pub fault: Option<Fault>,
}

fn wrong(length: usize, right: usize) -> Wrong {
    match length {
        0 => Wrong::Zero,
        _ if length + 1 == right => Wrong::OneLess,
        _ if length == right + 1 => Wrong::OneMore,
        _ => Wrong::Other,
    }
}

pub fn read(bytes: &[u8]) -> Reading<'_> {
    let mut reading = Reading {
        config: None,
        events: Vec::new(),
        fault: None,
    };
    let mut at = 0;
    let found = loop {
        let rest = &bytes[at..];
        if rest.is_empty() && reading.config.is_some() {
            return reading;
        }
        match outer(rest) {
            Err(bad) => break bad,
            Ok((tag, value)) => match take(&mut reading, tag, value) {
                Err(bad) => break bad,
                Ok(()) => at += 3 + value.len(),
            },
        }
    };
    let tag = bytes.get(at).copied().unwrap_or(0);
    reading.fault = Some(Fault {
        at,
        tag,
        bad: found,
    });
    reading
}

fn outer(rest: &[u8]) -> Result<(u8, &[u8]), Bad> {
    match rest {
        [] => Err(Bad::Empty),
        [_] | [_, _] => Err(Bad::Tail(rest.len())),
        [tag, high, low, value @ ..] => {
            let length = usize::from(*high) * 256 + usize::from(*low);
            value
                .get(..length)
                .map(|value| (*tag, value))
                .ok_or(Bad::PastEnd)
        }
    }
}

fn take<'a>(reading: &mut Reading<'a>, tag: u8, value: &'a [u8]) -> Result<(), Bad> {
    match (reading.config, tag) {
        (None, 0x0F) => reading.config = Some(config(value)?),
        (None, _) => return Err(Bad::FirstTag),
        (Some(_), 0x0F) => return Err(Bad::SecondConfig),
        (Some(_), 0x10..=0x16) => reading.events.push(event(tag, value)?),
        (Some(_), _) => return Err(Bad::OuterTag),
    }
    Ok(())
}

fn config(value: &[u8]) -> Result<Config, Bad> {
    if value.len() != 33 {
        return Err(Bad::ConfigLength(wrong(value.len(), 33)));
    }
    let mechanism = match value[14] {
        0 => Mechanism::EndToEnd,
        1 => Mechanism::Peer,
        other => return Err(Bad::Mechanism(other)),
    };
    Ok(Config {
        identity: array(&value[..10]),
        sdo: u16::from_be_bytes(array(&value[10..12])),
        domain: value[12],
        minor: value[13],
        mechanism,
        delay_interval: value[15] as i8,
        sync_interval: value[16] as i8,
        asymmetry: i128::from_be_bytes(array(&value[17..])),
    })
}

/// Bytes whose count has been seen to be right.
fn array<const N: usize>(bytes: &[u8]) -> [u8; N] {
    bytes.try_into().expect("the length was tested")
}

/// Inner tags that an event must hold, and those that it may hold.
fn takes(tag: u8) -> (&'static [u8], &'static [u8]) {
    match tag {
        0x10 => (&[1, 2], &[]),
        0x11 => (&[2], &[]),
        0x12 => (&[1, 3], &[]),
        0x14 => (&[4], &[]),
        0x15 => (&[], &[5, 6]),
        0x16 => (&[7], &[]),
        _ => (&[], &[]),
    }
}

fn event(tag: u8, value: &[u8]) -> Result<Event<'_>, Bad> {
    if tag == 0x13 && !value.is_empty() {
        return Err(Bad::Content);
    }
    let mut held: [Option<&[u8]>; 8] = [None; 8];
    let (must, may) = takes(tag);
    let (mut rest, mut last) = (value, 0);
    while !rest.is_empty() {
        let (inner, content) = match outer(rest) {
            Ok(field) => field,
            Err(Bad::Tail(count)) => return Err(Bad::InnerTail(count)),
            Err(_) => return Err(Bad::InnerPastEnd),
        };
        match inner {
            0 | 8.. => return Err(Bad::UnknownInner(inner)),
            _ if inner == last => return Err(Bad::Repeated(inner)),
            _ if inner < last => return Err(Bad::Order(inner)),
            _ if !must.contains(&inner) && !may.contains(&inner) => {
                return Err(Bad::NotTaken(inner));
            }
            _ => sized(inner, content)?,
        }
        held[usize::from(inner)] = Some(content);
        (rest, last) = (&rest[3 + content.len()..], inner);
    }
    match must
        .iter()
        .find(|inner| held[usize::from(**inner)].is_none())
    {
        Some(inner) => Err(Bad::Missing(*inner)),
        None => Ok(made(tag, &held)),
    }
}

/// Length and choice of an inner field.
fn sized(inner: u8, content: &[u8]) -> Result<(), Bad> {
    let first = content.first().copied();
    let right = match (inner, first) {
        (1 | 5, _) => 16,
        (4 | 6, _) => 8,
        (2, _) if content.len() <= 1024 => return Ok(()),
        (2, _) => 1024,
        (3, Some(kind @ 4..)) => return Err(Bad::ContextKind(kind)),
        (3, Some(3)) if content.len() == 3 => return Err(Bad::IdentityMissing(3)),
        (3, Some(3)) => 13,
        (3, Some(kind)) if content.len() == 13 => return Err(Bad::IdentityTooMuch(kind)),
        (3, _) => 3,
        (7, Some(state @ 5..)) => return Err(Bad::StateValue(state)),
        (7, Some(4)) if content.len() == 1 => return Err(Bad::IdentityMissing(4)),
        (7, Some(4)) => 11,
        (7, Some(state)) if content.len() == 11 => return Err(Bad::IdentityTooMuch(state)),
        _ => 1,
    };
    if content.len() == right {
        return Ok(());
    }
    Err(Bad::Length(inner, wrong(content.len(), right)))
}

/// The event, once every field is known to be there and good.
fn made<'a>(tag: u8, held: &[Option<&'a [u8]>; 8]) -> Event<'a> {
    let bytes = |inner: usize| held[inner].expect("its presence was tested");
    let time = || u128::from_be_bytes(array(bytes(1)));
    match tag {
        0x10 => Event::Event {
            time: time(),
            message: bytes(2),
        },
        0x11 => Event::General { message: bytes(2) },
        0x12 => Event::Stamp {
            time: time(),
            context: context(bytes(3)),
        },
        0x13 => Event::SyncTimer,
        0x14 => Event::DelayTimer {
            draw: u64::from_be_bytes(array(bytes(4))),
        },
        0x15 => Event::Filter {
            mean: held[5].map(|mean| i128::from_be_bytes(array(mean))),
            next: held[6].map(|next| u64::from_be_bytes(array(next))),
        },
        _ => Event::SetState(state(bytes(7))),
    }
}

fn context(content: &[u8]) -> Context {
    let id = u16::from_be_bytes(array(&content[1..3]));
    match content[0] {
        0 => Context::Sync(id),
        1 => Context::DelayReq(id),
        2 => Context::PDelayReq(id),
        _ => Context::PDelayResp(id, array(&content[3..])),
    }
}

fn state(content: &[u8]) -> NewState {
    match content[0] {
        0 => NewState::Listening,
        1 => NewState::Master,
        2 => NewState::Passive,
        3 => NewState::Faulty,
        _ => NewState::Slave(array(&content[1..])),
    }
}
