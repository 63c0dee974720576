//! The event log (01, "Event log"; readings 1 to 7).
//!
//! A log is a row of outer fields, each a one-byte tag, a two-byte length and a value.
//! [`Reader`] walks one of any size through a window of fixed size: an event lends its
//! message from the window, and only the rest of a field that is cut off by the end of
//! the window is ever moved.

use crate::{Config, Context, Event, Identity, Mechanism, NewState};
use std::io;

/// Bytes of the window. The longest good field has 1049, so any of them fits.
const WINDOW: usize = 64 * 1024;

/// Tag and length.
const PREFIX: usize = 3;

const CONFIG: u8 = 0x0F;
const LONGEST_MESSAGE: usize = 1024;

/// What stands at the front of some bytes of a log.
#[derive(Clone, Copy, Debug, PartialEq, Eq)]
enum Front {
    /// A field of this many bytes, prefix included. Its value has not been looked at.
    Field(usize),
    /// The bytes end inside a field that may still be good.
    Cut,
    Bad,
}

/// Measures the field at the front of `bytes`. A length that no good field of the tag
/// has is bad at once, so that nobody waits for more bytes than the window holds.
fn front(bytes: &[u8], first: bool) -> Front {
    let &[tag, high, low, ..] = bytes else {
        return Front::Cut;
    };
    let length = usize::from(u16::from_be_bytes([high, low]));
    if (tag == CONFIG) != first || length > longest(tag) {
        return Front::Bad;
    }
    if bytes.len() < PREFIX + length {
        return Front::Cut;
    }
    Front::Field(PREFIX + length)
}

/// The longest good value of an outer field, which is also what keeps messages to their
/// limit: there is no room for a longer one beside the other fields. An unknown tag has
/// no good value, and is found out when the value is read.
fn longest(tag: u8) -> usize {
    match tag {
        CONFIG => 33,
        0x10 => 19 + PREFIX + LONGEST_MESSAGE,
        0x11 => PREFIX + LONGEST_MESSAGE,
        0x12 => 19 + 16,
        0x14 => 11,
        0x15 => 19 + 11,
        0x16 => 14,
        _ => 0,
    }
}

/// The configuration, of whose values only the mechanism can be a bad choice: numbers
/// out of limits make the record unfit instead (reading 2).
fn config(value: &[u8]) -> Option<Config> {
    let value: &[u8; 33] = value.try_into().ok()?;
    let (identity, rest) = value.split_first_chunk()?;
    let (numbers, asymmetry) = rest.split_first_chunk()?;
    let &[sdo_high, sdo_low, domain, minor, mechanism, delay, sync] = numbers;
    Some(Config {
        identity: *identity,
        sdo: u16::from_be_bytes([sdo_high, sdo_low]),
        domain,
        minor,
        mechanism: match mechanism {
            0 => Mechanism::EndToEnd,
            1 => Mechanism::Peer,
            _ => return None,
        },
        delay_interval: delay as i8,
        sync_interval: sync as i8,
        asymmetry: i128::from_be_bytes(asymmetry.try_into().ok()?),
    })
}

/// The event of an outer field. As each kind of event takes its inner fields in one
/// order only, reading them in that order and finding nothing left is the whole test.
#[inline(always)]
fn event(tag: u8, value: &[u8]) -> Option<Event<'_>> {
    let mut inner = Inner(value);
    let event = match tag {
        0x10 => Event::Event {
            time: u128::from_be_bytes(inner.array(1)?),
            message: inner.take(2)?,
        },
        0x11 => Event::General {
            message: inner.take(2)?,
        },
        0x12 => Event::Stamp {
            time: u128::from_be_bytes(inner.array(1)?),
            context: context(inner.take(3)?)?,
        },
        0x13 => Event::SyncTimer,
        0x14 => Event::DelayTimer {
            draw: u64::from_be_bytes(inner.array(4)?),
        },
        0x15 => Event::Filter {
            mean: inner.optional(5)?.map(i128::from_be_bytes),
            next: inner.optional(6)?.map(u64::from_be_bytes),
        },
        0x16 => Event::SetState(state(inner.take(7)?)?),
        _ => return None,
    };
    inner.0.is_empty().then_some(event)
}

fn context(value: &[u8]) -> Option<Context> {
    let (&[kind, high, low], rest) = value.split_first_chunk()?;
    let id = u16::from_be_bytes([high, low]);
    match (kind, rest) {
        (0, []) => Some(Context::Sync(id)),
        (1, []) => Some(Context::DelayReq(id)),
        (2, []) => Some(Context::PDelayReq(id)),
        (3, identity) => Some(Context::PDelayResp(id, identity.try_into().ok()?)),
        _ => None,
    }
}

fn state(value: &[u8]) -> Option<NewState> {
    match value {
        [0] => Some(NewState::Listening),
        [1] => Some(NewState::Master),
        [2] => Some(NewState::Passive),
        [3] => Some(NewState::Faulty),
        [4, master @ ..] => Some(NewState::Slave(Identity::try_from(master).ok()?)),
        _ => None,
    }
}

/// The inner fields of an event that have not been taken yet.
struct Inner<'a>(&'a [u8]);

impl<'a> Inner<'a> {
    /// The value of the next field, which has to be of this tag.
    fn take(&mut self, tag: u8) -> Option<&'a [u8]> {
        let (&[found, high, low], rest) = self.0.split_first_chunk()?;
        let length = usize::from(u16::from_be_bytes([high, low]));
        let (value, rest) = rest.split_at_checked(length)?;
        self.0 = rest;
        (found == tag).then_some(value)
    }

    /// The value of the next field, of this tag and exactly `N` bytes.
    fn array<const N: usize>(&mut self, tag: u8) -> Option<[u8; N]> {
        self.take(tag)?.try_into().ok()
    }

    /// The same, for a field that need not be there.
    fn optional<const N: usize>(&mut self, tag: u8) -> Option<Option<[u8; N]>> {
        if self.0.first() == Some(&tag) {
            self.array(tag).map(Some)
        } else {
            Some(None)
        }
    }
}

/// One step through a log.
#[derive(Clone, Copy, Debug, PartialEq, Eq)]
pub enum Read<'a> {
    Config(Config),
    Event(Event<'a>),
    /// The log ended behind a good field.
    End,
    /// The field at this offset of the whole log is bad. Reading on finds it again.
    Bad(u64),
}

/// Reads a log from any source, in whatever pieces the source gives it.
pub struct Reader<R> {
    source: R,
    window: Box<[u8]>,
    /// The bytes of the window that are still to be read.
    start: usize,
    end: usize,
    /// Where the window begins in the whole log.
    base: u64,
    /// The configuration is still to come.
    first: bool,
}

impl<R: io::Read> Reader<R> {
    pub fn new(source: R) -> Reader<R> {
        Reader {
            source,
            window: vec![0; WINDOW].into_boxed_slice(),
            start: 0,
            end: 0,
            base: 0,
            first: true,
        }
    }

    /// The next field of the log.
    // Not an `Iterator`: what it gives lends from the window and ends with the next call.
    #[allow(clippy::should_implement_trait)]
    #[inline(always)]
    pub fn next(&mut self) -> io::Result<Read<'_>> {
        let size = loop {
            match front(&self.window[self.start..self.end], self.first) {
                Front::Field(size) => break size,
                Front::Bad => return Ok(self.bad()),
                Front::Cut if self.refill()? => {}
                Front::Cut if self.start == self.end && !self.first => return Ok(Read::End),
                Front::Cut => return Ok(self.bad()),
            }
        };
        let (from, offset) = (self.start, self.base + self.start as u64);
        let field = &self.window[from..from + size];
        let (tag, value) = (field[0], &field[PREFIX..]);
        if self.first {
            let Some(config) = config(value) else {
                return Ok(Read::Bad(offset));
            };
            self.first = false;
            self.start += size;
            return Ok(Read::Config(config));
        }
        let Some(event) = event(tag, value) else {
            return Ok(Read::Bad(offset));
        };
        self.start += size;
        Ok(Read::Event(event))
    }

    fn bad(&self) -> Read<'static> {
        Read::Bad(self.base + self.start as u64)
    }

    /// Slides the rest to the front and reads behind it. False at the end of the source.
    #[cold]
    fn refill(&mut self) -> io::Result<bool> {
        self.window.copy_within(self.start..self.end, 0);
        self.base += self.start as u64;
        self.end -= self.start;
        self.start = 0;
        loop {
            match self.source.read(&mut self.window[self.end..]) {
                Ok(got) => {
                    self.end += got;
                    return Ok(got > 0);
                }
                Err(error) if error.kind() == io::ErrorKind::Interrupted => {}
                Err(error) => return Err(error),
            }
        }
    }
}
