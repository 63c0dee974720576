//! Messages on the wire (01, "Wire form").

use crate::reply::Refusal;
use crate::time;
use crate::{Config, Identity};

/// Bytes of the header; the body begins behind it.
const HEADER: usize = 34;

/// The log interval of messages that carry none.
pub const NO_INTERVAL: i8 = 0x7F;

#[derive(Clone, Copy, Debug, PartialEq, Eq)]
pub enum Type {
    Sync,
    DelayReq,
    PDelayReq,
    PDelayResp,
    FollowUp,
    DelayResp,
    PDelayRespFollowUp,
    /// Types 11, 12 and 13, which the port leaves to its host.
    Host,
}

impl Type {
    fn of(number: u8) -> Option<Type> {
        match number {
            0 => Some(Type::Sync),
            1 => Some(Type::DelayReq),
            2 => Some(Type::PDelayReq),
            3 => Some(Type::PDelayResp),
            8 => Some(Type::FollowUp),
            9 => Some(Type::DelayResp),
            10 => Some(Type::PDelayRespFollowUp),
            11..=13 => Some(Type::Host),
            _ => None,
        }
    }

    /// Bytes of the whole message. The host's own types have no more than a header that
    /// this crate knows of (reading 9).
    fn length(self) -> usize {
        match self {
            Type::Sync | Type::DelayReq | Type::FollowUp => 44,
            Type::PDelayReq | Type::PDelayResp => 54,
            Type::DelayResp | Type::PDelayRespFollowUp => 54,
            Type::Host => HEADER,
        }
    }

    /// Type number, control byte and whether the two-step flag is set when we send it.
    fn marks(self) -> (u8, u8, bool) {
        match self {
            Type::Sync => (0, 0, true),
            Type::DelayReq => (1, 1, false),
            Type::PDelayReq => (2, 5, false),
            Type::PDelayResp => (3, 5, true),
            Type::FollowUp => (8, 2, false),
            Type::DelayResp => (9, 3, false),
            Type::PDelayRespFollowUp => (10, 5, false),
            Type::Host => unreachable!("the port sends no message of its host"),
        }
    }
}

/// A received message that rows 4 and 5 let pass. It lends the received bytes, cut to
/// its type's length, so that nothing behind the body can be read; its parts are taken
/// from them when a rule asks.
#[derive(Clone, Copy, Debug)]
pub struct Message<'a> {
    pub kind: Type,
    header: &'a [u8; HEADER],
    body: &'a [u8],
}

impl<'a> Message<'a> {
    pub fn decode(bytes: &'a [u8]) -> Result<Message<'a>, Refusal> {
        if bytes.len() < 2 || bytes[1] & 0x0F != 2 {
            return Err(Refusal::Version);
        }
        let (header, rest) = bytes.split_first_chunk().ok_or(Refusal::Malformed)?;
        let kind = Type::of(header[0] & 0x0F).ok_or(Refusal::Malformed)?;
        let stated = usize::from(u16::from_be_bytes([header[2], header[3]]));
        // No type is shorter than a header, so this covers a stated length below 34.
        if stated < kind.length() || stated > bytes.len() {
            return Err(Refusal::Malformed);
        }
        let body = &rest[..kind.length() - HEADER];
        Ok(Message { kind, header, body })
    }

    /// `N` bytes of the header. The place is known when this is compiled, so no test of
    /// a length is left in it.
    #[inline(always)]
    fn part<const N: usize>(&self, at: usize) -> &'a [u8; N] {
        self.header[at..].first_chunk().expect("inside the header")
    }

    /// Four bits of byte 0 above the eight of byte 5.
    pub fn sdo(&self) -> u16 {
        u16::from(self.header[0] >> 4) << 8 | u16::from(self.header[5])
    }

    pub fn domain(&self) -> u8 {
        self.header[4]
    }

    pub fn is_two_step(&self) -> bool {
        self.header[6] & 0x02 != 0
    }

    pub fn correction(&self) -> i64 {
        i64::from_be_bytes(*self.part(8))
    }

    pub fn source(&self) -> &'a Identity {
        self.part(20)
    }

    pub fn id(&self) -> u16 {
        u16::from_be_bytes(*self.part(30))
    }

    /// The timestamp that begins every body. Not to be asked of a host's message.
    pub fn timestamp(&self) -> u128 {
        let stamp = self.body.first_chunk().expect("a body");
        time::from_wire(*stamp)
    }

    /// The identity behind the timestamp. Only to be asked of the three peer and delay
    /// answers.
    pub fn requester(&self) -> &'a Identity {
        self.body.last_chunk().expect("a body of twenty bytes")
    }
}

/// What differs from one sent message to the next.
pub struct Draft {
    pub kind: Type,
    pub id: u16,
    pub correction: i64,
    pub interval: i8,
    /// The timestamp of the body.
    pub stamp: [u8; 10],
    /// The last ten bytes of a body of twenty: zero in a PDelayReq.
    pub requester: Identity,
}

impl Draft {
    /// A message that asks or announces: no time, no correction, nobody to answer.
    pub fn blank(kind: Type, id: u16, interval: i8) -> Draft {
        Draft {
            kind,
            id,
            correction: 0,
            interval,
            stamp: [0; 10],
            requester: [0; 10],
        }
    }

    /// Writes the message to the front of `packet` and gives its length. The bytes
    /// behind it stay. The buffer is at least 64 bytes (row 1).
    pub fn write(&self, config: &Config, packet: &mut [u8]) -> usize {
        let length = self.kind.length();
        let (header, body) = packet[..length].split_at_mut(HEADER);
        self.write_header(config, header);
        let (stamp, requester) = body.split_at_mut(10);
        stamp.copy_from_slice(&self.stamp);
        if !requester.is_empty() {
            requester.copy_from_slice(&self.requester);
        }
        length
    }

    fn write_header(&self, config: &Config, header: &mut [u8]) {
        let (number, control, two_step) = self.kind.marks();
        let [major, minor] = config.sdo.to_be_bytes();
        let length = self.kind.length() as u16;
        header[0] = major << 4 | number;
        header[1] = config.minor << 4 | 2;
        header[2..4].copy_from_slice(&length.to_be_bytes());
        header[4] = config.domain;
        header[5] = minor;
        header[6] = u8::from(two_step) << 1;
        header[7] = 0;
        header[8..16].copy_from_slice(&self.correction.to_be_bytes());
        header[16..20].fill(0);
        header[20..30].copy_from_slice(&config.identity);
        header[30..32].copy_from_slice(&self.id.to_be_bytes());
        header[32] = control;
        header[33] = self.interval as u8;
    }
}
