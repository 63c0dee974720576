//! A message's fields, read for the report only: from 01, 'Wire form', and with no
//! line in common with the port that is steered.

use crate::build::table_length;
use plain::Identity;

#[derive(Clone, Debug, PartialEq, Eq)]
pub struct Seen {
    pub there: usize,
    pub kind: u8,
    pub minor: u8,
    pub version: u8,
    pub stated: usize,
    pub sdo: u16,
    pub domain: u8,
    pub flags: u16,
    pub correction: i64,
    pub reserved: u32,
    pub source: Identity,
    pub id: u16,
    pub control: u8,
    pub interval: u8,
    pub seconds: u64,
    pub nanoseconds: u32,
    pub requester: Identity,
}

impl Seen {
    /// The fields of a message with a whole header; what lies beyond its end reads 0.
    pub fn of(message: &[u8]) -> Option<Seen> {
        if message.len() < 34 {
            return None;
        }
        let number = |from: usize, count: usize| {
            (from..from + count).fold(0, |sum: u64, at| sum << 8 | byte(message, at))
        };
        Some(Seen {
            there: message.len(),
            kind: number(0, 1) as u8 % 16,
            minor: number(1, 1) as u8 / 16,
            version: number(1, 1) as u8 % 16,
            stated: number(2, 2) as usize,
            sdo: (number(0, 1) / 16 * 256 + number(5, 1)) as u16,
            domain: number(4, 1) as u8,
            flags: number(6, 2) as u16,
            correction: number(8, 8) as i64,
            reserved: number(16, 4) as u32,
            source: identity(message, 20),
            id: number(30, 2) as u16,
            control: number(32, 1) as u8,
            interval: number(33, 1) as u8,
            seconds: number(34, 6),
            nanoseconds: number(40, 4) as u32,
            requester: identity(message, 44),
        })
    }

    pub fn two_step(&self) -> bool {
        self.flags & 0x0200 != 0
    }

    /// The timestamp in units.
    pub fn stamp(&self) -> i128 {
        (self.seconds as i128 * 1_000_000_000 + self.nanoseconds as i128) << 32
    }

    /// The correction in units.
    pub fn corrected(&self) -> i128 {
        self.correction as i128 * 65_536
    }

    /// Whether the table of 01, 'Wire form', lists the type.
    pub fn listed(&self) -> bool {
        matches!(self.kind, 0..=3 | 8..=10)
    }

    pub fn table(&self) -> usize {
        table_length(self.kind)
    }
}

fn byte(message: &[u8], at: usize) -> u64 {
    message.get(at).copied().unwrap_or(0).into()
}

fn identity(message: &[u8], from: usize) -> Identity {
    std::array::from_fn(|at| byte(message, from + at) as u8)
}
