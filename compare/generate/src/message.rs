//! One message with every field free, and its bytes.

use plain::{Config, Identity};

/// The two-step bit as it stands in the flags number (byte 6 is its high half).
pub const TWO_STEP: u16 = 0x0200;

/// Whole nanoseconds as a correction field.
pub const fn correction(ns: i64) -> i64 {
    ns << 16
}

/// A message with every field of its header and body free.
#[derive(Clone, Debug, PartialEq, Eq)]
pub struct Message {
    /// The type nibble.
    pub kind: u8,
    pub sdo: u16,
    pub minor: u8,
    pub version: u8,
    /// The stated length; `None` states what the table of 01, 'Wire form', gives.
    pub length: Option<u16>,
    pub domain: u8,
    pub flags: u16,
    pub correction: i64,
    pub source: Identity,
    pub id: u16,
    pub control: u8,
    pub interval: u8,
    pub reserved: [u8; 4],
    /// The low 48 bits are written.
    pub seconds: u64,
    pub nanoseconds: u32,
    pub requester: Identity,
    /// Bytes behind the body.
    pub extra: Vec<u8>,
}

/// The table's length of a type; types that it does not list get 44 here, so that
/// they too can be built with a body.
pub const fn table_length(kind: u8) -> usize {
    match kind {
        2 | 3 | 9 | 10 => 54,
        _ => 44,
    }
}

impl Message {
    /// A message of any type, one-step, with times and correction 0.
    pub fn of(kind: u8, config: &Config, source: Identity, id: u16) -> Message {
        let (control, interval) = match kind {
            0 => (0, config.sync_interval as u8),
            1 => (1, 0x7F),
            8 => (2, config.sync_interval as u8),
            9 => (3, config.delay_interval as u8),
            _ => (5, 0x7F),
        };
        Message {
            kind,
            sdo: config.sdo,
            minor: config.minor,
            version: 2,
            length: None,
            domain: config.domain,
            flags: 0,
            correction: 0,
            source,
            id,
            control,
            interval,
            reserved: [0; 4],
            seconds: 0,
            nanoseconds: 0,
            requester: [0; 10],
            extra: Vec::new(),
        }
    }

    /// One-step; see `two_step`.
    pub fn sync(config: &Config, source: Identity, id: u16) -> Message {
        Message::of(0, config, source, id)
    }

    /// One-step; see `two_step`.
    pub fn pdelay_resp(config: &Config, source: Identity, id: u16, to: Identity) -> Message {
        Message::of(3, config, source, id).with_requester(to)
    }

    pub fn follow_up(config: &Config, source: Identity, id: u16) -> Message {
        Message::of(8, config, source, id)
    }

    pub fn delay_resp(config: &Config, source: Identity, id: u16, to: Identity) -> Message {
        Message::of(9, config, source, id).with_requester(to)
    }

    pub fn pdelay_resp_follow_up(
        config: &Config,
        source: Identity,
        id: u16,
        to: Identity,
    ) -> Message {
        Message::of(10, config, source, id).with_requester(to)
    }

    pub fn two_step(self) -> Message {
        let flags = self.flags | TWO_STEP;
        self.with_flags(flags)
    }

    pub fn with_flags(self, flags: u16) -> Message {
        Message { flags, ..self }
    }

    pub fn with_correction(self, correction: i64) -> Message {
        Message { correction, ..self }
    }

    pub fn with_requester(self, requester: Identity) -> Message {
        Message { requester, ..self }
    }

    pub fn with_timestamp(self, seconds: u64, nanoseconds: u32) -> Message {
        Message {
            seconds,
            nanoseconds,
            ..self
        }
    }

    /// The timestamp from one number of nanoseconds.
    pub fn with_ns(self, ns: u64) -> Message {
        self.with_timestamp(ns / 1_000_000_000, (ns % 1_000_000_000) as u32)
    }

    pub fn with_length(self, length: u16) -> Message {
        Message {
            length: Some(length),
            ..self
        }
    }

    /// States all that is there, bytes behind the body too.
    pub fn stating_all(self) -> Message {
        let length = self.to_bytes().len() as u16;
        self.with_length(length)
    }

    pub fn with_extra(self, extra: &[u8]) -> Message {
        Message {
            extra: extra.to_vec(),
            ..self
        }
    }

    pub fn to_bytes(&self) -> Vec<u8> {
        let mut bytes = self.header().to_vec();
        bytes.extend(&self.seconds.to_be_bytes()[2..]);
        bytes.extend(self.nanoseconds.to_be_bytes());
        if table_length(self.kind) == 54 {
            bytes.extend(self.requester);
        }
        bytes.extend(&self.extra);
        bytes
    }

    fn header(&self) -> [u8; 34] {
        let length = self.length.unwrap_or(table_length(self.kind) as u16);
        let mut bytes = [0; 34];
        bytes[0] = ((self.sdo >> 8) as u8) << 4 | self.kind & 15;
        bytes[1] = self.minor << 4 | self.version & 15;
        bytes[2..4].copy_from_slice(&length.to_be_bytes());
        bytes[4] = self.domain;
        bytes[5] = self.sdo as u8;
        bytes[6..8].copy_from_slice(&self.flags.to_be_bytes());
        bytes[8..16].copy_from_slice(&self.correction.to_be_bytes());
        bytes[16..20].copy_from_slice(&self.reserved);
        bytes[20..30].copy_from_slice(&self.source);
        bytes[30..32].copy_from_slice(&self.id.to_be_bytes());
        bytes[32] = self.control;
        bytes[33] = self.interval;
        bytes
    }
}
