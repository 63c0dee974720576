//! Stand-in written for these comparisons: statime's own file was not supplied.
//! Identities, wire times and corrections; the TLVs stand apart.

use core::num::Wrapping;

mod body;
mod tlv;

pub(crate) use body::{body, left_out};
pub use tlv::{Tlv, TlvSet, TlvSetBuilder, TlvSetIterator, TlvType};

use super::WireFormatError;
use crate::time::Duration;

#[derive(Debug, Default, Clone, Copy, PartialEq, Eq)]
pub struct ClockIdentity(pub [u8; 8]);

#[derive(Debug, Default, Clone, Copy, PartialEq, Eq)]
pub struct PortIdentity {
    pub clock_identity: ClockIdentity,
    pub port_number: u16,
}

impl PortIdentity {
    pub fn from_bytes(bytes: [u8; 10]) -> Self {
        let (clock, port) = bytes.split_at(8);
        PortIdentity {
            clock_identity: ClockIdentity(clock.try_into().unwrap()),
            port_number: u16::from_be_bytes(port.try_into().unwrap()),
        }
    }

    pub fn to_bytes(self) -> [u8; 10] {
        let mut bytes = [0; 10];
        bytes[..8].copy_from_slice(&self.clock_identity.0);
        bytes[8..].copy_from_slice(&self.port_number.to_be_bytes());
        bytes
    }
}

/// A correction in 2^-16 ns. A sum that leaves 64 bits wraps.
#[derive(Debug, Default, Clone, Copy, PartialEq, Eq)]
pub struct TimeInterval(pub Wrapping<i64>);

impl From<Duration> for TimeInterval {
    fn from(duration: Duration) -> Self {
        TimeInterval(Wrapping((duration.units() >> 16) as i64))
    }
}

#[derive(Debug, Default, Clone, Copy, PartialEq, Eq)]
pub struct WireTimestamp {
    pub seconds: u64,
    pub nanos: u32,
}

impl WireTimestamp {
    pub(crate) fn from_bytes(bytes: &[u8]) -> Result<Self, WireFormatError> {
        let bytes = bytes.get(..10).ok_or(WireFormatError::BufferTooShort)?;
        let mut seconds = [0; 8];
        seconds[2..].copy_from_slice(&bytes[..6]);
        Ok(WireTimestamp {
            seconds: u64::from_be_bytes(seconds),
            nanos: u32::from_be_bytes(bytes[6..].try_into().unwrap()),
        })
    }

    pub(crate) fn write(self, bytes: &mut [u8]) {
        bytes[..6].copy_from_slice(&self.seconds.to_be_bytes()[2..]);
        bytes[6..10].copy_from_slice(&self.nanos.to_be_bytes());
    }
}

#[derive(Debug, Default, Clone, Copy, PartialEq, Eq)]
pub enum LeapIndicator {
    #[default]
    NoLeap,
    Leap59,
    Leap61,
}

#[derive(Debug, Default, Clone, Copy, PartialEq, Eq)]
pub struct ClockAccuracy;

#[derive(Debug, Default, Clone, Copy, PartialEq, Eq)]
pub struct ClockQuality;

#[derive(Debug, Default, Clone, Copy, PartialEq, Eq)]
pub struct TimeSource;
