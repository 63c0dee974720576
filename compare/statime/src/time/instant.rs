//! Stand-in written for these comparisons: statime's own file was not supplied.
//! Units of 2^-32 ns in a `u128`, below 2^127. What leaves that panics: such a run is
//! outside the domain.

use core::num::Wrapping;
use core::ops::{Add, Sub};

use super::Duration;
use crate::datastructures::common::{TimeInterval, WireTimestamp};

const NS_PER_SECOND: u128 = 1_000_000_000;

#[derive(Debug, Default, Clone, Copy, PartialEq, Eq)]
pub struct Time(u128);

impl Time {
    pub const fn from_units(units: u128) -> Self {
        Time(units)
    }

    pub const fn units(self) -> u128 {
        self.0
    }

    /// The part below a nanosecond, cut to the wire's 2^-16 ns.
    pub(crate) fn subnano(self) -> TimeInterval {
        TimeInterval(Wrapping(i64::from(self.0 as u32 >> 16)))
    }

    fn moved(self, by: Option<i128>) -> Time {
        let units = by.and_then(|by| (self.0 as i128).checked_add(by));
        Time(
            units
                .and_then(|u| u.try_into().ok())
                .expect("outside the domain: time"),
        )
    }
}

impl Add<Duration> for Time {
    type Output = Time;

    fn add(self, by: Duration) -> Time {
        self.moved(Some(by.units()))
    }
}

impl Sub<Duration> for Time {
    type Output = Time;

    fn sub(self, by: Duration) -> Time {
        self.moved(by.units().checked_neg())
    }
}

impl Sub for Time {
    type Output = Duration;

    fn sub(self, other: Time) -> Duration {
        Duration::from_units(self.0 as i128 - other.0 as i128)
    }
}

impl From<WireTimestamp> for Time {
    fn from(wire: WireTimestamp) -> Time {
        Time((u128::from(wire.seconds) * NS_PER_SECOND + u128::from(wire.nanos)) << 32)
    }
}

impl From<Time> for WireTimestamp {
    fn from(time: Time) -> WireTimestamp {
        let ns = time.0 >> 32;
        let seconds = ns / NS_PER_SECOND;
        assert!(seconds < 1 << 48, "outside the domain: seconds");
        WireTimestamp {
            seconds: seconds as u64,
            nanos: (ns % NS_PER_SECOND) as u32,
        }
    }
}
