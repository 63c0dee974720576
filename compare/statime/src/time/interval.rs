//! Stand-in written for these comparisons: statime's own file was not supplied.
use super::Duration;

/// The base two logarithm of a number of seconds.
#[derive(Debug, Clone, Copy, PartialEq, Eq)]
pub struct Interval(i8);

impl Interval {
    pub const fn from_log_2(log: i8) -> Self {
        Interval(log)
    }

    pub const fn as_log_2(self) -> i8 {
        self.0
    }

    pub fn as_duration(self) -> Duration {
        Duration::from_units((self.as_core_duration().as_nanos() as i128) << 32)
    }

    pub fn as_core_duration(self) -> core::time::Duration {
        let second = 1_000_000_000u64;
        core::time::Duration::from_nanos(match self.0 {
            log @ 0.. => second << log,
            log => second >> -log,
        })
    }
}
