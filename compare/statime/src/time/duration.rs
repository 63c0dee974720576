//! Stand-in written for these comparisons: statime's own file was not supplied.
//! Units of 2^-32 ns in an `i128`. What leaves it panics: such a run is outside the domain.

use core::ops::{Div, Sub};

use crate::datastructures::common::TimeInterval;

#[derive(Debug, Default, Clone, Copy, PartialEq, Eq)]
pub struct Duration(i128);

impl Duration {
    pub const fn from_units(units: i128) -> Self {
        Duration(units)
    }

    pub const fn units(self) -> i128 {
        self.0
    }
}

impl From<TimeInterval> for Duration {
    fn from(interval: TimeInterval) -> Self {
        Duration(i128::from(interval.0 .0) << 16)
    }
}

impl Sub for Duration {
    type Output = Duration;

    fn sub(self, other: Duration) -> Duration {
        Duration(
            self.0
                .checked_sub(other.0)
                .expect("outside the domain: duration"),
        )
    }
}

impl Div<i32> for Duration {
    type Output = Duration;

    fn div(self, by: i32) -> Duration {
        Duration(self.0 / i128::from(by))
    }
}

/// Only ever by two; how statime rounds here is in a file that was not supplied.
impl Div<f64> for Duration {
    type Output = Duration;

    fn div(self, by: f64) -> Duration {
        assert_eq!(by, 2.0);
        Duration(self.0 / 2)
    }
}
