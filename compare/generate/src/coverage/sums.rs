//! What row 7 of 01 speaks of: every sum, difference and sent field that an event has
//! worked out, with its place in its range. Working stops at the first that leaves it.
//!
//! Ends that no log reaches, and why. A timestamp is below 2^110 units and a correction
//! within 2^79 of 0, while host times go to 2^127 - 1.
//! - Timestamp plus or less correction (FollowUp, DelayResp, peer follow-up): not near
//!   the upper end.
//! - A difference of two times lies strictly between -2^127 and 2^127, so the inner
//!   differences of sync, delay and peer never leave; they reach the upper end where the
//!   first is a host time (`SyncDifference`, `DelayDifference`, `PeerOwn`), never the
//!   lower; `PeerTheirs` has no host time and reaches neither.
//! - `PeerBoth` after a one-step response is a difference of two times less zero.
//! - Seconds sent have no lower end. Sent corrections have f subtracted, so they reach
//!   the upper end only with f = 0 and never pass it. Where f alone is sent, it fits.
//! - Halves, timers, ids and nanoseconds sent always fit.

use super::decode::Seen;
use plain::{Event, Port};

#[derive(Clone, Copy, Debug, PartialEq, Eq)]
pub enum Quantity {
    SyncReceive,
    FollowUpSend,
    DelayReceive,
    PeerReceive,
    PeerSend,
    SyncDifference,
    SyncRaw,
    Offset,
    DelayDifference,
    DelayRaw,
    DelayBoth,
    PeerOwn,
    PeerTheirs,
    PeerBoth,
    FollowUpSeconds,
    DelayRespSeconds,
    PeerRespSeconds,
    PeerFollowUpSeconds,
    DelayRespCorrection,
    PeerRespCorrection,
}

use Quantity::*;

#[derive(Clone, Copy, Debug, PartialEq, Eq)]
pub enum Fate {
    Below,
    Lowest,
    Inside,
    Highest,
    Above,
}

use Fate::*;

/// The ends that can be reached, for the rows of the report.
pub const REACHED: [(Quantity, &[Fate]); 20] = [
    (SyncReceive, &[Below, Lowest, Highest, Above]),
    (FollowUpSend, &[Below, Lowest]),
    (DelayReceive, &[Below, Lowest]),
    (PeerReceive, &[Below, Lowest, Highest, Above]),
    (PeerSend, &[Below, Lowest]),
    (SyncDifference, &[Highest]),
    (SyncRaw, &[Below, Lowest, Highest, Above]),
    (Offset, &[Below, Lowest, Highest, Above]),
    (DelayDifference, &[Highest]),
    (DelayRaw, &[Below, Lowest, Highest, Above]),
    (DelayBoth, &[Below, Lowest, Highest, Above]),
    (PeerOwn, &[Highest]),
    (PeerTheirs, &[Inside]),
    (PeerBoth, &[Below, Lowest, Highest, Above]),
    (FollowUpSeconds, &[Highest, Above]),
    (DelayRespSeconds, &[Highest, Above]),
    (PeerRespSeconds, &[Highest, Above]),
    (PeerFollowUpSeconds, &[Highest, Above]),
    (DelayRespCorrection, &[Below, Lowest, Highest]),
    (PeerRespCorrection, &[Below, Lowest, Highest]),
];

#[derive(Clone, Debug, Default)]
pub struct Sums {
    pub lines: Vec<(Quantity, Fate, i128)>,
}

impl Sums {
    /// Works out what the rules do with an event that rows 2 to 6 and 8 let through.
    pub fn of(before: &Port, event: &Event, seen: Option<&Seen>) -> Sums {
        let mut sums = Sums::default();
        let _ = sums.event(before, event, seen);
        sums
    }

    pub fn leaves(&self) -> bool {
        matches!(self.lines.last(), Some((_, Below | Above, _)))
    }

    pub fn fate(&self, quantity: Quantity) -> Option<Fate> {
        self.line(quantity).map(|line| line.1)
    }

    pub fn value(&self, quantity: Quantity) -> Option<i128> {
        self.line(quantity).map(|line| line.2)
    }

    fn line(&self, quantity: Quantity) -> Option<&(Quantity, Fate, i128)> {
        self.lines.iter().find(|line| line.0 == quantity)
    }

    /// Notes a value that needs no more than 128 bits, or the side it fell off.
    fn note(
        &mut self,
        quantity: Quantity,
        value: Result<i128, Fate>,
        low: i128,
        high: i128,
    ) -> Option<i128> {
        let fate = match value {
            Err(fate) => fate,
            Ok(value) if value < low => Below,
            Ok(value) if value > high => Above,
            Ok(value) if value == low => Lowest,
            Ok(value) if value == high => Highest,
            Ok(_) => Inside,
        };
        self.lines.push((quantity, fate, value.unwrap_or(0)));
        value.ok().filter(|_| !matches!(fate, Below | Above))
    }

    pub(super) fn time(&mut self, quantity: Quantity, time: i128, less: i128) -> Option<i128> {
        let value = time
            .checked_sub(less)
            .ok_or(if less > 0 { Below } else { Above });
        self.note(quantity, value, 0, i128::MAX)
    }

    pub(super) fn minus(&mut self, quantity: Quantity, from: i128, less: i128) -> Option<i128> {
        let value = from
            .checked_sub(less)
            .ok_or(if less > 0 { Below } else { Above });
        self.note(quantity, value, i128::MIN, i128::MAX)
    }

    pub(super) fn seconds(&mut self, quantity: Quantity, time: u128) -> Option<i128> {
        let seconds = (time >> 32) / 1_000_000_000;
        self.note(quantity, Ok(seconds as i128), -1, (1 << 48) - 1)
    }

    pub(super) fn correction(
        &mut self,
        quantity: Quantity,
        correction: i64,
        time: u128,
    ) -> Option<i128> {
        let fraction = (time % (1 << 32)) >> 16;
        let value = correction as i128 - fraction as i128;
        self.note(quantity, Ok(value), i64::MIN.into(), i64::MAX.into())
    }
}
