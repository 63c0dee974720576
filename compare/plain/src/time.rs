//! Times, durations and timers (01, "Units").
//!
//! A time fills the non-negative half of an `i128` exactly, and a duration all of it, so
//! checked `i128` sums see every step out of either range. An event or a record may
//! hold a `u128` that is no time; such a number never comes as far as a sum (rows 2
//! and 3), and if it did it would be refused here too.

use crate::reply::Refusal;

const NANOS_PER_SECOND: u64 = 1_000_000_000;

/// Units of one nanosecond, as a power of two.
const NANO_BITS: u32 = 32;

/// A draw is below this.
const DRAWS: u64 = 1 << 52;

pub fn is_time(time: u128) -> bool {
    time >> 127 == 0
}

pub fn is_draw(draw: u64) -> bool {
    draw < DRAWS
}

fn signed(time: u128) -> Result<i128, Refusal> {
    i128::try_from(time).map_err(|_| Refusal::Range)
}

fn time(sum: Option<i128>) -> Result<u128, Refusal> {
    sum.and_then(|sum| u128::try_from(sum).ok())
        .ok_or(Refusal::Range)
}

/// A correction field as a duration: 2^-16 ns to 2^-32 ns, which an `i128` always holds.
fn correction(field: i64) -> i128 {
    i128::from(field) << 16
}

/// `start` less a correction field.
pub fn less_correction(start: u128, field: i64) -> Result<u128, Refusal> {
    time(signed(start)?.checked_sub(correction(field)))
}

/// `start` plus a correction field.
pub fn plus_correction(start: u128, field: i64) -> Result<u128, Refusal> {
    time(signed(start)?.checked_add(correction(field)))
}

/// The duration from `start` to `end`.
pub fn span(start: u128, end: u128) -> Result<i128, Refusal> {
    less(signed(end)?, signed(start)?)
}

/// The difference of two durations.
pub fn less(from: i128, what: i128) -> Result<i128, Refusal> {
    from.checked_sub(what).ok_or(Refusal::Range)
}

/// Half a duration. `/` drops the odd unit towards zero; a shift would floor it.
pub fn half(duration: i128) -> i128 {
    duration / 2
}

/// The time that the ten bytes of a wire timestamp mean. At most about 2^110, so every
/// timestamp is a time, even one with a second or more of nanoseconds.
pub fn from_wire(bytes: [u8; 10]) -> u128 {
    let [a, b, c, d, e, f, n @ ..] = bytes;
    let seconds = u64::from_be_bytes([0, 0, a, b, c, d, e, f]);
    let nanos = u128::from(seconds) * u128::from(NANOS_PER_SECOND);
    (nanos + u128::from(u32::from_be_bytes(n))) << NANO_BITS
}

/// The whole nanoseconds of a time as a wire timestamp, if its seconds fit 48 bits.
pub fn to_wire(time: u128) -> Result<[u8; 10], Refusal> {
    let nanos = time >> NANO_BITS;
    let (seconds, rest) = match u64::try_from(nanos) {
        // Every clock of the next centuries, and far cheaper than a 128-bit division.
        Ok(nanos) => (nanos / NANOS_PER_SECOND, nanos % NANOS_PER_SECOND),
        Err(_) => divided(nanos)?,
    };
    if seconds >> 48 != 0 {
        return Err(Refusal::Range);
    }
    let mut bytes = [0; 10];
    bytes[..6].copy_from_slice(&seconds.to_be_bytes()[2..]);
    bytes[6..].copy_from_slice(&rest.to_be_bytes()[4..]);
    Ok(bytes)
}

fn divided(nanos: u128) -> Result<(u64, u64), Refusal> {
    let second = u128::from(NANOS_PER_SECOND);
    let seconds = u64::try_from(nanos / second).map_err(|_| Refusal::Range)?;
    let rest = u64::try_from(nanos % second).map_err(|_| Refusal::Range)?;
    Ok((seconds, rest))
}

/// What a timestamp drops of a time, in units of the correction field: the fraction of
/// a nanosecond, cut to its upper 16 bits.
pub fn fraction(time: u128) -> i64 {
    ((time >> 16) & 0xFFFF) as i64
}

/// 2^n seconds in nanoseconds, exact because 10^9 has nine factors of two.
pub fn sync_timer(interval: i8) -> u64 {
    debug_assert!((-9..=16).contains(&interval));
    if interval >= 0 {
        NANOS_PER_SECOND << interval
    } else {
        NANOS_PER_SECOND >> interval.unsigned_abs()
    }
}

/// (2k+1) × 10^9 × 2^(n-52) ns, rounded to nearest.
///
/// The shift is 36 to 61 bits and the product has exactly nine factors of two, so the
/// bits shifted out are never exactly a half (reading 19): adding a half and cutting
/// rounds to nearest without a tie rule.
pub fn delay_timer(interval: i8, draw: u64) -> u64 {
    debug_assert!((-9..=16).contains(&interval) && is_draw(draw));
    let shift = (52 - i32::from(interval)) as u32;
    let product = u128::from(2 * draw + 1) * u128::from(NANOS_PER_SECOND);
    ((product + (1 << (shift - 1))) >> shift) as u64
}

#[cfg(test)]
mod tests {
    use super::*;

    const LAST: u128 = (1 << 127) - 1;

    /// Example H, and the ends of the range.
    #[test]
    fn halves_towards_zero() {
        assert_eq!((half(-3), half(3)), (-1, 1));
        assert_eq!((half(-1), half(1), half(0)), (0, 0, 0));
        assert_eq!(half(i128::MIN), -(1 << 126));
        assert_eq!(half(i128::MAX), (1 << 126) - 1);
    }

    /// Example J, the two ends of the draws, and a sum done the long way round.
    #[test]
    fn timers() {
        assert_eq!(delay_timer(0, (1 << 51) - 1), 1_000_000_000);
        assert_eq!(delay_timer(-9, 0), 0);
        assert_eq!(delay_timer(16, DRAWS - 1), 131_072_000_000_000);
        assert_eq!(sync_timer(0), 1_000_000_000);
        assert_eq!(sync_timer(-9), 1_953_125);
        assert_eq!(sync_timer(16), 65_536_000_000_000);
    }

    /// Rounding, against quotient and remainder; and reading 19: no remainder is a half.
    #[test]
    fn delay_timer_is_the_nearest() {
        let mut draw = 1;
        for step in 0..2000u64 {
            draw = (draw * 5 + step * 77_777) % DRAWS;
            for interval in -9..=16 {
                let divisor = 1u128 << (52 - i32::from(interval));
                let product = u128::from(2 * draw + 1) * 1_000_000_000;
                let (whole, rest) = (product / divisor, product % divisor);
                assert_ne!(rest * 2, divisor);
                let nearest = whole + u128::from(rest * 2 > divisor);
                assert_eq!(u128::from(delay_timer(interval, draw)), nearest);
            }
        }
    }

    #[test]
    fn corrected_times_stay_times() {
        assert_eq!(less_correction(65_536, 1), Ok(0));
        assert_eq!(less_correction(65_535, 1), Err(Refusal::Range));
        assert_eq!(plus_correction(65_535, -1), Err(Refusal::Range));
        assert_eq!(less_correction(LAST - 65_536, -1), Ok(LAST));
        assert_eq!(less_correction(LAST - 65_535, -1), Err(Refusal::Range));
        assert_eq!(plus_correction(LAST, 1), Err(Refusal::Range));
        assert_eq!(plus_correction(0, i64::MAX), Ok((i64::MAX as u128) << 16));
        assert_eq!(less_correction(0, i64::MIN), Ok(1 << 79));
        assert_eq!(plus_correction(LAST + 1, 0), Err(Refusal::Range));
    }

    #[test]
    fn durations_stay_durations() {
        assert_eq!(span(0, LAST), Ok(i128::MAX));
        assert_eq!(span(LAST, 0), Ok(i128::MIN + 1));
        assert_eq!(less(i128::MIN + 1, 1), Ok(i128::MIN));
        assert_eq!(less(i128::MIN, 1), Err(Refusal::Range));
        assert_eq!(less(-1, i128::MIN), Ok(i128::MAX));
        assert_eq!(less(0, i128::MIN), Err(Refusal::Range));
    }

    #[test]
    fn wire_timestamps() {
        // More than a second of nanoseconds counts as it stands.
        let mut bytes = [0, 0, 0, 0, 0, 2, 0xFF, 0xFF, 0xFF, 0xFF];
        assert_eq!(from_wire(bytes), (2_000_000_000 + 0xFFFF_FFFF) << 32);
        bytes = [0xFF; 10];
        assert!(is_time(from_wire(bytes)));
        let last = (((1u128 << 48) * 1_000_000_000) << 32) - 1;
        let written = [255, 255, 255, 255, 255, 255, 0x3B, 0x9A, 0xC9, 0xFF];
        assert_eq!(to_wire(last), Ok(written));
        assert_eq!(to_wire(last + 1), Err(Refusal::Range));
        assert_eq!(to_wire(LAST), Err(Refusal::Range));
        // Either side of the change from the short to the long division.
        for nanos in [u128::from(u64::MAX), 1 << 64, (1 << 64) + 1] {
            assert_eq!(from_wire(to_wire(nanos << 32).unwrap()), nanos << 32);
        }
        assert_eq!(fraction((5 << 32) | 0xABCD_EFFF), 0xABCD);
    }
}
