//! Random values, with their ends and round numbers more often than chance gives.

use crate::random::Random;
use crate::stage::LATEST;
use plain::{Config, Identity, Mechanism};

/// What the times of a log look like.
#[derive(Clone, Copy, Debug, PartialEq, Eq)]
pub enum Temper {
    /// A running clock of our days.
    Calm,
    /// The first thousand units to nanoseconds.
    Early,
    /// Shortly before the largest time.
    Late,
    /// Every bit length.
    Wild,
}

const TEMPERS: [Temper; 5] = [
    Temper::Calm,
    Temper::Calm,
    Temper::Early,
    Temper::Late,
    Temper::Wild,
];

/// Supplies the times of one log.
#[derive(Clone, Debug)]
pub struct Clock {
    pub temper: Temper,
    now: u128,
}

impl Clock {
    pub fn new(random: &mut Random) -> Clock {
        let temper = random.pick(&TEMPERS);
        let now = match temper {
            Temper::Calm => (1_700_000_000_000_000_000 + random.of_bits(60)) << 32,
            Temper::Early | Temper::Wild => random.of_bits(40),
            Temper::Late => LATEST - random.of_bits(80),
        };
        Clock { temper, now }
    }

    /// The next time. Now and then it stands still or falls back, which 01 allows.
    pub fn time(&mut self, random: &mut Random) -> u128 {
        if random.chance(4) {
            return time(random);
        }
        let step = random.of_bits(if self.temper == Temper::Early { 36 } else { 64 });
        self.now = match random.below(10) {
            0 => self.now,
            1 => self.now.saturating_sub(step),
            _ => (self.now + step).min(LATEST),
        };
        match self.temper {
            Temper::Wild => time(random),
            _ => self.now,
        }
    }

    /// Seconds and nanoseconds of a timestamp near our own time, or anything.
    pub fn timestamp(&mut self, random: &mut Random) -> (u64, u32) {
        let ns = self.now >> 32;
        let seconds = ns / 1_000_000_000;
        if self.temper == Temper::Wild || seconds >> 48 != 0 || random.chance(10) {
            return timestamp(random);
        }
        let ns = ns.saturating_add_signed(random.between(-5000, 5000) as i128);
        ((ns / 1_000_000_000) as u64, (ns % 1_000_000_000) as u32)
    }
}

/// Any time within limits.
pub fn time(random: &mut Random) -> u128 {
    match random.below(8) {
        0 => random.pick(&[
            0,
            1,
            LATEST,
            LATEST - 1,
            1 << 126,
            1 << 64,
            u64::MAX as u128,
        ]),
        1 => LATEST - random.of_bits(96),
        2 => (random.of_bits(60) * 1_000_000_000) << 32,
        3 => random.of_bits(48),
        _ => random.of_bits(127),
    }
}

/// A time that is out of limits.
pub fn time_beyond(random: &mut Random) -> u128 {
    1 << 127 | random.pick(&[0, 1, LATEST]) | if random.chance(50) { time(random) } else { 0 }
}

pub fn timestamp(random: &mut Random) -> (u64, u32) {
    let most = (1 << 48) - 1;
    let seconds = match random.below(4) {
        0 => random.pick(&[0, 1, 1 << 32, u32::MAX as u64, most - 1, most]),
        _ => random.of_bits(48) as u64,
    };
    let nanoseconds = match random.below(3) {
        0 => random.pick(&[0, 1, 999_999_998, 999_999_999, 1_000_000_000, u32::MAX]),
        1 => random.below(1_000_000_000) as u32,
        _ => random.of_bits(32) as u32,
    };
    (seconds, nanoseconds)
}

/// A correction field.
pub fn correction(random: &mut Random) -> i64 {
    match random.below(10) {
        0..=3 => 0,
        4..=5 => random.between(-1 << 26, 1 << 26),
        6 => random.pick(&[1, -1, i64::MAX, i64::MIN, i64::MIN + 1, i64::MIN + 65_535]),
        _ => signed(random, 63) as i64,
    }
}

/// A duration of any bit length up to `most`, either sign.
fn signed(random: &mut Random, most: u32) -> i128 {
    let value = random.of_bits(most) as i128;
    if random.chance(50) {
        !value
    } else {
        value
    }
}

/// A duration such as an asymmetry or a mean delay; the ends in `wild` cases only.
pub fn duration(random: &mut Random, wild: bool) -> i128 {
    match random.below(if wild { 8 } else { 6 }) {
        0 => random.pick(&[0, 1, -1, -3, 3, 1 << 32]),
        1..=3 => signed(random, 48),
        4..=6 => signed(random, 127),
        _ => random.pick(&[i128::MAX, i128::MIN, i128::MAX - 1, i128::MIN + 1]),
    }
}

/// A draw within limits.
pub fn draw(random: &mut Random) -> u64 {
    let half = 1 << 51;
    match random.below(3) {
        0 => random.pick(&[0, 1, half - 1, half, 2 * half - 1]),
        1 => random.of_bits(52) as u64,
        _ => random.below(2 * half),
    }
}

/// A draw that is out of limits.
pub fn draw_beyond(random: &mut Random) -> u64 {
    match random.below(3) {
        0 => random.pick(&[1 << 52, u64::MAX, 1 << 63, (1 << 52) + 1]),
        _ => random.next() | 1 << 52,
    }
}

pub fn identity(random: &mut Random) -> Identity {
    match random.below(8) {
        0 => [0; 10],
        1 => [0xFF; 10],
        _ => random
            .bytes(10)
            .try_into()
            .expect("ten bytes were asked for"),
    }
}

/// A configuration within limits.
pub fn config(random: &mut Random) -> Config {
    let sdo = random.below(4096) as u16;
    let anything = random.byte();
    Config {
        identity: identity(random),
        sdo: random.pick(&[0, 0x100, 4095, sdo, sdo]),
        domain: random.pick(&[0, 255, anything]),
        minor: random.below(2) as u8,
        mechanism: random.pick(&[Mechanism::EndToEnd, Mechanism::Peer]),
        delay_interval: random.between(-9, 16) as i8,
        sync_interval: random.between(-9, 16) as i8,
        asymmetry: if random.chance(40) {
            0
        } else {
            let wild = random.chance(15);
            duration(random, wild)
        },
    }
}
