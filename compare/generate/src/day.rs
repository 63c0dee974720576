//! A Slave's day: one long log of two-step exchanges as a network gives them, for
//! measuring speed. It is written piece by piece, so that memory does not limit it.

use crate::build::{duration, units, Log, Message};
use crate::random::Random;
use crate::stage::{config_of, MASTER, OWN};
use plain::{Config, Context, Event, Mechanism, NewState};
use std::io::{self, Write};

/// A delay is measured once in so many Sync exchanges, and the filter answers once in so
/// many.
const DELAY_EVERY: u64 = 8;
const FILTER_EVERY: u64 = 64;

/// Sixteen Syncs a second.
const INTERVAL_NS: u64 = 62_500_000;

/// A second of late 2025, where the master's clock begins.
const BEGIN_NS: u64 = 1_763_000_000_000_000_000;

/// What a cable and its two ends take, in either direction, and by how much that wavers.
const PATH_NS: i64 = 800;
const JITTER_NS: i64 = 60;

/// How long a transparent clock on the way keeps a message at most, in the 2^-16 ns of
/// the correction that says so.
const RESIDENCE: u64 = 40_000 << 16;

struct Day {
    config: Config,
    random: Random,
    log: Log,
    /// The master's clock, in nanoseconds.
    now: u64,
    /// How far our clock is ahead of the master's, in nanoseconds. No filter brings it
    /// back here, so it is drawn towards 0.
    ahead: i64,
    delay_id: u16,
}

impl Day {
    fn new(seed: u64) -> Day {
        let config = Config {
            sync_interval: -4,
            delay_interval: -1,
            asymmetry: duration(12),
            ..config_of(Mechanism::EndToEnd)
        };
        Day {
            config,
            random: Random::stream(seed, "day", 0),
            log: Log::new(&config),
            now: BEGIN_NS,
            ahead: 0,
            delay_id: 0,
        }
    }

    /// A time of our clock, `ns` after what the master's says now, with a fraction of a
    /// nanosecond as some hardware gives it.
    fn ours(&mut self, ns: i64) -> u128 {
        let whole = self.now.saturating_add_signed(self.ahead + ns);
        units(u128::from(whole)) + u128::from(self.random.below(1 << 32))
    }

    /// What a message takes on its way, in nanoseconds, and the correction that tells of a
    /// part of it. Half of them meet no transparent clock.
    fn way(&mut self) -> (i64, i64) {
        let path = PATH_NS + self.random.between(-JITTER_NS, JITTER_NS);
        let correction = match self.random.chance(50) {
            true => self.random.below(RESIDENCE) as i64,
            false => 0,
        };
        (path + (correction >> 16), correction)
    }

    /// The events of one Sync exchange.
    fn sync(&mut self, id: u16) {
        let (takes, correction) = self.way();
        let sync = Message::sync(&self.config, MASTER, id)
            .two_step()
            .with_correction(correction);
        let (time, message) = (self.ours(takes), &sync.to_bytes());
        self.log.push(&Event::Event { time, message });
        // The master's own stamp has a fraction too.
        let fraction = self.random.below(1 << 16) as i64;
        let follow_up = Message::follow_up(&self.config, MASTER, id)
            .with_ns(self.now)
            .with_correction(fraction);
        let message = &follow_up.to_bytes();
        self.log.push(&Event::General { message });
    }

    /// Those of one delay exchange, ten milliseconds later.
    fn delay(&mut self) {
        let (id, later) = (self.delay_id, 10_000_000);
        self.delay_id = id.wrapping_add(1);
        let draw = self.random.below(1 << 52);
        self.log.push(&Event::DelayTimer { draw });
        let (takes, correction) = self.way();
        let time = self.ours(later);
        let context = Context::DelayReq(id);
        self.log.push(&Event::Stamp { time, context });
        let response = Message::delay_resp(&self.config, MASTER, id, OWN)
            .with_ns(self.now.saturating_add_signed(later + takes))
            .with_correction(correction);
        let message = &response.to_bytes();
        self.log.push(&Event::General { message });
    }

    fn filter(&mut self) {
        let jitter = self.random.between(-JITTER_NS, JITTER_NS);
        self.log.push(&Event::Filter {
            mean: Some(duration(i128::from(PATH_NS + jitter))),
            next: Some(1_000_000_000),
        });
    }

    /// Until the next Sync.
    fn pass(&mut self) {
        self.now += INTERVAL_NS + self.random.below(2_000);
        self.ahead += self.random.between(-20, 20) - self.ahead / 50;
    }

    /// Hands what there is to the sink.
    fn give(&mut self, sink: &mut impl Write) -> io::Result<()> {
        sink.write_all(&self.log.bytes)?;
        self.log.bytes.clear();
        Ok(())
    }
}

/// Writes a log of so many Sync exchanges. Every eighth is followed by a delay exchange,
/// every 64th by an answer of the filter.
pub fn write(seed: u64, exchanges: u64, sink: &mut impl Write) -> io::Result<()> {
    let mut day = Day::new(seed);
    day.log.push(&Event::SetState(NewState::Slave(MASTER)));
    for number in 0..exchanges {
        day.sync(number as u16);
        if (number + 1).is_multiple_of(DELAY_EVERY) {
            day.delay();
        }
        if (number + 1).is_multiple_of(FILTER_EVERY) {
            day.filter();
        }
        day.pass();
        day.give(sink)?;
    }
    day.give(sink)
}

#[cfg(test)]
mod tests {
    use super::*;
    use plain::run::{run, Style};

    fn replayed(exchanges: u64) -> String {
        let (mut log, mut lines) = (Vec::new(), Vec::new());
        write(1, exchanges, &mut log).unwrap();
        run(log.as_slice(), &mut lines, Style::Replay).unwrap();
        String::from_utf8(lines).unwrap()
    }

    /// One S an exchange, one D a delay exchange, nothing refused, and no offset a large
    /// one. In the longest the ids go round.
    #[test]
    fn each_exchange_is_measured() {
        for exchanges in [0, 1, 7, 8, 1_000, 66_000] {
            let text = replayed(exchanges);
            let fields: Vec<Vec<&str>> = text.lines().map(|l| l.split(' ').collect()).collect();
            let count = |kind| fields.iter().filter(|line| line[2] == kind).count() as u64;
            let (delays, filters) = (exchanges / DELAY_EVERY, exchanges / FILTER_EVERY);
            assert_eq!(count("S"), exchanges);
            assert_eq!(count("D"), delays);
            assert_eq!(
                fields.len() as u64,
                1 + 2 * exchanges + 3 * delays + filters
            );
            assert!(fields.iter().all(|line| line[1] == "0"), "a refusal");
            let values = fields.iter().filter(|line| line[3] != "-");
            let ns = values.map(|line| u128::from_str_radix(line[3], 16).unwrap() as i128 >> 32);
            assert!(ns.into_iter().all(|ns| ns.abs() < 3_000), "a wild offset");
        }
    }

    #[test]
    fn a_day_is_the_same_each_time() {
        assert_eq!(replayed(100), replayed(100));
    }
}
