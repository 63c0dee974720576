//! Pseudo-random numbers that are the same on every machine: SplitMix64.
//!
//! Every log draws from a stream of its own, named by seed, purpose and number, so a
//! change to one kind of log leaves all others byte for byte as they were.

#[derive(Clone, Debug)]
pub struct Random {
    state: u64,
}

impl Random {
    pub fn new(seed: u64) -> Random {
        Random { state: seed }
    }

    /// The stream of one log.
    pub fn stream(seed: u64, purpose: &str, number: u64) -> Random {
        let mut random = Random::new(seed);
        for word in purpose.bytes().map(u64::from).chain([number]) {
            random.state = random.next() ^ word;
        }
        random.next();
        random
    }

    #[allow(clippy::should_implement_trait)] // an endless source is no iterator
    pub fn next(&mut self) -> u64 {
        self.state = self.state.wrapping_add(0x9E37_79B9_7F4A_7C15);
        let mut z = self.state;
        z = (z ^ (z >> 30)).wrapping_mul(0xBF58_476D_1CE4_E5B9);
        z = (z ^ (z >> 27)).wrapping_mul(0x94D0_49BB_1331_11EB);
        z ^ (z >> 31)
    }

    pub fn wide(&mut self) -> u128 {
        (self.next() as u128) << 64 | self.next() as u128
    }

    /// 0 to `count` - 1. The bias of at most `count` in 2^64 does no harm here.
    pub fn below(&mut self, count: u64) -> u64 {
        ((self.next() as u128 * count as u128) >> 64) as u64
    }

    /// Both ends included.
    pub fn between(&mut self, low: i64, high: i64) -> i64 {
        low + self.below((high - low + 1) as u64) as i64
    }

    /// True `percent` times in a hundred.
    pub fn chance(&mut self, percent: u64) -> bool {
        self.below(100) < percent
    }

    pub fn index(&mut self, length: usize) -> usize {
        self.below(length as u64) as usize
    }

    pub fn pick<T: Copy>(&mut self, from: &[T]) -> T {
        from[self.index(from.len())]
    }

    /// A place, each as often as its weight says.
    pub fn weighted(&mut self, weights: &[u64]) -> usize {
        let mut left = self.below(weights.iter().sum());
        for (place, weight) in weights.iter().enumerate() {
            match left.checked_sub(*weight) {
                Some(rest) => left = rest,
                None => return place,
            }
        }
        0
    }

    /// A number whose bit length is itself random, 0 to `most` bits: small and large
    /// ones are equally likely, which uniform numbers are not.
    pub fn of_bits(&mut self, most: u32) -> u128 {
        match self.below(most as u64 + 1) as u32 {
            0 => 0,
            bits => self.wide() >> (128 - bits) | 1 << (bits - 1),
        }
    }

    pub fn byte(&mut self) -> u8 {
        self.next() as u8
    }

    pub fn bytes(&mut self, count: usize) -> Vec<u8> {
        (0..count).map(|_| self.byte()).collect()
    }
}

#[cfg(test)]
mod tests {
    use super::*;

    /// The published first values of SplitMix64 for this seed.
    #[test]
    fn first_values() {
        let mut random = Random::new(1_234_567);
        let first: Vec<u64> = (0..5).map(|_| random.next()).collect();
        let known = [
            6_457_827_717_110_365_317,
            3_203_168_211_198_807_973,
            9_817_491_932_198_370_423,
            4_593_380_528_125_082_431,
            16_408_922_859_458_223_821,
        ];
        assert_eq!(first, known);
    }

    #[test]
    fn streams_differ() {
        let first = |purpose, number| Random::stream(7, purpose, number).next();
        assert_ne!(first("a", 0), first("a", 1));
        assert_ne!(first("a", 0), first("b", 0));
        assert_eq!(first("a", 0), first("a", 0));
    }

    #[test]
    fn weights() {
        let mut random = Random::new(3);
        let mut counts = [0; 3];
        (0..1000).for_each(|_| counts[random.weighted(&[1, 0, 3])] += 1);
        assert!(counts[1] == 0 && counts[2] > 2 * counts[0]);
    }

    #[test]
    fn bit_lengths_stay_in_bounds() {
        let mut random = Random::new(1);
        assert!((0..1000).all(|_| random.of_bits(127) < 1 << 127));
        assert!((0..1000).all(|_| random.of_bits(0) == 0));
        assert!((0..1000).all(|_| (-9..=16).contains(&random.between(-9, 16))));
    }
}
