//! A buffer of text on its way out, with the few ways of writing numbers that the lines
//! need. Nothing here allocates or goes through the formatting machinery.

use std::io::{self, Write};

/// Bytes of the buffer.
const BUFFER: usize = 64 * 1024;

/// More than any line has: a trace line stays below 350, an end line below 450.
const LONGEST_LINE: usize = 512;

/// A buffer of whole lines on their way to a sink. A line asks for room once and then
/// writes its parts without a thought of the sink.
pub struct Lines<W> {
    sink: W,
    bytes: Box<[u8]>,
    used: usize,
}

impl<W: Write> Lines<W> {
    pub fn new(sink: W) -> Lines<W> {
        Lines {
            sink,
            bytes: vec![0; BUFFER].into_boxed_slice(),
            used: 0,
        }
    }

    /// Hands all lines on to the sink.
    pub fn flush(&mut self) -> io::Result<()> {
        let lines = &self.bytes[..self.used];
        self.used = 0;
        self.sink.write_all(lines)?;
        self.sink.flush()
    }

    /// Makes sure that a line fits, by handing on those before it.
    pub fn room(&mut self) -> io::Result<()> {
        if self.bytes.len() - self.used < LONGEST_LINE {
            self.flush()?;
        }
        Ok(())
    }

    pub fn byte(&mut self, byte: u8) {
        self.bytes[self.used] = byte;
        self.used += 1;
    }

    /// Text of a known length, so that it is a store or two and no call.
    pub fn text<const N: usize>(&mut self, text: &[u8; N]) {
        self.bytes[self.used..self.used + N].copy_from_slice(text);
        self.used += N;
    }

    /// 32 digits.
    pub fn number(&mut self, value: u128) {
        for shift in [96, 64, 32, 0] {
            self.text(&eight_digits((value >> shift) as u32));
        }
    }

    // Inlined, so that the loop over an identity has a known length.
    #[inline(always)]
    pub fn hex(&mut self, bytes: &[u8]) {
        let digits = &mut self.bytes[self.used..self.used + 2 * bytes.len()];
        for (pair, byte) in digits.chunks_exact_mut(2).zip(bytes) {
            pair[0] = digit(byte >> 4);
            pair[1] = digit(byte & 0x0F);
        }
        self.used += 2 * bytes.len();
    }

    /// Counts the digits first, so that they can be written where they belong.
    pub fn decimal(&mut self, mut value: u64) {
        let count = value.checked_ilog10().map_or(1, |log| log as usize + 1);
        let (odd, pairs) = self.bytes[self.used..self.used + count].as_rchunks_mut();
        for pair in pairs.iter_mut().rev() {
            *pair = PAIRS[(value % 100) as usize];
            value /= 100;
        }
        if let [digit] = odd {
            *digit = b'0' + value as u8;
        }
        self.used += count;
    }
}

/// The decimal digits of 0 to 99.
const PAIRS: [[u8; 2]; 100] = {
    let mut pairs = [[b'0'; 2]; 100];
    let mut value = 0u8;
    while value < 100 {
        pairs[value as usize] = [b'0' + value / 10, b'0' + value % 10];
        value += 1;
    }
    pairs
};

/// Eight digits at once, a nibble in each byte of one word: this is the one number that
/// a replay writes all the time.
fn eight_digits(value: u32) -> [u8; 8] {
    const ONES: u64 = 0x0101_0101_0101_0101;
    let mut nibbles = u64::from(value);
    nibbles = (nibbles << 16 | nibbles) & 0x0000_FFFF_0000_FFFF;
    nibbles = (nibbles << 8 | nibbles) & 0x00FF_00FF_00FF_00FF;
    nibbles = (nibbles << 4 | nibbles) & 0x0F0F_0F0F_0F0F_0F0F;
    // Adding 6 carries into bit 4 for 10 to 15 only: those become letters.
    let letters = ((nibbles + 6 * ONES) >> 4) & ONES;
    let ascii = nibbles + u64::from(b'0') * ONES + letters * u64::from(b'a' - b'0' - 10);
    ascii.to_be_bytes()
}

/// A lower-case digit. Without a branch or an overflow test the compiler turns loops
/// over it into vector code; the sum is at most `f`.
fn digit(nibble: u8) -> u8 {
    let letter = if nibble > 9 { b'a' - b'0' - 10 } else { 0 };
    nibble.wrapping_add(b'0').wrapping_add(letter)
}

#[cfg(test)]
mod tests {
    use super::*;

    fn written(write: impl Fn(&mut Lines<&mut Vec<u8>>)) -> String {
        let mut sink = Vec::new();
        let mut lines = Lines::new(&mut sink);
        write(&mut lines);
        lines.flush().unwrap();
        String::from_utf8(sink).unwrap()
    }

    /// Around every power of ten, where the count of digits changes.
    #[test]
    fn decimals() {
        let mut power = 1u64;
        for _ in 0..20 {
            for value in [power - 1, power, power + 1, power.wrapping_mul(7)] {
                assert_eq!(written(|lines| lines.decimal(value)), value.to_string());
            }
            power = power.saturating_mul(10).min(u64::MAX - 1);
        }
        assert_eq!(written(|l| l.decimal(u64::MAX)), u64::MAX.to_string());
    }

    /// Every byte in every place, by both ways of writing digits.
    #[test]
    fn hexadecimals() {
        for byte in 0..=255u8 {
            for place in 0..16 {
                let value = u128::from(byte) << (8 * place) | 0x90_000F_A000;
                let expected = format!("{value:032x}");
                assert_eq!(written(|lines| lines.number(value)), expected);
                assert_eq!(written(|l| l.hex(&value.to_be_bytes())), expected);
            }
        }
        assert_eq!(written(|lines| lines.hex(&[])), "");
        assert_eq!(written(|lines| lines.number(u128::MAX)), "f".repeat(32));
    }
}
