//! A small repeatable random generator for tests, splitmix64, and the bytes
//! that tests of edits, the heads that tests of forecasts, and the lengths that
//! tests of joins choose with it.

use crate::journal::{Head, CHANGE, DROP_FRONT, PREPEND};

/// The binary digits of a part's block count: so few that its bytes can be had.
pub const FEW: u64 = 3;

/// So many that a thousand parts are just not too long together.
pub const MANY: u64 = 47;

/// The generator's whole memory is one 64-bit number.
pub struct Random(u64);

impl Random {
    pub fn new(seed: u64) -> Random {
        Random(seed)
    }

    /// A generator for one test. The environment variable REFERENCE_SEED, a
    /// decimal number, replaces the usual seed; the seed in use is printed.
    pub fn for_test(usual: u64) -> Random {
        let given = std::env::var("REFERENCE_SEED").ok();
        let seed = given.map_or(usual, |text| {
            text.parse().expect("REFERENCE_SEED is not a number")
        });
        println!("seed {seed}");
        Random(seed)
    }

    /// The next random number of 64 bits.
    pub fn number(&mut self) -> u64 {
        self.0 = self.0.wrapping_add(0x9e37_79b9_7f4a_7c15);
        let mut z = self.0;
        z = (z ^ (z >> 30)).wrapping_mul(0xbf58_476d_1ce4_e5b9);
        z = (z ^ (z >> 27)).wrapping_mul(0x94d0_49bb_1331_11eb);
        z ^ (z >> 31)
    }

    /// A number from 0 to limit - 1.
    pub fn below(&mut self, limit: u64) -> u64 {
        self.number() % limit
    }

    /// True once in `times` calls, on average.
    pub fn once_in(&mut self, times: u64) -> bool {
        self.below(times) == 0
    }

    pub fn bytes(&mut self, count: usize) -> Vec<u8> {
        (0..count).map(|_| self.number() as u8).collect()
    }

    pub fn block(&mut self) -> [u8; 16] {
        std::array::from_fn(|_| self.number() as u8)
    }

    /// Up to `limit` - 1 bytes, and often only a few.
    pub fn some_bytes(&mut self, limit: u64) -> Vec<u8> {
        let limit = if self.once_in(2) { 4 } else { limit };
        let count = self.below(limit) as usize;
        self.bytes(count)
    }

    /// A fill byte: often FF or 0, otherwise any.
    pub fn some_fill(&mut self) -> u8 {
        match self.below(4) {
            0 => 0,
            1 => 0xff,
            _ => self.number() as u8,
        }
    }

    /// A file's length, of any width up to 61 bits.
    pub fn some_length(&mut self) -> u64 {
        self.number() >> (3 + self.below(61))
    }

    /// Up to four blocks of bytes; once in ten some other count of bytes.
    pub fn some_blocks(&mut self) -> Vec<u8> {
        let mut count = 16 * self.below(5);
        if self.once_in(10) {
            count += self.below(16);
        }
        self.bytes(count as usize)
    }

    /// Heads of up to so many records that a file of n bytes accepts, with lengths
    /// of any width up to so many bits.
    pub fn some_heads(&mut self, mut n: u64, most: u64, width: u64) -> Vec<Head> {
        let mut heads = Vec::new();
        for _ in 0..most {
            let kind = 1 + self.below(5);
            let mut l = self.number() >> (64 - width + self.below(width));
            if [PREPEND, DROP_FRONT].contains(&kind) {
                l = l / 16 * 16;
            }
            let p = if kind == CHANGE { self.below(n + 1) } else { 0 };
            let head = Head { kind, p, l };
            if head.edit_refusal(n).is_ok() {
                n = head.length_after(n);
                heads.push(head);
            }
        }
        heads
    }

    /// The lengths of so many parts, each of less than 2^width blocks and often
    /// of few or none. All are whole blocks, but for the last one, every other
    /// time.
    pub fn some_parts(&mut self, count: usize, width: u64) -> Vec<u64> {
        let blocks = |_| match self.below(3) {
            0 => 0,
            1 => self.below(5),
            _ => {
                let limit = 2 << self.below(width);
                self.below(limit)
            }
        };
        let mut lengths: Vec<u64> = (0..count).map(blocks).map(|m| 16 * m).collect();
        if let (Some(last), true) = (lengths.last_mut(), self.once_in(2)) {
            *last += self.below(16);
        }
        lengths
    }
}

/// The file's first bytes, as many as `given` has room for.
pub fn copy_front(file: &[u8], given: &mut [u8]) {
    for (to, from) in given.iter_mut().zip(file) {
        *to = *from;
    }
}

/// The file's last bytes, as many as `given` has room for.
pub fn copy_tail(file: &[u8], given: &mut [u8]) {
    for (to, from) in given.iter_mut().rev().zip(file.iter().rev()) {
        *to = *from;
    }
}

#[cfg(test)]
mod tests {
    use super::*;

    /// The first outputs of splitmix64 for the seed 1234567, as published.
    #[test]
    fn published_outputs() {
        let mut random = Random::new(1234567);
        assert_eq!(random.number(), 6457827717110365317);
        assert_eq!(random.number(), 3203168211198807973);
        assert_eq!(random.number(), 9817491932198370423);
    }
}
