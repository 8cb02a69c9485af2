//! The plain machine of document 01, "The file and its five edits": it holds
//! the bytes themselves and the last used number, and works out from them
//! what the controller must answer. It takes nothing from a `State`.

use std::collections::BTreeSet;

use crate::field::Block;
use crate::ghash::{blocks_of, gmac, hash_key, sum};
use crate::refusal::{
    refuse, too_long, whole_sum, BAD_BUFFER, NOT_SIXTEEN, NOT_WHOLE, OUTSIDE, TOO_LONG, UNEQUAL,
    USED_UP,
};
use crate::slip::{nonce, Slip, Verdict, SLIP_BYTES};

/// The machine, with start's key and arm beside what it holds.
#[derive(Clone, Debug, PartialEq, Eq)]
pub struct Machine {
    pub key: [u8; 16],
    pub arm: u32,
    pub bytes: Vec<u8>,
    pub last: u64,
}

impl Machine {
    /// Holds n fill bytes, so n must fit in memory. Refusals: 1, 2.
    pub fn start(key: &[u8], arm: u32, last: u64, n: u64, fill: u8) -> Result<Machine, u64> {
        refuse(&[
            (key.len() != 16, NOT_SIXTEEN),
            (too_long(n.into()), TOO_LONG),
        ])?;
        Ok(Machine {
            key: key.try_into().expect("16 bytes"),
            arm,
            bytes: vec![fill; n as usize],
            last,
        })
    }

    /// Holds the lent file's bytes. Refusals: 1, 2.
    pub fn read(key: &[u8], arm: u32, last: u64, file: &[u8]) -> Result<Machine, u64> {
        refuse(&[
            (key.len() != 16, NOT_SIXTEEN),
            (too_long(file.len() as u128), TOO_LONG),
        ])?;
        Ok(Machine {
            key: key.try_into().expect("16 bytes"),
            arm,
            bytes: file.to_vec(),
            last,
        })
    }

    /// The count of bytes held.
    pub fn n(&self) -> u64 {
        self.bytes.len() as u64
    }

    /// The sum of the bytes held, which the controller's S must equal.
    pub fn sum(&self) -> Block {
        sum(&hash_key(&self.key), &blocks_of(&self.bytes))
    }

    /// The tag of the bytes held under a nonce: their GMAC.
    pub fn tag(&self, nonce: &[u8]) -> Block {
        gmac(&self.key, nonce, &self.bytes)
    }

    /// Bytes p to p + l - 1 become new. Refusals: 4, 3.
    pub fn change(&mut self, p: u64, old: &[u8], new: &[u8]) -> Result<u64, u64> {
        refuse(&[
            (old.len() != new.len(), UNEQUAL),
            (whole_sum(p, new.len() as u64) > self.n().into(), OUTSIDE),
        ])?;
        if new.is_empty() {
            return Ok(0);
        }
        let first = p as usize;
        let after = first + new.len();
        self.bytes[first..after].copy_from_slice(new);
        let blocks_behind = blocks(self.bytes.len()) - blocks(after);
        Ok(expected_count(first, new.len(), blocks_behind))
    }

    /// The bytes go after the last. Refusal: 2.
    pub fn append(&mut self, given: &[u8]) -> Result<u64, u64> {
        refuse(&[self.grows_too_long(given)])?;
        if given.is_empty() {
            return Ok(0);
        }
        let before = self.bytes.len();
        self.bytes.extend(given);
        let new_blocks = blocks(self.bytes.len()) - blocks(before);
        Ok(expected_count(before, given.len(), new_blocks))
    }

    /// The bytes go before the first. Refusals: 5, 2.
    pub fn prepend(&mut self, given: &[u8]) -> Result<u64, u64> {
        refuse(&[
            (!given.len().is_multiple_of(16), NOT_WHOLE),
            self.grows_too_long(given),
        ])?;
        if given.is_empty() {
            return Ok(0);
        }
        let blocks_behind = blocks(self.bytes.len());
        self.bytes = [given, &self.bytes].concat();
        Ok(expected_count(0, given.len(), blocks_behind))
    }

    /// As many bytes as are given leave the front. Refusals: 5, 3.
    pub fn drop_front(&mut self, given: &[u8]) -> Result<u64, u64> {
        let l = given.len();
        refuse(&[
            (!l.is_multiple_of(16), NOT_WHOLE),
            (l > self.bytes.len(), OUTSIDE),
        ])?;
        if l == 0 {
            return Ok(0);
        }
        self.bytes.drain(..l);
        Ok(expected_count(0, l, blocks(self.bytes.len())))
    }

    /// As many bytes as are given leave the end. Refusal: 3.
    pub fn cut_tail(&mut self, given: &[u8]) -> Result<u64, u64> {
        let l = given.len();
        refuse(&[(l > self.bytes.len(), OUTSIDE)])?;
        if l == 0 {
            return Ok(0);
        }
        let before = self.bytes.len();
        self.bytes.truncate(before - l);
        let lost_blocks = blocks(before) - blocks(before - l);
        Ok(expected_count(before - l, l, lost_blocks))
    }

    /// Raises the last used number by one and writes the slip that the
    /// controller must write. Refusals: 7, 6.
    pub fn seal(&mut self, slip: &mut [u8]) -> Result<(), u64> {
        refuse(&[
            (slip.len() != SLIP_BYTES, BAD_BUFFER),
            (self.last == u64::MAX, USED_UP),
        ])?;
        self.last += 1;
        let sealed = Slip {
            length: self.n(),
            arm: self.arm,
            number: self.last,
            tag: self.tag(&nonce(self.arm, self.last)),
        };
        slip.copy_from_slice(&sealed.pack());
        Ok(())
    }

    /// Whether the slip is genuine: its length is the count of bytes held,
    /// its arm is start's and its tag is the GMAC of the bytes held under
    /// its own nonce; and if it is, how its number stands to the last used.
    /// Refusals: 7, 8.
    pub fn check(&self, slip: &[u8]) -> Result<Verdict, u64> {
        let slip = Slip::open(slip)?;
        let genuine =
            slip.length == self.n() && slip.arm == self.arm && slip.tag == self.tag(&slip.nonce());
        Ok(slip.verdict(genuine, self.last))
    }

    fn grows_too_long(&self, given: &[u8]) -> (bool, u64) {
        let length = whole_sum(self.n(), given.len() as u64);
        (too_long(length), TOO_LONG)
    }
}

fn blocks(n: usize) -> u64 {
    n.div_ceil(16) as u64
}

/// The blocks that l bytes from byte p on touch, gathered byte by byte.
fn touched(p: usize, l: usize) -> u64 {
    let indices: BTreeSet<usize> = (p..p + l).map(|byte| byte / 16).collect();
    indices.len() as u64
}

/// The steps of seek, counted by walking the bits of k: one for each one, and
/// one for each squaring while higher ones remain.
fn walked_steps(k: u64) -> u64 {
    let mut steps = 0;
    let mut rest = k;
    while rest != 0 {
        steps += rest & 1;
        rest >>= 1;
        steps += u64::from(rest != 0);
    }
    steps
}

/// The count of an edit of l bytes, at least one, from byte p on.
fn expected_count(p: usize, l: usize, k: u64) -> u64 {
    touched(p, l) + walked_steps(k) + 1
}

#[cfg(test)]
mod tests {
    use super::*;
    use crate::field::seek_steps;

    #[test]
    fn walked_steps_are_the_formula_s() {
        let edges = (0..64).flat_map(|i| [(1 << i) - 1, 1 << i, (1 << i) + 1]);
        for k in (0..5000).chain(edges).chain([u64::MAX]) {
            assert_eq!(walked_steps(k), seek_steps(k));
        }
    }

    #[test]
    fn touched_blocks() {
        assert_eq!(touched(17, 1), 1);
        assert_eq!(touched(15, 2), 2);
        assert_eq!(touched(0, 32), 2);
        assert_eq!(touched(31, 18), 3);
    }
}
