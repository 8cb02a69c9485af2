//! The slip, document 01, "Slip, seal, check": 36 bytes, packed most
//! significant bit first. What a check finds of it is document 02's, Q-5.

use std::cmp::Ordering;

use crate::bits::{number_of, pack};
use crate::field::Block;
use crate::refusal::{refuse, BAD_BUFFER, BAD_VERSION};

/// The bytes of a slip.
pub const SLIP_BYTES: usize = 36;

/// The only version, kept in three bits.
pub const VERSION: u64 = 1;

/// The fields of a slip after its version.
#[derive(Clone, Copy, Debug, PartialEq, Eq)]
pub struct Slip {
    pub length: u64,
    pub arm: u32,
    pub number: u64,
    pub tag: Block,
}

impl Slip {
    /// The slip's bytes.
    pub fn pack(&self) -> [u8; SLIP_BYTES] {
        let bytes = pack(&[
            (3, VERSION.into()),
            (61, self.length.into()),
            (32, self.arm.into()),
            (64, self.number.into()),
            (128, u128::from_be_bytes(self.tag)),
        ]);
        bytes.try_into().expect("36 bytes")
    }

    /// The fields of a slip, or its refusal: 7, 8.
    pub fn open(bytes: &[u8]) -> Result<Slip, u64> {
        refuse(&[(bytes.len() != SLIP_BYTES, BAD_BUFFER)])?;
        let version = number_of(bytes, 0, 3);
        refuse(&[(version != u128::from(VERSION), BAD_VERSION)])?;
        Ok(Slip {
            length: number_of(bytes, 3, 61) as u64,
            arm: number_of(bytes, 64, 32) as u32,
            number: number_of(bytes, 96, 64) as u64,
            tag: number_of(bytes, 160, 128).to_be_bytes(),
        })
    }

    /// The nonce of the slip's tag: arm, then number.
    pub fn nonce(&self) -> [u8; 12] {
        nonce(self.arm, self.number)
    }

    /// The verdict on the slip, once it is known whether it is genuine, where
    /// this is the last used number.
    pub fn verdict(&self, genuine: bool, last: u64) -> Verdict {
        if !genuine {
            return Verdict::NotGenuine;
        }
        match self.number.cmp(&last) {
            Ordering::Less => Verdict::Stale,
            Ordering::Equal => Verdict::Current,
            Ordering::Greater => Verdict::Ahead,
        }
    }
}

/// What a check finds, with the numbers that armfile.h has for it. All but the
/// first are genuine slips.
#[derive(Clone, Copy, Debug, PartialEq, Eq)]
pub enum Verdict {
    NotGenuine = 0,
    /// The slip's number is the last used.
    Current = 1,
    /// It is smaller.
    Stale = 2,
    /// It is larger.
    Ahead = 3,
}

impl Verdict {
    pub fn number(self) -> u8 {
        self as u8
    }
}

/// Arm and number are the 12-byte nonce.
pub fn nonce(arm: u32, number: u64) -> [u8; 12] {
    let mut bytes = [0; 12];
    bytes[..4].copy_from_slice(&arm.to_be_bytes());
    bytes[4..].copy_from_slice(&number.to_be_bytes());
    bytes
}

#[cfg(test)]
mod tests {
    use super::*;
    use crate::random::Random;

    #[test]
    fn packing_by_whole_words_gives_the_same_bytes() {
        let mut random = Random::for_test(7);
        for _ in 0..500 {
            let slip = Slip {
                length: random.number() >> 3,
                arm: random.number() as u32,
                number: random.number(),
                tag: random.block(),
            };
            let mut expected = ((1 << 61) | slip.length).to_be_bytes().to_vec();
            expected.extend(slip.nonce());
            expected.extend(slip.tag);
            assert_eq!(slip.pack().to_vec(), expected);
            assert_eq!(Slip::open(&expected), Ok(slip));
        }
    }

    /// Pairs of numbers, the first of them smaller.
    const PAIRS: [(u64, u64); 11] = [
        (0, 1),
        (0, u64::MAX),
        (41, 42),
        (255, 256),
        (u32::MAX as u64, 1 << 32),
        (2, (1 << 32) + 1),
        ((1 << 32) + 2, (2 << 32) + 1),
        ((5 << 32) + 7, (5 << 32) + 8),
        (1, 1 << 63),
        ((1 << 63) - 1, 1 << 63),
        (u64::MAX - 1, u64::MAX),
    ];

    #[test]
    fn numbers_split_the_genuine_slips() {
        let numbered = |number| Slip {
            length: 40,
            arm: 7,
            number,
            tag: [0; 16],
        };
        for (smaller, larger) in PAIRS {
            assert_eq!(numbered(smaller).verdict(true, larger), Verdict::Stale);
            assert_eq!(numbered(larger).verdict(true, smaller), Verdict::Ahead);
            for number in [smaller, larger] {
                let slip = numbered(number);
                assert_eq!(slip.verdict(true, number), Verdict::Current);
                for last in [smaller, larger] {
                    assert_eq!(slip.verdict(false, last), Verdict::NotGenuine);
                }
            }
        }
    }

    #[test]
    fn opening_refuses_7_then_8() {
        for length in (0..80).filter(|&length| length != SLIP_BYTES) {
            assert_eq!(Slip::open(&vec![0; length]), Err(7));
        }
        for version in 0..8_u8 {
            let mut bytes = [0; SLIP_BYTES];
            bytes[0] = version << 5;
            assert_eq!(Slip::open(&bytes).err(), (version != 1).then_some(8));
        }
    }
}
