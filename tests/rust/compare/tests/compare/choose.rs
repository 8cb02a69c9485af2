//! The values that inputs are chosen from.

use armfile::MAX_BYTES;
use reference::random::Random;

/// Byte lengths around those of blocks and of runs of blocks.
pub const LENGTHS: [usize; 23] = [
    0, 1, 2, 11, 12, 13, 15, 16, 17, 31, 32, 33, 47, 48, 49, 63, 64, 65, 128, 255, 256, 257, 1025,
];

/// Lengths of a text to encrypt: around those of blocks, and of batches of
/// blocks, up to some KiB.
pub const TEXTS: [usize; 31] = [
    0, 1, 15, 16, 17, 31, 32, 33, 127, 128, 129, 239, 240, 241, 255, 256, 257, 271, 272, 273, 511,
    512, 513, 767, 768, 769, 1_024, 1_025, 4_096, 4_097, 10_239,
];

/// Byte lengths around those of pages and of usual buffers, and far past them.
pub const LONG: [usize; 9] = [
    2_000, 2_001, 4_096, 4_097, 10_000, 65_536, 65_537, 100_003, 300_007,
];

/// Sizes of a lent buffer, around that of a block, of a longer key and of a
/// slip.
pub const SIZES: [usize; 13] = [0, 1, 2, 8, 15, 16, 17, 24, 31, 32, 33, 36, 64];

/// Lengths of a file, around blocks and the limit.
pub const FILE_LENGTHS: [u64; 14] = [
    0,
    1,
    15,
    16,
    17,
    40,
    1 << 32,
    (1 << 60) + 5,
    MAX_BYTES - 16,
    MAX_BYTES - 1,
    MAX_BYTES,
    MAX_BYTES + 1,
    1 << 63,
    u64::MAX,
];

/// Seal numbers at both ends.
pub const NUMBERS: [u64; 7] = [0, 1, 255, 1 << 32, u64::MAX - 2, u64::MAX - 1, u64::MAX];

/// Last used seal numbers: both ends, and around the halves' and the sign's
/// borders.
pub const LASTS: [u64; 16] = [
    0,
    1,
    2,
    255,
    1 << 31,
    u32::MAX as u64,
    1 << 32,
    (1 << 32) + 1,
    (1 << 63) - 1,
    1 << 63,
    (1 << 63) + 1,
    0x0123_4567_89ab_cdef,
    0xfedc_ba98_7654_3210,
    u64::MAX - (1 << 32),
    u64::MAX - 1,
    u64::MAX,
];

/// Seal numbers to hold against a last used one: itself and its neighbours,
/// those of `LASTS`, itself with its halves exchanged, and those that differ
/// from it in one bit, or in all bits of one half.
pub fn numbers_around(last: u64) -> Vec<u64> {
    let neighbours = [last.wrapping_sub(1), last, last.wrapping_add(1)];
    let halves = [last ^ (u64::MAX >> 32), last ^ (u64::MAX << 32)];
    let bits = (0..64).map(|bit| last ^ (1 << bit));
    let numbers = neighbours.into_iter().chain(halves).chain(bits);
    numbers.chain([last.rotate_left(32)]).chain(LASTS).collect()
}

/// Arm numbers at both ends.
pub const ARMS: [u32; 4] = [0, 7, 1 << 31, u32::MAX];

/// One of the values.
pub fn one_of<T: Copy>(random: &mut Random, values: &[T]) -> T {
    values[random.below(values.len() as u64) as usize]
}

/// A block: random, or one of zeros, of ones, with one bit or with one byte.
pub fn block(random: &mut Random) -> Vec<u8> {
    let mut block = vec![0; 16];
    match random.below(8) {
        0 => {}
        1 => block.fill(0xff),
        2 => block[random.below(16) as usize] = 0x80 >> random.below(8),
        3 => block[random.below(16) as usize] = random.number() as u8,
        _ => block = random.bytes(16),
    }
    block
}

/// How many blocks of `plain` there are.
pub const PLAIN: usize = 130;

/// The block with the one bit of this number, or of zeros, or of ones.
pub fn plain(number: usize) -> Vec<u8> {
    match number {
        0..128 => {
            let mut block = vec![0; 16];
            block[number / 8] = 0x80 >> (number % 8);
            block
        }
        128 => vec![0; 16],
        _ => vec![0xff; 16],
    }
}

/// An output of a size, filled with what a call must not leave or must leave.
pub fn output(random: &mut Random, size: usize) -> Vec<u8> {
    vec![random.number() as u8; size]
}
