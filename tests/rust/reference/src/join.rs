//! The join of parts, document 02, Q-6: the sum and the length of a whole, from
//! the sums and the lengths of its parts, without their bytes.

use crate::field::{add, multiply, power, Block, ZERO};
use crate::ghash::block_count;
use crate::refusal::{refuse, too_long, BAD_SUMS, MAX_BYTES, NOT_SIXTEEN, NOT_WHOLE, TOO_LONG};

/// A sum and a length in bytes: those of a part, or of a whole.
pub type Part = (Block, u64);

/// The sums of parts, back to back, and their lengths, as they are lent.
pub fn lists(parts: &[Part]) -> (Vec<u8>, Vec<u64>) {
    let sums = parts.iter().flat_map(|part| part.0).collect();
    (sums, parts.iter().map(|part| part.1).collect())
}

/// The refusal of a join by how many bytes of H, bytes of sums and lengths it is
/// lent: 1, 15.
pub fn size_refusal(h: u64, sums: u64, lengths: u64) -> Result<(), u64> {
    refuse(&[
        (h != 16, NOT_SIXTEEN),
        (u128::from(sums) != 16 * u128::from(lengths), BAD_SUMS),
    ])
}

/// The refusal of a join by what the lengths are: 5, 2.
pub fn length_refusal(lengths: &[u64]) -> Result<(), u64> {
    let (_last, others) = lengths.split_last().unwrap_or((&0, &[]));
    let broken = others.iter().any(|length| !length.is_multiple_of(16));
    refuse(&[(broken, NOT_WHOLE), (too_long(total(lengths)), TOO_LONG)])
}

/// The sum and the length of the whole. Each part's sum counts times H to the
/// number of blocks in the parts after it. Refusals: 1, 15, 5, 2.
pub fn join(h: &[u8], sums: &[u8], lengths: &[u64]) -> Result<Part, u64> {
    size_refusal(h.len() as u64, sums.len() as u64, lengths.len() as u64)?;
    length_refusal(lengths)?;
    let h: Block = h.try_into().expect("16 bytes");
    let mut whole = ZERO;
    for (part, sum) in sums.chunks(16).enumerate() {
        let sum: Block = sum.try_into().expect("16 bytes");
        let after: u64 = lengths[part + 1..].iter().map(|&n| block_count(n)).sum();
        whole = add(&whole, &multiply(&sum, &power(&h, after.into())));
    }
    Ok((whole, total(lengths) as u64))
}

/// The bytes of all parts, a whole number that never wraps.
fn total(lengths: &[u64]) -> u128 {
    lengths.iter().map(|&length| u128::from(length)).sum()
}

/// One byte more than a whole may have: 2^61.
const PAST: u64 = MAX_BYTES + 1;

/// Lengths around 2^61 and 2^64, for tests, and the refusal worked out by hand
/// of parts that have them, 0 for none. Many totals are small modulo 2^64.
pub const EDGES: [(&[u64], u64); 27] = [
    (&[], 0),
    (&[PAST - 1], 0),
    (&[PAST], 2),
    (&[1 << 63], 2),
    (&[u64::MAX], 2),
    (&[PAST - 16, 15], 0),
    (&[PAST - 16, 16], 2),
    (&[PAST - 32, 0, 16, 15], 0),
    (&[PAST - 32, 16, 16, 0], 2),
    (&[0, PAST - 1], 0),
    (&[0, PAST], 2),
    (&[PAST - 1, 0], 5),
    (&[PAST, 0], 2),
    (&[1 << 60, (1 << 60) - 1], 0),
    (&[1 << 60, 1 << 60], 2),
    (&[16, PAST - 17], 0),
    (&[16, PAST - 16], 2),
    (&[16, u64::MAX], 2),
    (&[16, u64::MAX - 15], 2),
    (&[u64::MAX - 15, 32], 2),
    (&[u64::MAX - 14, 32], 5),
    (&[1 << 63, 1 << 63], 2),
    (&[1 << 63, 1 << 63, 40], 2),
    (&[1 << 63, 1 << 63, 40, 0], 5),
    (&[1 << 62; 4], 2),
    (&[PAST; 8], 2),
    (&[1 << 63; 100], 2),
];
