//! The join of parts.

use core::iter::once;

use crate::wipe::wipe;
use crate::{ffi, Refusal, BLOCK_BYTES};

/// A part of a file, or a whole of parts: its running sum, [`State::sum`], and
/// its length in bytes, [`State::length`].
///
/// [`State::sum`]: crate::State::sum
/// [`State::length`]: crate::State::length
pub type Part = ([u8; BLOCK_BYTES], u64);

/// How many parts are lent to the library at once.
const GROUP: usize = 31;

/// The sum and the length of the file that these parts are, in their order,
/// under the hash key `h`. No byte of theirs is read again. Each part's sum
/// counts times H to the number of blocks in the parts after it: from the parts'
/// true sums comes that of the joined bytes. No parts are the empty file, and a
/// whole may itself be a part.
///
/// All parts but the last must be whole blocks of 16 bytes. Refusals, in this
/// order: 1; 5 where the length of a part, but for the last, is no multiple of
/// 16; 2 where all lengths together pass 2^61 - 1.
///
/// GHASH of the whole is (sum + L) times H, by [`multiply`](crate::multiply): L
/// is 8 times the length in 64 bits, then 64 zero bits.
///
/// `h` and the sums are secret, and the caller's copies are the caller's to wipe.
///
/// ```
/// use armfile::{join, State};
///
/// # fn main() -> Result<(), armfile::Refusal> {
/// let key = [7; 16]; // from the key store
/// let left = State::read(&key, 3, 0, b"GRIP 4; MOVE 0 9")?; // one whole block
/// let right = State::read(&key, 3, 0, b"; GRIP 5")?;
/// let parts = [&left, &right].map(|part| (part.sum(), part.length()));
/// let (sum, length) = join(&left.hash_key(), &parts)?;
///
/// let whole = State::read(&key, 3, 0, b"GRIP 4; MOVE 0 9; GRIP 5")?;
/// assert_eq!((sum, length), (whole.sum(), whole.length()));
/// # Ok(())
/// # }
/// ```
pub fn join(h: &[u8], parts: &[Part]) -> Result<Part, Refusal> {
    let mut sums = [[0; BLOCK_BYTES]; 1 + GROUP];
    let whole = by_groups(h, parts, &mut sums);
    wipe(sums.as_flattened_mut());
    whole
}

/// Joins the parts group by group, since the library takes sums and lengths
/// apart, each back to back, and there is no allocator for all of them. Each
/// group goes behind the whole of those before it, which may be a part itself.
/// The sums stand, while they are lent, in what is wiped afterwards.
fn by_groups(
    h: &[u8],
    parts: &[Part],
    sums: &mut [[u8; BLOCK_BYTES]; 1 + GROUP],
) -> Result<Part, Refusal> {
    let mut whole = by_library(h, &[], &[])?; // h is refused before all else
    if any_broken(parts) {
        return Err(Refusal::BrokenBlock);
    }
    let mut lengths = [0; 1 + GROUP];
    for group in parts.chunks(GROUP) {
        let places = sums.iter_mut().zip(&mut lengths);
        for ((sum, length), part) in places.zip(once(&whole).chain(group)) {
            (*sum, *length) = *part;
        }
        let count = 1 + group.len();
        whole = by_library(h, sums[..count].as_flattened(), &lengths[..count])?;
    }
    Ok(whole)
}

/// Whether a part that is not the last is no whole blocks. This is refused
/// before a total that is too long, and the library would find the total of one
/// group too long without having seen a broken block in the next.
fn any_broken(parts: &[Part]) -> bool {
    let others = parts.split_last().map_or(&[][..], |(_last, others)| others);
    others
        .iter()
        .any(|(_, length)| length % BLOCK_BYTES as u64 != 0)
}

/// The library's own join.
fn by_library(h: &[u8], sums: &[u8], lengths: &[u64]) -> Result<Part, Refusal> {
    let (mut sum, mut n) = ([0; BLOCK_BYTES], 0);
    Refusal::of(ffi::join(h, sums, lengths, &mut sum, &mut n))?;
    Ok((sum, n))
}

#[cfg(test)]
mod tests {
    use std::vec;
    use std::vec::Vec;

    use super::*;
    use crate::{State, MAX_BYTES};

    /// Numbers of parts around those that groups hold.
    const COUNTS: [usize; 9] = [
        0,
        1,
        2,
        GROUP - 1,
        GROUP,
        GROUP + 1,
        2 * GROUP,
        2 * GROUP + 1,
        3 * GROUP + 7,
    ];

    fn read(bytes: &[u8]) -> State {
        State::read(&[1; 16], 2, 3, bytes).unwrap()
    }

    /// Parts of none to two blocks and, at the end, of some bytes more join to
    /// what the whole is read to be.
    #[test]
    fn more_parts_than_a_group_holds() {
        for count in COUNTS {
            let mut pieces: Vec<_> = (0..count).map(|i| vec![i as u8; 16 * (i % 3)]).collect();
            if let Some(last) = pieces.last_mut() {
                last.extend(b"GRIP");
            }
            let states = pieces.iter().map(|piece| read(piece));
            let parts: Vec<Part> = states.map(|state| (state.sum(), state.length())).collect();
            let whole = read(&pieces.concat());
            let expected = Ok((whole.sum(), whole.length()));
            assert_eq!(join(&whole.hash_key(), &parts), expected, "{count} parts");
        }
    }

    /// Wherever a part is broken or too long, and whichever comes first.
    #[test]
    fn refusals_come_in_their_order() {
        let (h, too_long) = ([1; 16], MAX_BYTES + 1);
        for count in COUNTS {
            let parts = vec![([2; 16], 32); count];
            let places = [0, 1, count / 2, count.saturating_sub(2)];
            for broken in places.into_iter().filter(|&place| place + 1 < count) {
                for long in places.into_iter().chain([count - 1]) {
                    let mut parts = parts.clone();
                    parts[long].1 += too_long;
                    assert_eq!(join(&h, &parts), Err(Refusal::TooLong));
                    parts[broken].1 += 1;
                    assert_eq!(join(&h, &parts), Err(Refusal::BrokenBlock));
                    let short = join(&h[1..], &parts);
                    assert_eq!(short, Err(Refusal::KeyOrBlockLength));
                }
            }
            assert_eq!(join(&h[1..], &parts), Err(Refusal::KeyOrBlockLength));
        }
    }

    /// The last part may be no whole blocks, and no other may be, not even where
    /// only parts of no bytes follow.
    #[test]
    fn only_the_last_part_may_be_broken() {
        let (h, broken, empty) = ([1; 16], ([2; 16], 17), ([3; 16], 0));
        for count in COUNTS {
            let mut parts = vec![([2; 16], 32); count];
            parts.push(broken);
            let length = join(&h, &parts).map(|whole| whole.1);
            assert_eq!(length, Ok(32 * count as u64 + 17));
            parts.push(empty);
            assert_eq!(join(&h, &parts), Err(Refusal::BrokenBlock));
        }
    }
}
