//! Joins of parts, document 02, Q-6.

use armfile::{ffi, Part, State, BLOCK_BYTES, MAX_BYTES, SLIP_BYTES};
use compare::{Call, Case, Lent};
use reference::field::{add, Block, ZERO};
use reference::ghash::pair_block;
use reference::join::{lists, EDGES};
use reference::random::{FEW, MANY};

use crate::choose::{block, plain, SIZES};

/// What a join of these sums and lengths leaves, or its refusal.
fn join(case: &mut Case, h: &[u8], sums: &[u8], lengths: &[u64]) -> Result<Part, u64> {
    let mut lent = Lent::new();
    (lent.sum, lent.n) = (case.random.block(), case.random.number());
    let call = Call::Join {
        h: h.to_vec(),
        sums: sums.to_vec(),
        lengths: lengths.to_vec(),
    };
    match case.call(&call, &mut lent) {
        0 => Ok((lent.sum, lent.n)),
        number => Err(number),
    }
}

/// What a join of these parts leaves, or its refusal.
fn joined(case: &mut Case, h: &[u8], parts: &[Part]) -> Result<Part, u64> {
    let (sums, lengths) = lists(parts);
    join(case, h, &sums, &lengths)
}

/// Parts of these lengths, with any sums.
fn with_sums(case: &mut Case, lengths: &[u64]) -> Vec<Part> {
    let sum = |_| block(&mut case.random).try_into().expect("16 bytes");
    let sums: Vec<Block> = lengths.iter().map(sum).collect();
    sums.into_iter().zip(lengths.iter().copied()).collect()
}

/// So many parts that are accepted, with any sums, and a hash key.
fn some_parts(case: &mut Case, count: usize) -> (Vec<u8>, Vec<Part>) {
    let lengths = case.random.some_parts(count, MANY);
    (block(&mut case.random), with_sums(case, &lengths))
}

/// Whether a part of no bytes behind these makes the last of them a broken one.
fn end_in_a_block(parts: &[Part]) -> bool {
    parts.last().is_some_and(|last| !last.1.is_multiple_of(16))
}

/// None to six parts; and with a part of no bytes at each place, whose sum alone
/// counts.
pub fn of_few_parts(case: &mut Case) {
    let (h, parts) = some_parts(case, case.index() as usize % 7);
    let whole = joined(case, &h, &parts);
    assert!(whole.is_ok());
    for place in 0..=parts.len() {
        let broken = place == parts.len() && end_in_a_block(&parts);
        let mut more = parts.clone();
        more.insert(place, (ZERO, 0));
        let expected = if broken { Err(5) } else { whole };
        assert_eq!(joined(case, &h, &more), expected, "nothing at {place}");
        more[place].0 = case.random.block();
        assert_eq!(joined(case, &h, &more).is_err(), broken);
    }
}

/// As many parts as the case's index: the wrapper lends them to the library in
/// groups. A part that is broken is refused before a whole that is too long,
/// whichever is seen first.
pub fn of_every_count(case: &mut Case) {
    let count = case.index() as usize;
    let (h, parts) = some_parts(case, count);
    assert!(joined(case, &h, &parts).is_ok());
    if count < 2 {
        return;
    }
    let any = [count, count - 1].map(|n| case.random.below(n as u64) as usize);
    for [long, broken] in [[0, count - 2], [count - 1, 0], any] {
        let mut parts = parts.clone();
        parts[long].1 += MAX_BYTES + 1;
        assert_eq!(joined(case, &h, &parts), Err(2));
        parts[broken].1 += 1 + case.random.below(15);
        assert_eq!(joined(case, &h, &parts), Err(5));
        assert_eq!(joined(case, &h[1..], &parts), Err(1));
    }
}

/// A thousand parts and some more, and all but the last of them.
pub fn of_many_parts(case: &mut Case) {
    let (h, parts) = some_parts(case, 1_000 + case.index() as usize);
    for parts in [&parts[..], &parts[..999]] {
        assert!(joined(case, &h, parts).is_ok());
    }
}

/// Each run of some parts joined first, and its whole put in their place. The
/// join of no parts may stand anywhere but behind a part that is broken.
pub fn of_joins(case: &mut Case) {
    let count = case.index() as usize % 7;
    let (h, parts) = some_parts(case, count);
    let whole = joined(case, &h, &parts);
    for first in 0..=count {
        for end in first..=count {
            let run = joined(case, &h, &parts[first..end]).expect("parts that are accepted");
            let nested = [&parts[..first], &[run], &parts[end..]].concat();
            let broken = first == count && end_in_a_block(&parts);
            let expected = if broken { Err(5) } else { whole };
            assert_eq!(joined(case, &h, &nested), expected, "{first} to {end}");
        }
    }
}

/// The tag of a whole, from its sum and length: (S + L) times H, plus AES(key, J).
fn tag_of(key: &[u8], h: &[u8], (sum, n): Part, nonce: &[u8]) -> Block {
    let [mut hash, mut mask] = [ZERO; 2];
    let length = pair_block(8 * n, 0);
    armfile::multiply(&add(&sum, &length), h, &mut hash).expect("a product");
    let first_counter = [nonce, &[0, 0, 0, 1]].concat();
    armfile::encrypt(key, &first_counter, &mut mask).expect("a block");
    add(&hash, &mask)
}

/// A file of up to six parts, each read by itself, joins to what the whole is
/// read to be, and has the tag that the whole's state seals.
pub fn of_a_file(case: &mut Case) {
    let count = case.index() as usize % 7;
    let (key, lengths) = (case.random.bytes(16), case.random.some_parts(count, FEW));
    let pieces: Vec<Vec<u8>> = lengths
        .iter()
        .map(|&n| case.random.bytes(n as usize))
        .collect();
    let (arm, last) = (case.random.number() as u32, case.random.number() >> 1);
    let read = |bytes: &[u8]| State::read(&key, arm, last, bytes).expect("a file");
    let states = pieces.iter().map(|piece| read(piece));
    let parts: Vec<Part> = states.map(|state| (state.sum(), state.length())).collect();
    let mut state = read(&pieces.concat());
    let (h, whole) = (state.hash_key(), (state.sum(), state.length()));
    assert_eq!(joined(case, &h, &parts), Ok(whole));

    let mut slip = [0; SLIP_BYTES];
    state.seal(&mut slip).expect("a slip");
    assert_eq!(slip[20..], tag_of(&key, &h, whole, &slip[8..20]));
}

/// Blank files of any length, up to the longest, in up to seven parts.
pub fn of_blank_files(case: &mut Case) {
    let count = 1 + case.index() as usize % 7;
    let (key, fill) = (case.random.bytes(16), case.random.some_fill());
    let started = |n| State::start(&key, 3, 4, n, fill).expect("a blank file").0;
    let part = |n| (started(n).sum(), n);
    let h = started(0).hash_key();
    let mut lengths = case.random.some_parts(count, MANY);
    for more in [0, MAX_BYTES - lengths.iter().sum::<u64>()] {
        lengths[count - 1] += more;
        let parts: Vec<Part> = lengths.iter().map(|&n| part(n)).collect();
        let whole = part(lengths.iter().sum());
        assert_eq!(joined(case, &h, &parts), Ok(whole));
    }
}

/// A part before one of as many blocks as the power of two of the case's index,
/// of one less and of one more; and before that number in parts.
pub fn of_powers_of_two(case: &mut Case) {
    let power = 1_u64 << case.index();
    for blocks in [power - 1, power, (power + 1).min(1 << 57)] {
        let last = (16 * blocks).min(MAX_BYTES);
        let half = blocks / 2 * 16;
        for lengths in [&[0, last][..], &[0, half, last - half]] {
            let parts = with_sums(case, lengths);
            let h = case.random.block();
            assert!(joined(case, &h, &parts).is_ok());
        }
    }
}

/// Where one of the sums, in its place, is the hash key too.
pub fn under_a_sum(case: &mut Case) {
    let (_, parts) = some_parts(case, 1 + case.index() as usize);
    for part in 0..parts.len() {
        let expected = joined(case, &parts[part].0, &parts);
        let (sums, lengths) = lists(&parts);
        let (mut sum, mut n) = (ZERO, 0);
        let h = &sums[BLOCK_BYTES * part..][..BLOCK_BYTES];
        assert_eq!(ffi::join(h, &sums, &lengths, &mut sum, &mut n), 0);
        assert_eq!(Ok((sum, n)), expected);
    }
}

/// Each bit of a sum in turn, in which the whole's sum is linear, under the hash
/// key of the case's index: one bit, zeros or ones.
pub fn of_plain_sums(case: &mut Case) {
    let h = plain(case.index() as usize);
    for number in 0..128 {
        let sum: Block = plain(number).try_into().expect("16 bytes");
        let lengths = case.random.some_parts(3, FEW);
        let mut parts: Vec<Part> = lengths.into_iter().map(|n| (ZERO, n)).collect();
        parts[number % 3].0 = sum;
        assert!(joined(case, &h, &parts).is_ok());
    }
}

/// Lengths around 2^61 and 2^64, and totals around the limit. None wraps.
pub fn of_long_parts(case: &mut Case) {
    let (lengths, number) = EDGES[case.index() as usize % EDGES.len()];
    let (h, parts) = (block(&mut case.random), with_sums(case, lengths));
    let answer = joined(case, &h, &parts).err().unwrap_or(0);
    assert_eq!(answer, number, "{lengths:?}");
    let (h, mut parts) = some_parts(case, 1 + case.index() as usize % 6);
    let n: u64 = parts.iter().map(|part| part.1).sum();
    let total = MAX_BYTES - 20 + case.random.below(40);
    if let Some(last) = parts.last_mut() {
        last.1 += total - n;
    }
    let answer = joined(case, &h, &parts);
    assert_eq!(answer.is_ok(), total <= MAX_BYTES, "{total} bytes");
}

/// Hash keys of the case's size, with sums of each and with a few lengths.
pub fn of_wrong_lengths(case: &mut Case) {
    let h = case.random.bytes(SIZES[case.index() as usize]);
    for count in 0..5 {
        for size in 0..6 * BLOCK_BYTES {
            let expected = match (h.len(), size == BLOCK_BYTES * count) {
                (BLOCK_BYTES, true) => None,
                (BLOCK_BYTES, false) => Some(15),
                _ => Some(1),
            };
            let sums = case.random.bytes(size);
            let answer = join(case, &h, &sums, &vec![32; count]);
            assert_eq!(answer.err(), expected, "{size} bytes of {count} sums");
        }
    }
}

/// The causes in their order: the case's index says which there are, and the
/// first of them decides.
pub fn of_sets_of_causes(case: &mut Case) {
    const NUMBERS: [u64; 4] = [1, 15, 5, 2];
    let set = case.index() as u32;
    let has = |cause: u32| (set >> cause) & 1 == 1;
    let expected = NUMBERS.get(set.trailing_zeros() as usize).copied();
    for (size, away) in [(15, -1), (17, 1), (0, -16), (32, 16), (15, 16), (17, -16)] {
        for (broken, long) in [(0, 0), (0, 3), (1, 0), (1, 2), (2, 0), (2, 3)] {
            let mut lengths = [16, 0, 32, 5];
            lengths[long] += if has(3) { MAX_BYTES + 1 } else { 0 };
            lengths[broken] += u64::from(has(2));
            let h = case.random.bytes(if has(0) { size } else { 16 });
            let all: usize = BLOCK_BYTES * lengths.len();
            let sums = case.random.bytes(if has(1) {
                all.wrapping_add_signed(away)
            } else {
                all
            });
            let answer = join(case, &h, &sums, &lengths);
            assert_eq!(answer.err(), expected, "{lengths:?}");
        }
    }
}
