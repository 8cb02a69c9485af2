//! Document 02, Q-6: joins of parts, against the bytes of the whole, against
//! Horner's rule and against joins of joins; the causes and their order.

use reference::field::{add, multiply, power, Block, ONE, ZERO};
use reference::ghash::{block_count, blocks_of, ghash, gmac, hash_key, pair_block, sum};
use reference::join::{join, length_refusal, lists, size_refusal, Part, EDGES};
use reference::random::{Random, FEW, MANY};
use reference::refusal::MAX_BYTES;
use reference::slip::nonce;
use reference::{blank, State};

fn joined(h: &Block, parts: &[Part]) -> Result<Part, u64> {
    let (sums, lengths) = lists(parts);
    join(h, &sums, &lengths)
}

/// The part that these bytes are.
fn part_of(h: &Block, bytes: &[u8]) -> Part {
    (sum(h, &blocks_of(bytes)), bytes.len() as u64)
}

/// The bytes of so many parts.
fn some_bytes(random: &mut Random, count: usize) -> Vec<Vec<u8>> {
    let lengths = random.some_parts(count, FEW).into_iter();
    lengths.map(|n| random.bytes(n as usize)).collect()
}

/// So many parts with any sums, most of which are those of no bytes.
fn any_parts(random: &mut Random, count: usize, width: u64) -> Vec<Part> {
    let lengths = random.some_parts(count, width).into_iter();
    lengths.map(|n| (random.block(), n)).collect()
}

#[test]
fn true_sums_join_to_that_of_the_bytes() {
    let mut random = Random::for_test(70);
    for count in (0..=6).cycle().take(210).chain([1_000]) {
        for h in [ZERO, ONE, random.block()] {
            let bytes = some_bytes(&mut random, count);
            let parts: Vec<Part> = bytes.iter().map(|part| part_of(&h, part)).collect();
            let whole = part_of(&h, &bytes.concat());
            assert_eq!(joined(&h, &parts), Ok(whole), "{parts:?}");
        }
    }
}

/// At both ends and between: they weigh nothing, so that they leave the whole
/// as it is, but for a sum of theirs that is not true.
#[test]
fn parts_of_no_bytes() {
    let mut random = Random::for_test(71);
    for _ in 0..50 {
        let [h, untrue] = [random.block(), random.block()];
        let [one, two] = [48, 32].map(|n| part_of(&h, &random.bytes(n)));
        let whole = joined(&h, &[one, two]).unwrap();
        let none = part_of(&h, &[]);
        assert_eq!(joined(&h, &[]), Ok(none));
        for parts in [
            &[none, one, two][..],
            &[one, none, two],
            &[one, two, none],
            &[none, none, one, none, none, two, none, none],
        ] {
            assert_eq!(joined(&h, parts), Ok(whole));
        }
        let odd = (untrue, 0);
        for (blocks, parts) in [
            (5, [odd, one, two]),
            (2, [one, odd, two]),
            (0, [one, two, odd]),
        ] {
            let more = multiply(&untrue, &power(&h, blocks));
            assert_eq!(joined(&h, &parts), Ok((add(&whole.0, &more), whole.1)));
        }
    }
}

/// The state of the whole, and with it GHASH and GMAC of the joined bytes.
#[test]
fn states_hashes_and_tags() {
    let mut random = Random::for_test(72);
    for count in (0..=6).cycle().take(70) {
        let (key, arm, last) = (random.block(), random.number() as u32, random.number());
        let read = |bytes: &[u8]| State::read(&key, arm, last, bytes).unwrap();
        let bytes = some_bytes(&mut random, count);
        let states = bytes.iter().map(|part| read(part));
        let parts: Vec<Part> = states.map(|state| (state.s, state.n)).collect();
        let (h, whole) = (hash_key(&key), bytes.concat());
        let (s, n) = joined(&h, &parts).unwrap();
        let state = State { s, n, ..read(&[]) };
        assert_eq!(state, read(&whole));
        let hash = multiply(&add(&s, &pair_block(8 * n, 0)), &h);
        assert_eq!(hash, ghash(&h, &whole, &[]));
        let nonce = nonce(arm, last);
        assert_eq!(state.tag(&nonce), gmac(&key, &nonce, &whole));
    }
}

/// From the front: what is joined so far counts times H to the number of blocks
/// in the next part, whose sum is added.
fn by_horner(h: &Block, parts: &[Part], raised: fn(&Block, u64) -> Block) -> Part {
    parts.iter().fold((ZERO, 0), |(sum, n), part| {
        let moved = multiply(&sum, &raised(h, block_count(part.1)));
        (add(&moved, &part.0), n + part.1)
    })
}

/// Any sums, under any H, with powers made one product after the other, and of
/// many blocks with others.
#[test]
fn any_sums_by_horner() {
    let mut random = Random::for_test(73);
    for count in (0..=6).cycle().take(140).chain([1_000]) {
        for h in [ZERO, ONE, random.block()] {
            let parts = any_parts(&mut random, count, FEW);
            let one_by_one = |h: &Block, k| (0..k).fold(ONE, |power, _| multiply(&power, h));
            let expected = by_horner(&h, &parts, one_by_one);
            assert_eq!(joined(&h, &parts), Ok(expected), "{parts:?}");
            let parts = any_parts(&mut random, count, MANY);
            let expected = by_horner(&h, &parts, |h, k| power(h, k.into()));
            assert_eq!(joined(&h, &parts), Ok(expected), "{parts:?}");
        }
    }
}

/// Sums that are true at lengths of which no test has the bytes.
#[test]
fn blank_files_in_parts() {
    let mut random = Random::for_test(74);
    for count in (1..=6).cycle().take(120) {
        let (h, fill) = (random.block(), random.some_fill());
        let part = |n| (blank::sum(&h, fill, n), n);
        let mut lengths = random.some_parts(count, MANY);
        let n: u64 = lengths.iter().sum();
        let parts: Vec<Part> = lengths.iter().map(|&n| part(n)).collect();
        assert_eq!(joined(&h, &parts), Ok(part(n)), "{lengths:?}");
        lengths[count - 1] += MAX_BYTES - n;
        let parts: Vec<Part> = lengths.iter().map(|&n| part(n)).collect();
        assert_eq!(joined(&h, &parts), Ok(part(MAX_BYTES)), "{lengths:?}");
    }
}

/// Each run of the parts joined first, those of no part among them. The join of
/// no parts may stand anywhere but behind a part that is no whole blocks.
#[test]
fn a_whole_is_a_part() {
    let mut random = Random::for_test(75);
    for count in (0..=6).cycle().take(140) {
        let (h, parts) = (random.block(), any_parts(&mut random, count, MANY));
        let whole = joined(&h, &parts).unwrap();
        for first in 0..=count {
            for end in first..=count {
                let run = joined(&h, &parts[first..end]).unwrap();
                let nested = [&parts[..first], &[run], &parts[end..]].concat();
                let behind_broken = first == count && !whole.1.is_multiple_of(16);
                let expected = if behind_broken { Err(5) } else { Ok(whole) };
                assert_eq!(joined(&h, &nested), expected, "{first} to {end}, {parts:?}");
            }
        }
    }
}

/// Wholes in wholes: each part joined to all before it, and to all after it.
#[test]
fn a_whole_of_wholes_is_a_part() {
    let mut random = Random::for_test(76);
    for count in 1..=40 {
        let (h, parts) = (random.block(), any_parts(&mut random, count, MANY));
        let pair = |one, two| joined(&h, &[one, two]).unwrap();
        let whole = joined(&h, &parts);
        let forwards = parts.iter().copied().reduce(pair);
        assert_eq!(forwards.ok_or(0), whole, "{parts:?}");
        let backwards = parts
            .iter()
            .copied()
            .rev()
            .reduce(|all, one| pair(one, all));
        assert_eq!(backwards.ok_or(0), whole, "{parts:?}");
    }
}

#[test]
fn no_parts_behind_a_broken_block() {
    let h = [7; 16];
    let none = joined(&h, &[]).unwrap();
    assert_eq!(none, (ZERO, 0));
    for n in 1..16 {
        let broken = (h, 32 + n);
        assert_eq!(joined(&h, &[broken, none]), Err(5), "{n}");
        assert_eq!(joined(&h, &[none, broken]), Ok(broken), "{n}");
    }
}

/// The total as a whole number, at the edges and around the limit.
#[test]
fn totals() {
    let mut random = Random::for_test(77);
    for (lengths, number) in EDGES {
        let parts: Vec<Part> = lengths.iter().map(|&n| (random.block(), n)).collect();
        let expected = if number == 0 {
            Ok(lengths.iter().sum())
        } else {
            Err(number)
        };
        let n = joined(&random.block(), &parts).map(|whole| whole.1);
        assert_eq!(n, expected, "{lengths:?}");
    }
    for count in (1..=6).cycle().take(300) {
        let mut lengths = random.some_parts(count, MANY);
        let n: u64 = lengths.iter().sum();
        let total = MAX_BYTES - 20 + random.below(40);
        lengths[count - 1] += total - n;
        let expected = if total > MAX_BYTES { Err(2) } else { Ok(()) };
        assert_eq!(length_refusal(&lengths), expected, "{lengths:?}");
    }
}

/// H and the sums of each size, beside each number of lengths.
#[test]
fn sizes() {
    for size in [0, 1, 15, 16, 17, 32] {
        for sums in 0..=96 {
            for count in 0..=6 {
                let expected = match (size, sums == 16 * count) {
                    (16, true) => Ok(()),
                    (16, false) => Err(15),
                    _ => Err(1),
                };
                let answer = join(&vec![1; size], &vec![2; sums], &vec![16; count]);
                assert_eq!(answer.map(|_| ()), expected, "{size}, {sums}, {count}");
            }
        }
    }
    assert_eq!(size_refusal(16, 0, 1 << 60), Err(15), "no multiple wraps");
    assert_eq!(size_refusal(16, 16, (1 << 60) + 1), Err(15));
    assert_eq!(size_refusal(16, 32, (1 << 32) + 2), Err(15));
    assert_eq!(size_refusal(16, u64::MAX - 15, (1 << 60) - 1), Ok(()));
}

/// Every set of causes, each brought about at each place: the first decides.
#[test]
fn the_first_cause_decides() {
    const NUMBERS: [u64; 4] = [1, 15, 5, 2];
    const PARTS: usize = 4;
    for set in 0_u32..16 {
        let has = |cause: u32| (set >> cause) & 1 == 1;
        let expected = NUMBERS.get(set.trailing_zeros() as usize).copied();
        for (broken, long) in (0..PARTS - 1).flat_map(|b| (0..PARTS).map(move |l| (b, l))) {
            let mut lengths = [16, 0, 32, 5];
            lengths[long] += if has(3) { MAX_BYTES + 1 } else { 0 };
            lengths[broken] += u64::from(has(2));
            for (h, sums) in [(15, 63), (17, 65), (0, 48), (32, 80)] {
                let h = vec![1; if has(0) { h } else { 16 }];
                let sums = vec![2; if has(1) { sums } else { 16 * PARTS }];
                let answer = join(&h, &sums, &lengths);
                assert_eq!(answer.err(), expected, "{lengths:?}");
            }
        }
    }
}

/// At each place but the last, even where the last part has no bytes.
#[test]
fn broken_blocks() {
    for count in 1..=6 {
        for place in 0..count {
            for odd in 1..16 {
                let mut lengths = vec![32; count];
                lengths[place] += odd;
                let expected = if place + 1 == count { Ok(()) } else { Err(5) };
                assert_eq!(length_refusal(&lengths), expected, "{lengths:?}");
                lengths.push(0);
                assert_eq!(length_refusal(&lengths), Err(5), "{lengths:?}");
            }
        }
    }
}
