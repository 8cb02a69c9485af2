//! Document 02, Q-4: blank files, by their sums and counts.

use reference::blank::{count, sum};
use reference::field::{add, companion, multiply, power, Block, ONE, ZERO};
use reference::ghash::{self, blocks_of};
use reference::random::Random;
use reference::refusal::MAX_BYTES;
use reference::State;

/// Lengths around those of blocks.
const LENGTHS: [u64; 17] = [
    0, 1, 2, 15, 16, 17, 31, 32, 33, 47, 48, 49, 64, 65, 255, 256, 257,
];

/// The sum of the bytes themselves.
fn plain_sum(h: &Block, fill: u8, n: u64) -> Block {
    ghash::sum(h, &blocks_of(&vec![fill; n as usize]))
}

/// m - 1, and the last block, padded, of a file that is not empty.
fn parts(fill: u8, n: u64) -> (u64, Block) {
    let before = (n - 1) / 16;
    let mut last = ZERO;
    last[..(n - 16 * before) as usize].fill(fill);
    (before, last)
}

#[test]
fn every_length() {
    let mut random = Random::for_test(60);
    for h in [ZERO, ONE, random.block(), random.block()] {
        for n in 0..=1_100 {
            let fill = random.some_fill();
            assert_eq!(sum(&h, fill, n), plain_sum(&h, fill, n), "{n} of {fill}");
        }
    }
}

#[test]
fn every_fill() {
    let mut random = Random::for_test(61);
    for fill in 0..=255 {
        for n in LENGTHS {
            let h = random.block();
            assert_eq!(sum(&h, fill, n), plain_sum(&h, fill, n), "{n} of {fill}");
        }
    }
}

#[test]
fn some_mebibytes() {
    let mut random = Random::for_test(62);
    for n in [(1 << 20) - 1, 1 << 20, (1 << 20) + 5] {
        let h = random.block();
        assert_eq!(sum(&h, 0xff, n), plain_sum(&h, 0xff, n), "{n}");
    }
}

/// The paper's formula, H·(F·H·G + last block), with G added up one by one.
#[test]
fn the_formula_of_the_paper() {
    let mut random = Random::for_test(63);
    for h in [ZERO, ONE, random.block(), random.block()] {
        for n in 1..=400 {
            let fill = random.some_fill();
            let (before, last) = parts(fill, n);
            let g = (0..before).fold(ZERO, |g, i| add(&g, &power(&h, i.into())));
            let whole = multiply(&multiply(&[fill; 16], &h), &g);
            let expected = multiply(&h, &add(&whole, &last));
            assert_eq!(sum(&h, fill, n), expected, "{n} of {fill}");
        }
    }
}

/// At lengths of which no test has the bytes: the powers of H up to the m-th,
/// but for the first, add up to H^2 (H^(m - 1) + 1) / (H + 1).
#[test]
fn the_closed_form() {
    let mut random = Random::for_test(64);
    for n in long_lengths(&mut random) {
        let (h, fill) = (random.block(), random.some_fill());
        let (before, last) = parts(fill, n);
        let powers = multiply(
            &multiply(&h, &h),
            &multiply(
                &add(&power(&h, before.into()), &ONE),
                &companion(&add(&h, &ONE)),
            ),
        );
        let expected = add(&multiply(&[fill; 16], &powers), &multiply(&last, &h));
        assert_eq!(sum(&h, fill, n), expected, "{n} of {fill}");
    }
}

/// With H one every block weighs one, and two of them are nothing; with H zero
/// none weighs anything.
#[test]
fn one_and_zero_as_h() {
    let mut random = Random::for_test(65);
    for n in long_lengths(&mut random) {
        let fill = random.some_fill();
        let (before, mut expected) = parts(fill, n);
        if before % 2 == 1 {
            expected = add(&expected, &[fill; 16]);
        }
        assert_eq!(sum(&ONE, fill, n), expected, "{n} of {fill}");
        assert_eq!(sum(&ZERO, fill, n), ZERO, "{n} of {fill}");
    }
}

/// Lengths around every power of two up to the limit, and others of any width.
fn long_lengths(random: &mut Random) -> Vec<u64> {
    let around = |i: u32| [-16, -1, 0, 1, 16].map(|d| (1_u64 << i).saturating_add_signed(d));
    let any = (0..300).map(|_| random.some_length());
    let lengths = (0..=61).flat_map(around).chain(any).chain([MAX_BYTES]);
    lengths.filter(|n| (1..=MAX_BYTES).contains(n)).collect()
}

/// Counts by hand: m - 1 is 0, 1, 10, 11, 100 and so on in binary.
#[test]
fn counts_of_few_blocks() {
    let counts = [
        3, 3, 5, 7, 7, 9, 9, 11, 9, 11, 11, 13, 11, 13, 13, 15, 11, 13,
    ];
    for (m, expected) in (1..).zip(counts) {
        for n in 16 * m - 15..=16 * m {
            assert_eq!(count(0xff, n), expected, "{m} blocks, {n} bytes");
            assert_eq!(count(1, n), expected, "{m} blocks, {n} bytes");
        }
    }
}

/// With m - 1 of 57 ones, the most there can be; 2^56; and one less, 56 ones.
#[test]
fn counts_of_many_blocks() {
    assert_eq!(count(0xff, MAX_BYTES), 2 * 56 + 2 * 56 + 3);
    assert_eq!(count(0xff, (1 << 60) + 1), 2 * 56 + 3);
    assert_eq!(count(0xff, 1 << 60), 2 * 55 + 2 * 55 + 3);
}

/// The count as the paper builds G, from the highest digit down: two products
/// to double, two to add one power, and the closing three.
#[test]
fn counts_of_what_is_built() {
    let mut random = Random::for_test(66);
    let few = 1..=16 * 300;
    for n in few.chain(long_lengths(&mut random)) {
        let before = (n - 1) / 16;
        let (mut built, mut products) = (u64::from(before > 0), 0);
        for place in (0..before.checked_ilog2().unwrap_or(0)).rev() {
            (built, products) = (2 * built, products + 2);
            if built < before >> place {
                (built, products) = (built + 1, products + 2);
            }
        }
        assert_eq!(built, before);
        assert_eq!(count(0xff, n), products + 3, "{n}");
    }
}

#[test]
fn no_bytes_and_zero_bytes() {
    let mut random = Random::for_test(67);
    for fill in 0..=255 {
        assert_eq!(sum(&random.block(), fill, 0), ZERO);
        assert_eq!(count(fill, 0), 0);
    }
    for n in long_lengths(&mut random) {
        assert_eq!(sum(&random.block(), 0, n), ZERO);
        assert_eq!(count(0, n), 0);
    }
}

/// The state of a blank file is that of a reader of its bytes.
#[test]
fn a_start_is_a_read_of_the_fill() {
    let mut random = Random::for_test(68);
    for n in LENGTHS {
        for fill in [0, 1, 0xff, random.some_fill()] {
            let (key, arm, last) = (random.block(), random.number() as u32, random.number());
            let read = State::read(&key, arm, last, &vec![fill; n as usize]).unwrap();
            let started = State::start(&key, arm, last, n, fill);
            assert_eq!(started, Ok((read, count(fill, n))), "{n} of {fill}");
        }
    }
}

/// Edits that give or take fill bytes lead from blank files to blank files, at
/// any length.
#[test]
fn edits_of_fill_bytes() {
    let mut random = Random::for_test(69);
    for _ in 0..200 {
        let (key, fill) = (random.block(), random.some_fill());
        let n = 100 + random.some_length().min(MAX_BYTES - 200);
        let l = random.below(80);
        let whole = l / 16 * 16;
        let blank = |n| State::start(&key, 1, 2, n, fill).unwrap().0;
        let bytes = |l: u64| vec![fill; l as usize];
        let edited = |edit: &dyn Fn(&mut State) -> Result<u64, u64>| {
            let mut state = blank(n);
            edit(&mut state).unwrap();
            state
        };
        assert_eq!(edited(&|s| s.append(&bytes(l))), blank(n + l));
        assert_eq!(edited(&|s| s.cut_tail(&bytes(l))), blank(n - l));
        assert_eq!(edited(&|s| s.prepend(&bytes(whole))), blank(n + whole));
        assert_eq!(edited(&|s| s.drop_front(&bytes(whole))), blank(n - whole));
    }
}
