//! Document 01's formulas hold of any fields, true bytes or not. Here each
//! new sum is worked out over all blocks of the file, most of them zero.

use reference::field::{add, multiply, Block, ONE, ZERO};
use reference::ghash::{blocks_of, ghash, hash_key, pair_block, sum};
use reference::random::Random;
use reference::refusal::MAX_BYTES;
use reference::state::STATE_BYTES;
use reference::{State, Verdict};

/// A state with random fields and a length below `limit`.
fn any_state(random: &mut Random, limit: u64) -> State {
    State {
        key: random.block(),
        h: random.block(),
        i: random.block(),
        s: random.block(),
        n: random.below(limit),
        arm: random.number() as u32,
        last: random.number(),
    }
}

/// The sum of a file of n bytes, the given ones at byte p, all others zero.
fn sum_in_zeros(h: &Block, n: u64, p: u64, given: &[u8]) -> Block {
    let mut file = vec![0; n as usize];
    file[p as usize..p as usize + given.len()].copy_from_slice(given);
    sum(h, &blocks_of(&file))
}

/// The block multiplied k times.
fn multiplied(block: &Block, by: &Block, times: u64) -> Block {
    (0..times).fold(*block, |product, _| multiply(&product, by))
}

fn blocks(n: u64) -> u64 {
    n.div_ceil(16)
}

#[test]
fn change_of_any_state() {
    let mut random = Random::for_test(30);
    for _ in 0..300 {
        let before = any_state(&mut random, 150);
        let p = random.below(before.n + 1);
        let l = random.below(before.n - p + 1) as usize;
        let (old, new) = (random.bytes(l), random.bytes(l));
        let both: Vec<u8> = old.iter().zip(&new).map(|(a, b)| a ^ b).collect();
        let weighted = sum_in_zeros(&before.h, before.n, p, &both);
        let mut after = before;
        after.change(p, &old, &new).unwrap();
        let s = add(&before.s, &weighted);
        assert_eq!(after, State { s, ..before });
    }
}

#[test]
fn append_to_any_state() {
    let mut random = Random::for_test(31);
    for _ in 0..300 {
        let before = any_state(&mut random, 150);
        let l = random.below(60);
        let given = random.bytes(l as usize);
        let n = before.n + l;
        let moved = multiplied(&before.s, &before.h, blocks(n) - blocks(before.n));
        let s = add(&moved, &sum_in_zeros(&before.h, n, before.n, &given));
        let mut after = before;
        after.append(&given).unwrap();
        assert_eq!(after, State { s, n, ..before });
    }
}

#[test]
fn prepend_to_any_state() {
    let mut random = Random::for_test(32);
    for _ in 0..300 {
        let before = any_state(&mut random, 150);
        let l = 16 * random.below(5);
        let given = random.bytes(l as usize);
        let n = before.n + l;
        let s = add(&before.s, &sum_in_zeros(&before.h, n, 0, &given));
        let mut after = before;
        after.prepend(&given).unwrap();
        assert_eq!(after, State { s, n, ..before });
    }
}

#[test]
fn drop_front_of_any_state() {
    let mut random = Random::for_test(33);
    for _ in 0..300 {
        let before = any_state(&mut random, 150);
        let l = 16 * random.below(before.n / 16 + 1);
        let given = random.bytes(l as usize);
        let n = before.n - l;
        let s = add(&before.s, &sum_in_zeros(&before.h, before.n, 0, &given));
        let mut after = before;
        after.drop_front(&given).unwrap();
        assert_eq!(after, State { s, n, ..before });
    }
}

#[test]
fn cut_tail_of_any_state() {
    let mut random = Random::for_test(34);
    for _ in 0..300 {
        let before = any_state(&mut random, 150);
        let l = random.below(before.n + 1);
        let given = random.bytes(l as usize);
        let n = before.n - l;
        let whole = add(&before.s, &sum_in_zeros(&before.h, before.n, n, &given));
        let mut s = multiplied(&whole, &before.i, blocks(before.n) - blocks(n));
        if l == 0 {
            s = before.s;
        }
        let mut after = before;
        after.cut_tail(&given).unwrap();
        assert_eq!(after, State { s, n, ..before });
    }
}

/// An edit and its opposite: the sum comes back at lengths near the limit,
/// and the counts stay within q + 2b.
#[test]
fn opposite_edits_near_the_limit() {
    let mut random = Random::for_test(35);
    for _ in 0..100 {
        let n = MAX_BYTES - 200 - random.below(1000);
        let fill = random.some_fill();
        let (start, _) = State::start(&random.block(), 1, 2, n, fill).unwrap();
        let mut state = start;
        let bytes = random.bytes(48);
        let within = |count: u64| assert!(count <= 4 + 2 * 58);

        within(state.append(&bytes).unwrap());
        within(state.cut_tail(&bytes).unwrap());
        assert_eq!(state, start);
        within(state.prepend(&bytes).unwrap());
        within(state.drop_front(&bytes).unwrap());
        assert_eq!(state, start);
        let p = random.below(n - 48);
        within(state.change(p, &[fill; 48], &bytes).unwrap());
        within(state.change(p, &bytes, &[fill; 48]).unwrap());
        assert_eq!(state, start);
    }
}

/// A change at byte p of a file near the limit weighs the blocks after it:
/// the same as a prepend of those bytes to the blocks after them.
#[test]
fn change_weighs_the_blocks_after_it() {
    let mut random = Random::for_test(36);
    for _ in 0..100 {
        let key = random.block();
        let n = MAX_BYTES - random.below(100);
        let p = 16 * random.below(n / 16 - 1);
        let bytes = random.bytes(16);
        let zeros = |n| State::start(&key, 1, 2, n, 0).unwrap().0;
        let mut changed = zeros(n);
        let count = changed.change(p, &[0; 16], &bytes);
        let mut prepended = zeros(n - p - 16);
        assert_eq!(prepended.prepend(&bytes), count);
        assert_eq!(changed.s, prepended.s);
    }
}

/// With H zero nothing is refused: sums are zero and a zero power is one.
#[test]
fn a_zero_hash_key() {
    let mut state = State {
        s: [7; 16],
        n: 40,
        ..State::default()
    };
    assert_eq!(state.append(&[1; 8]), Ok(2));
    assert_eq!(state.s, [7; 16], "k is 0");
    assert_eq!(state.append(&[1; 1]), Ok(3));
    assert_eq!(state.s, ZERO, "k is 1");
    assert_eq!(state.cut_tail(&[1; 1]), Ok(3));
    assert_eq!((state.s, state.n), (ZERO, 48));
}

/// Seal and check of any fields: (S + L) times H, plus AES(key, J). The last
/// used number has no part in it, and decides between the three verdicts.
#[test]
fn tags_of_any_state() {
    let mut random = Random::for_test(37);
    for _ in 0..300 {
        let before = any_state(&mut random, MAX_BYTES + 1);
        let mut state = before;
        let mut slip = [0; 36];
        state.seal(&mut slip).unwrap();
        let last = before.last + 1;
        assert_eq!(state, State { last, ..before });
        let mut counter = ZERO;
        counter[..12].copy_from_slice(&slip[8..20]);
        counter[15] = 1;
        let sum = add(&before.s, &pair_block(8 * before.n, 0));
        let mask = reference::aes::encrypt(&before.key, &counter);
        let tag = add(&multiply(&sum, &before.h), &mask);
        assert_eq!(slip[20..], tag);
        assert_eq!(state.check(&slip), Ok(Verdict::Current));
        assert_eq!(before.check(&slip), Ok(Verdict::Ahead));
        state.last = u64::MAX - random.below(u64::MAX - last);
        assert_eq!(state.check(&slip), Ok(Verdict::Stale));
    }
}

/// A state read from a file: H, I and S by their definitions.
#[test]
fn read_fields() {
    let mut random = Random::for_test(38);
    for n in 0..100 {
        let key = random.block();
        let file = random.bytes(n);
        let state = State::read(&key, 5, 6, &file).unwrap();
        assert_eq!(state.h, hash_key(&key));
        assert_eq!(multiply(&state.h, &state.i), ONE);
        let hash = multiply(&add(&state.s, &pair_block(8 * n as u64, 0)), &state.h);
        assert_eq!(hash, ghash(&state.h, &file, &[]));
        assert_eq!((state.n, state.arm, state.last), (n as u64, 5, 6));
    }
}

#[test]
fn state_bytes_go_both_ways() {
    let mut random = Random::for_test(39);
    for _ in 0..300 {
        let bytes: [u8; STATE_BYTES] = random.bytes(STATE_BYTES).try_into().unwrap();
        let state = State::from_state_bytes(&bytes);
        assert_eq!(state.state_bytes(), bytes);
        assert_eq!(state.key, bytes[..16]);
        assert_eq!(state.h, bytes[16..32]);
        assert_eq!(state.i, bytes[32..48]);
        assert_eq!(state.s, bytes[48..64]);
        assert_eq!(state.n.to_be_bytes(), bytes[64..72]);
        assert_eq!(state.arm.to_be_bytes(), bytes[72..76]);
        assert_eq!(state.last.to_be_bytes(), bytes[76..]);
    }
}
