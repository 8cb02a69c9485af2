//! Document 01, "Causes and their numbers": every cause, the order of the
//! causes, and what stays as before.

use reference::calls;
use reference::field::Block;
use reference::ghash;
use reference::random::Random;
use reference::refusal::MAX_BYTES;
use reference::{Machine, State};

const KEY: [u8; 16] = *b"a key for a test";

/// Lengths around the one that is right for a block, key or tag.
const SIZES: [usize; 6] = [0, 1, 15, 16, 17, 32];

/// Lengths around the limit and at both ends.
const LENGTHS: [u64; 7] = [0, 1, 16, MAX_BYTES - 1, MAX_BYTES, MAX_BYTES + 1, u64::MAX];

/// The number expected when these causes stand in order; 0 for none.
fn first_of(causes: &[(bool, u64)]) -> u64 {
    causes.iter().find(|c| c.0).map_or(0, |c| c.1)
}

/// The refusal number of an answer; 0 for none.
fn number<T>(answer: Result<T, u64>) -> u64 {
    answer.err().unwrap_or(0)
}

#[test]
fn block_calls_refuse_1_then_7() {
    let mut random = Random::for_test(20);
    for first in SIZES {
        for second in SIZES {
            for size in SIZES {
                let a = random.bytes(first);
                let b = random.bytes(second);
                let expected = first_of(&[(first != 16 || second != 16, 1), (size != 16, 7)]);
                let mut out = vec![0xaa; size];
                assert_eq!(number(calls::encrypt(&a, &b, &mut out)), expected);
                assert_eq!(expected != 0, out == vec![0xaa; size]);
                let mut out = vec![0xaa; size];
                assert_eq!(number(calls::multiply(&a, &b, &mut out)), expected);
                assert_eq!(expected != 0, out == vec![0xaa; size]);
            }
        }
    }
}

#[test]
fn ghash_and_gmac_refuse_by_sizes() {
    let mut random = Random::for_test(21);
    for key_size in SIZES {
        for nonce_size in SIZES {
            for size in SIZES {
                let key = random.bytes(key_size);
                let nonce = random.bytes(nonce_size);
                let a = random.bytes(20);
                let (bad_key, bad_out) = ((key_size != 16, 1), (size != 16, 7));

                let expected = first_of(&[bad_key, bad_out]);
                let mut out = vec![0xaa; size];
                assert_eq!(number(calls::ghash(&key, &a, &nonce, &mut out)), expected);
                assert_eq!(expected != 0, out == vec![0xaa; size]);

                let expected = first_of(&[bad_key, (nonce_size == 0, 9), bad_out]);
                let mut out = vec![0xaa; size];
                assert_eq!(number(calls::gmac(&key, &nonce, &a, &mut out)), expected);
                assert_eq!(expected != 0, out == vec![0xaa; size]);
            }
        }
    }
}

/// Lengths past the limit can't be had as slices; the order is tried on the
/// lengths alone.
#[test]
fn long_inputs_are_refused_last() {
    for key in [15, 16, 17] {
        for out in [15, 16, 17] {
            for a in LENGTHS {
                for b in LENGTHS {
                    let long = (a > MAX_BYTES || b > MAX_BYTES, 2);
                    let (bad_key, bad_out) = ((key != 16, 1), (out != 16, 7));
                    let expected = first_of(&[bad_key, bad_out, long]);
                    assert_eq!(number(calls::ghash_refusal(key, a, b, out)), expected);
                    let expected = first_of(&[bad_key, (a == 0, 9), bad_out, long]);
                    assert_eq!(number(calls::gmac_refusal(key, a, b, out)), expected);
                }
            }
        }
    }
}

#[test]
fn accepted_block_calls_write_the_value() {
    let mut random = Random::for_test(22);
    for _ in 0..200 {
        let [key, block]: [Block; 2] = [random.block(), random.block()];
        let length = 1 + random.below(40) as usize;
        let (a, c) = (random.bytes(length), random.bytes(40 - length));
        let mut out = [0; 16];
        calls::encrypt(&key, &block, &mut out).unwrap();
        assert_eq!(out, reference::aes::encrypt(&key, &block));
        calls::multiply(&key, &block, &mut out).unwrap();
        assert_eq!(out, reference::field::multiply(&key, &block));
        calls::ghash(&key, &a, &c, &mut out).unwrap();
        assert_eq!(out, ghash::ghash(&key, &a, &c));
        calls::gmac(&key, &a, &c, &mut out).unwrap();
        assert_eq!(out, ghash::gmac(&key, &a, &c));
    }
}

#[test]
fn start_and_read_refuse_1_then_2() {
    for size in SIZES {
        let key = vec![1; size];
        for n in LENGTHS {
            let expected = first_of(&[(size != 16, 1), (n > MAX_BYTES, 2)]);
            for fill in 0..=255 {
                assert_eq!(number(State::start(&key, 3, 4, n, fill)), expected);
            }
        }
        let expected = first_of(&[(size != 16, 1)]);
        assert_eq!(number(State::read(&key, 3, 4, b"a file")), expected);
        assert_eq!(number(Machine::read(&key, 3, 4, b"a file")), expected);
        assert_eq!(number(Machine::start(&key, 3, 4, 40, 0xff)), expected);
    }
}

/// Every call of a state whose n passes the limit: 2, whatever else is wrong.
#[test]
fn a_state_past_the_limit_is_refused_before_all_else() {
    for n in [MAX_BYTES + 1, MAX_BYTES + 2, u64::MAX] {
        let mut state = State::read(&KEY, 7, u64::MAX, &[]).unwrap();
        state.n = n;
        let before = state;
        for size in [0, 1, 15, 16, 36] {
            let bytes = vec![0; size];
            assert_eq!(state.change(0, &bytes, &bytes), Err(2));
            assert_eq!(state.change(u64::MAX, &bytes, &[0; 3]), Err(2));
            assert_eq!(state.append(&bytes), Err(2));
            assert_eq!(state.prepend(&bytes), Err(2));
            assert_eq!(state.drop_front(&bytes), Err(2));
            assert_eq!(state.cut_tail(&bytes), Err(2));
            assert_eq!(state.check(&bytes), Err(2));
            let mut slip = vec![0xaa; size];
            assert_eq!(state.seal(&mut slip), Err(2));
            assert_eq!(slip, vec![0xaa; size]);
        }
        assert_eq!(state, before);
    }
}

/// All edits on lengths near the limit, with the counts' parts worked out
/// anew in 128 bits.
#[test]
fn edits_near_the_limit() {
    for short in 0..40 {
        let n = MAX_BYTES - short;
        let (state, _) = State::start(&KEY, 7, 0, n, 0xff).unwrap();
        for l in 0..50_u64 {
            let bytes = vec![1; l as usize];
            let grows = n as u128 + l as u128;
            let long = (grows > MAX_BYTES as u128, 2);
            let uneven = (l % 16 != 0, 5);

            let (answer, after) = edited(state, |s| s.append(&bytes));
            assert_eq!(number(answer), first_of(&[long]));
            assert_eq!(after.n as u128, answer.map_or(n as u128, |_| grows));

            let (answer, after) = edited(state, |s| s.prepend(&bytes));
            assert_eq!(number(answer), first_of(&[uneven, long]));
            assert_eq!(after.n as u128, answer.map_or(n as u128, |_| grows));

            let (answer, after) = edited(state, |s| s.drop_front(&bytes));
            assert_eq!(number(answer), first_of(&[uneven]));
            assert_eq!(after.n, answer.map_or(n, |_| n - l));

            let (answer, after) = edited(state, |s| s.cut_tail(&bytes));
            assert_eq!(number(answer), 0);
            assert_eq!(after.n, n - l);

            let p = n - 20;
            let (answer, after) = edited(state, |s| s.change(p, &bytes, &bytes));
            assert_eq!(number(answer), first_of(&[(l > 20, 3)]));
            assert_eq!(after, state, "old and new are the same");
        }
    }
}

/// The answer of an edit and the state after it; a refused edit alters none.
fn edited(
    state: State,
    edit: impl Fn(&mut State) -> Result<u64, u64>,
) -> (Result<u64, u64>, State) {
    let mut after = state;
    let answer = edit(&mut after);
    if answer.is_err() || answer == Ok(0) {
        assert_eq!(after, state);
    }
    (answer, after)
}

/// Prepend 5 before 2, drop-front 5 before 3, seal 7 before 6.
#[test]
fn orders_of_two_causes() {
    let (mut full, _) = State::start(&KEY, 7, u64::MAX, MAX_BYTES, 0xff).unwrap();
    assert_eq!(full.prepend(&[0; 17]), Err(5));
    assert_eq!(full.prepend(&[0; 16]), Err(2));
    assert_eq!(full.append(&[0]), Err(2));
    assert_eq!(full.append(&[]), Ok(0));
    assert_eq!(full.prepend(&[]), Ok(0));
    assert_eq!(full.seal(&mut [0; 35]), Err(7));
    assert_eq!(full.seal(&mut [0; 36]), Err(6));
    let (mut short, _) = State::start(&KEY, 7, 0, 10, 0xff).unwrap();
    assert_eq!(short.drop_front(&[0; 15]), Err(5));
    assert_eq!(short.drop_front(&[0; 16]), Err(3));
    assert_eq!(short.cut_tail(&[0; 11]), Err(3));
    assert_eq!(short.check(&[0; 35]), Err(7));
    assert_eq!(short.check(&[0; 36]), Err(8));
    assert_eq!(short.n, 10);
}
