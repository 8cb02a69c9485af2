//! Document 01, "Bench cases", in its order.

use reference::field::{multiply, seek_steps, Block, ONE, ZERO};
use reference::ghash::{ghash, gmac};
use reference::random::Random;
use reference::refusal::MAX_BYTES;
use reference::{Machine, Slip, State, Verdict};

const KEY: [u8; 16] = *b"a key for a test";

/// What files begin with here. Edits of a blank file answer the same whatever
/// the fill is.
const FILLS: [u8; 2] = [0, 0xff];

/// A block whose bytes are zero but for the given ones.
fn block(bytes: &[(usize, u8)]) -> Block {
    let mut block = ZERO;
    for &(place, byte) in bytes {
        block[place] = byte;
    }
    block
}

/// The answers of one edit by the controller and by the machine, both begun
/// with 40 bytes of each fill; they must be the same. The edit is given its old
/// or removed bytes, `named` of them.
fn of_forty(
    named: usize,
    by_state: impl Fn(&mut State, &[u8]) -> Result<u64, u64>,
    by_machine: impl Fn(&mut Machine, &[u8]) -> Result<u64, u64>,
) -> Result<u64, u64> {
    let [answer, other] = FILLS.map(|fill| {
        let (mut state, _) = State::start(&KEY, 7, 0, 40, fill).unwrap();
        let mut machine = Machine::start(&KEY, 7, 0, 40, fill).unwrap();
        let bytes = vec![fill; named];
        let answer = by_state(&mut state, &bytes);
        assert_eq!(by_machine(&mut machine, &bytes), answer);
        assert_eq!(state.n, machine.n());
        assert_eq!(state.s, machine.sum());
        answer
    });
    assert_eq!(answer, other);
    answer
}

fn change_of_forty(p: u64, named: usize, new: &[u8]) -> Result<u64, u64> {
    of_forty(
        named,
        |s, old| s.change(p, old, new),
        |m, old| m.change(p, old, new),
    )
}

fn append_to_forty(bytes: &[u8]) -> Result<u64, u64> {
    of_forty(0, |s, _| s.append(bytes), |m, _| m.append(bytes))
}

fn prepend_to_forty(bytes: &[u8]) -> Result<u64, u64> {
    of_forty(0, |s, _| s.prepend(bytes), |m, _| m.prepend(bytes))
}

fn drop_of_forty(l: usize) -> Result<u64, u64> {
    of_forty(l, State::drop_front, Machine::drop_front)
}

fn cut_of_forty(l: usize) -> Result<u64, u64> {
    of_forty(l, State::cut_tail, Machine::cut_tail)
}

#[test]
fn one_times_any_block() {
    let mut random = Random::for_test(10);
    for _ in 0..1000 {
        let any = random.block();
        assert_eq!(multiply(&ONE, &any), any);
    }
}

#[test]
fn x_times_x_to_the_127() {
    let x = block(&[(0, 0x40)]);
    let x127 = block(&[(15, 0x01)]);
    assert_eq!(multiply(&x, &x127), block(&[(0, 0xe1)]));
    assert_eq!(multiply(&x127, &x), block(&[(0, 0xe1)]));
}

#[test]
fn ghash_of_nothing() {
    let mut random = Random::for_test(11);
    for h in [ZERO, ONE, random.block(), random.block()] {
        assert_eq!(ghash(&h, &[], &[]), ZERO);
    }
}

#[test]
fn ghash_with_one() {
    let expected = block(&[(0, 0x01), (7, 0x08)]);
    assert_eq!(ghash(&ONE, &[0x01], &[]), expected);
}

#[test]
fn ghash_with_x() {
    let x = block(&[(0, 0x40)]);
    let file = block(&[(15, 0x01)]);
    let expected = block(&[(0, 0x70), (1, 0x80), (7, 0x40)]);
    assert_eq!(ghash(&x, &file, &[]), expected);
}

#[test]
fn seek_step_counts() {
    let steps = [0, 1, 2, 5, 255, 256].map(seek_steps);
    assert_eq!(steps, [0, 1, 2, 4, 15, 9]);
}

#[test]
fn change_counts() {
    assert_eq!(change_of_forty(17, 1, &[9]), Ok(3));
    assert_eq!(change_of_forty(15, 2, &[9, 8]), Ok(4));
}

#[test]
fn append_counts() {
    assert_eq!(append_to_forty(&[5; 8]), Ok(2));
    assert_eq!(append_to_forty(&[5; 9]), Ok(4));
}

#[test]
fn prepend_and_drop_front_counts() {
    assert_eq!(prepend_to_forty(&[5; 16]), Ok(5));
    assert_eq!(drop_of_forty(16), Ok(4));
}

#[test]
fn cut_tail_counts() {
    assert_eq!(cut_of_forty(8), Ok(3));
    assert_eq!(cut_of_forty(9), Ok(4));
    assert_eq!(cut_of_forty(40), Ok(7));
}

#[test]
fn slip_beginning() {
    let beginning = [0x20, 0, 0, 0, 0, 0, 0, 0x28, 0, 0, 0, 7];
    for fill in FILLS {
        let mut slip = [0; 36];
        let (mut state, _) = State::start(&KEY, 7, 0, 40, fill).unwrap();
        assert_eq!(state.seal(&mut slip), Ok(()));
        assert_eq!(slip[..12], beginning);
        assert_eq!(slip[12..20], [0, 0, 0, 0, 0, 0, 0, 1]);
        let opened = Slip::open(&slip).unwrap();
        assert_eq!((opened.length, opened.arm, opened.number), (40, 7, 1));
        assert_eq!(opened.tag, gmac(&KEY, &slip[8..20], &[fill; 40]));
        assert_eq!(state.check(&slip), Ok(Verdict::Current));
    }
}

#[test]
fn change_of_no_bytes_at_the_end() {
    assert_eq!(change_of_forty(40, 0, &[]), Ok(0));
    assert_eq!(change_of_forty(41, 0, &[]), Err(3));
}

#[test]
fn prepend_of_15() {
    assert_eq!(prepend_to_forty(&[0; 15]), Err(5));
}

#[test]
fn start_at_the_limit() {
    for (fill, expected) in FILLS.into_iter().zip([0, 227]) {
        assert_eq!(State::start(&KEY, 7, 0, 1 << 61, fill), Err(2));
        assert_eq!(Machine::start(&KEY, 7, 0, 1 << 61, fill), Err(2));
        let (state, count) = State::start(&KEY, 7, 0, MAX_BYTES, fill).unwrap();
        assert_eq!(state.n, (1 << 61) - 1);
        assert_eq!(state.s == ZERO, fill == 0);
        assert_eq!(count, expected);
    }
}

#[test]
fn unequal_pair_past_the_end() {
    assert_eq!(change_of_forty(41, 1, &[0, 0]), Err(4));
    assert_eq!(change_of_forty(u64::MAX, 2, &[0]), Err(4));
    assert_eq!(change_of_forty(u64::MAX, 1, &[0]), Err(3));
}

#[test]
fn last_number_seals_once() {
    let (mut state, _) = State::start(&KEY, 7, u64::MAX - 1, 40, 0xff).unwrap();
    let mut machine = Machine::start(&KEY, 7, u64::MAX - 1, 40, 0xff).unwrap();
    let mut slips = [[0; 36]; 2];
    assert_eq!(state.seal(&mut slips[0]), Ok(()));
    assert_eq!(machine.seal(&mut slips[1]), Ok(()));
    assert_eq!(slips[0], slips[1]);
    assert_eq!(slips[0][12..20], [0xff; 8]);
    let before = (state, machine.clone(), slips);
    assert_eq!(state.seal(&mut slips[0]), Err(6));
    assert_eq!(machine.seal(&mut slips[1]), Err(6));
    assert_eq!((state, machine, slips), before);
}
