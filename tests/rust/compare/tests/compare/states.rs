//! Start, read, and every call but replay on states of arbitrary bytes.

use armfile::{MAX_BYTES, STATE_BYTES};
use compare::{Call, Case, Lent};
use reference::State;

use crate::choose::{
    block, numbers_around, one_of, output, ARMS, FILE_LENGTHS, LENGTHS, NUMBERS, SIZES,
};
use crate::slips::{by_number, expect};

/// A state of random bytes, to be overwritten or to be left.
fn random_lent(case: &mut Case) -> Lent {
    let mut lent = Lent::new();
    let bytes = case.random.bytes(STATE_BYTES);
    lent.state = bytes.try_into().expect("84 bytes");
    lent
}

/// Keys of the case's size, with arms, numbers and lengths at their ends, and
/// with several fills.
pub fn start(case: &mut Case) {
    let size = SIZES[case.index() as usize];
    for arm in ARMS {
        for last in NUMBERS {
            for n in FILE_LENGTHS {
                for fill in [0, 0xff, case.random.some_fill()] {
                    let mut lent = random_lent(case);
                    let call = Call::Start {
                        key: case.random.bytes(size),
                        arm,
                        last,
                        n,
                        fill,
                    };
                    case.call(&call, &mut lent);
                }
            }
        }
    }
}

/// Files of the case's length, with keys of each size.
pub fn read(case: &mut Case) {
    let length = LENGTHS[case.index() as usize];
    for size in SIZES.iter().chain(&[16; 10]) {
        let mut lent = random_lent(case);
        let call = Call::Read {
            key: case.random.bytes(*size),
            arm: one_of(&mut case.random, &ARMS),
            last: one_of(&mut case.random, &NUMBERS),
            file: case.random.bytes(length),
        };
        case.call(&call, &mut lent);
    }
}

/// A state whose fields belong to no file: any key, H, I and S, H zero among
/// them, and lengths and numbers past their ends.
pub fn arbitrary_state(case: &mut Case) -> State {
    let random = &mut case.random;
    let mut state = State {
        key: random.block(),
        h: block(random).try_into().expect("16 bytes"),
        i: block(random).try_into().expect("16 bytes"),
        s: block(random).try_into().expect("16 bytes"),
        n: random.number(),
        arm: random.number() as u32,
        last: random.number(),
    };
    match random.below(6) {
        0 => state.n = random.below(100),
        1 => state.n = random.number() >> 3,
        2 => state.n = MAX_BYTES - random.below(70),
        3 => state.n = one_of(random, &FILE_LENGTHS),
        4 => state.n = random.below(10_000),
        _ => {}
    }
    if random.once_in(4) {
        state.last = one_of(random, &NUMBERS);
    }
    state
}

/// Every call but replay once on one arbitrary state.
pub fn arbitrary(case: &mut Case) {
    let state = arbitrary_state(case);
    let mut lent = Lent::new();
    lent.state = state.state_bytes();
    if case.random.once_in(20) {
        let byte = one_of(&mut case.random, &[0x00, 0x80, 0xff]);
        lent.state = [byte; STATE_BYTES];
    }
    let n = lent.fields().n;
    let random = &mut case.random;
    let p = match random.below(4) {
        0 => n,
        1 => n.saturating_sub(random.below(40)),
        2 => random.number(),
        _ => random.below(n.max(1)),
    };
    let old = random.some_bytes(40);
    let length = old.len() + usize::from(random.once_in(8));
    let new = random.bytes(length);
    let slip_size = if random.once_in(8) { 35 } else { 36 };
    let calls = [
        Call::Change { p, old, new },
        Call::Append {
            bytes: random.some_bytes(70),
        },
        Call::Prepend {
            bytes: random.some_blocks(),
        },
        Call::DropFront {
            bytes: random.some_blocks(),
        },
        Call::CutTail {
            bytes: random.some_bytes(70),
        },
        Call::Seal,
        Call::Check {
            slip: random.bytes(36),
        },
    ];
    let mut slip = Vec::new();
    for call in calls {
        let mut after = lent.clone();
        after.out = output(&mut case.random, slip_size);
        let answer = case.call(&call, &mut after);
        if matches!(call, Call::Seal) && answer == 0 {
            slip = after.out;
        }
    }
    if !slip.is_empty() {
        genuine_to_its_state(case, &lent, &slip);
    }
}

/// The slip that an arbitrary state sealed is genuine to that state, whatever
/// its last used number is.
fn genuine_to_its_state(case: &mut Case, lent: &Lent, slip: &[u8]) {
    let before = lent.fields().last;
    let number = before + 1;
    let any = one_of(&mut case.random, &numbers_around(number));
    for last in [before, number, any] {
        let mut lent = lent.clone();
        lent.state[76..].copy_from_slice(&last.to_be_bytes());
        expect(case, &lent, slip, Ok(by_number(number, last)));
    }
}
