//! The five edits, one at a time.

use armfile::MAX_BYTES;
use compare::{Call, Case, Lent};
use reference::random::{copy_front, copy_tail};
use reference::{Machine, State};

use crate::choose::LENGTHS;

/// Every edit of up to 40 bytes on a file of as many bytes as the case's
/// index, with true bytes: the sum afterwards is that of the machine's bytes,
/// and the answers are the machine's.
pub fn every_small_edit(case: &mut Case) {
    let n = case.index() as usize;
    let (lent, machine) = read_file(case, n);
    for l in 0..=40 {
        for call in true_edits(case, &machine.bytes, l) {
            by_both(case, &call, &lent, &machine);
        }
        let new = case.random.bytes(l);
        for p in 0..=n + 1 {
            let mut old = case.random.bytes(l);
            copy_front(&machine.bytes[p.min(n)..], &mut old);
            let call = Call::Change {
                p: p as u64,
                old,
                new: new.clone(),
            };
            by_both(case, &call, &lent, &machine);
        }
    }
}

/// The state and the machine of a random file of n bytes.
pub fn read_file(case: &mut Case, n: usize) -> (Lent, Machine) {
    let key = case.random.bytes(16);
    let file = case.random.bytes(n);
    let machine = Machine::read(&key, 3, 4, &file).expect("a file");
    let mut lent = Lent::new();
    let call = Call::Read {
        key,
        arm: 3,
        last: 4,
        file,
    };
    assert_eq!(case.call(&call, &mut lent), 0);
    (lent, machine)
}

/// The state of a blank file of n bytes.
pub fn blank_file(case: &mut Case, n: u64) -> Lent {
    let mut lent = Lent::new();
    let start = Call::Start {
        key: case.random.bytes(16),
        arm: 3,
        last: 4,
        n,
        fill: case.random.some_fill(),
    };
    assert_eq!(case.call(&start, &mut lent), 0);
    lent
}

/// The edits at the ends with l bytes, true ones where they are removed.
pub fn true_edits(case: &mut Case, file: &[u8], l: usize) -> [Call; 4] {
    let given = case.random.bytes(l);
    let [mut front, mut tail] = [given.clone(), given.clone()];
    copy_front(file, &mut front);
    copy_tail(file, &mut tail);
    [
        Call::Append {
            bytes: given.clone(),
        },
        Call::Prepend { bytes: given },
        Call::DropFront { bytes: front },
        Call::CutTail { bytes: tail },
    ]
}

/// The machine's answer to an edit.
pub fn by_machine(call: &Call, machine: &mut Machine) -> Result<u64, u64> {
    match call {
        Call::Change { p, old, new } => machine.change(*p, old, new),
        Call::Append { bytes } => machine.append(bytes),
        Call::Prepend { bytes } => machine.prepend(bytes),
        Call::DropFront { bytes } => machine.drop_front(bytes),
        Call::CutTail { bytes } => machine.cut_tail(bytes),
        _ => panic!("{call} is no edit"),
    }
}

/// One true edit by the library and by the machine.
fn by_both(case: &mut Case, call: &Call, lent: &Lent, machine: &Machine) {
    let mut lent = lent.clone();
    let mut machine = machine.clone();
    let before = lent.count;
    let answer = case.call(call, &mut lent);
    match by_machine(call, &mut machine) {
        Ok(count) => assert_eq!((answer, lent.count), (0, count), "the machine's count"),
        Err(number) => assert_eq!(
            (answer, lent.count),
            (number, before),
            "the machine refuses"
        ),
    }
    assert_eq!(lent.fields().n, machine.n(), "the machine's length");
    assert_eq!(lent.fields().s, machine.sum(), "the machine's sum");
}

/// Edits of the case's length on files of each length, true and untrue.
pub fn edge_lengths(case: &mut Case) {
    let l = LENGTHS[case.index() as usize];
    for n in LENGTHS {
        let (lent, machine) = read_file(case, n);
        for call in true_edits(case, &machine.bytes, l) {
            by_both(case, &call, &lent, &machine);
        }
        for call in true_edits(case, &[], l) {
            case.call(&call, &mut lent.clone());
        }
        for p in [0, 1, 15, 16, n / 2, n.saturating_sub(l), n, n + 1] {
            let [mut old, new] = [(); 2].map(|()| case.random.bytes(l));
            let untrue = Call::Change {
                p: p as u64,
                old: old.clone(),
                new: new.clone(),
            };
            case.call(&untrue, &mut lent.clone());
            copy_front(&machine.bytes[p.min(n)..], &mut old);
            let call = Call::Change {
                p: p as u64,
                old,
                new,
            };
            by_both(case, &call, &lent, &machine);
        }
    }
}

/// Edits on files shorter than the limit by the case's index, and longer than
/// it by up to ten bytes.
pub fn near_the_limit(case: &mut Case) {
    let n = MAX_BYTES + 10 - case.index();
    let state = State {
        n,
        s: case.random.block(),
        ..State::read(&case.random.block(), 7, u64::MAX - 1, &[]).expect("a state")
    };
    let mut lent = Lent::new();
    lent.state = state.state_bytes();
    for l in LENGTHS.into_iter().filter(|&l| l < 100) {
        for call in true_edits(case, &[], l) {
            case.call(&call, &mut lent.clone());
        }
        let near = n - case.random.below(50);
        for p in [0, 17, n / 2, near, n, n + 1, u64::MAX - 3, u64::MAX] {
            let [old, new] = [(); 2].map(|()| case.random.bytes(l));
            case.call(&Call::Change { p, old, new }, &mut lent.clone());
        }
    }
    lent.out = vec![0; 36];
    case.call(&Call::Seal, &mut lent);
    let slip = lent.out.clone();
    case.call(&Call::Check { slip }, &mut lent);
    case.call(&Call::Seal, &mut lent);
}
