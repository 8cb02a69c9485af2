//! Blank files, document 02, Q-4: their state and count, and that the state is
//! that of their bytes.

use armfile::MAX_BYTES;
use compare::{Call, Case, Lent};

use crate::long::sealed_and_checked;

/// Byte lengths of some MiB, inside blocks and at their ends.
const MEBIBYTES: [u64; 9] = [
    (1 << 20) - 1,
    1 << 20,
    (1 << 20) + 1,
    (1 << 20) + 16,
    (3 << 20) - 16,
    (3 << 20) + 5,
    (1 << 24) - 21,
    1 << 24,
    (1 << 24) + 17,
];

/// What start leaves of a blank file.
fn started(case: &mut Case, key: &[u8], n: u64, fill: u8) -> Lent {
    let call = Call::Start {
        key: key.to_vec(),
        arm: 3,
        last: 4,
        n,
        fill,
    };
    let mut lent = Lent::new();
    assert_eq!(case.call(&call, &mut lent), 0);
    lent
}

/// Starts a blank file, and holds its state to the one that the library reads
/// of its bytes, which may be too many for the second implementation.
fn as_read(case: &mut Case, n: u64, fill: u8) {
    let key = case.random.bytes(16);
    let lent = started(case, &key, n, fill);
    let file = vec![fill; n as usize];
    let read = armfile::State::read(&key, 3, 4, &file).expect("a file");
    assert!(read.as_bytes() == &lent.state, "another state is read");
}

/// Files of as many bytes as the case's index.
pub fn every_length(case: &mut Case) {
    for fill in [0xff, case.random.some_fill()] {
        as_read(case, case.index(), fill);
    }
}

/// The case's index is the fill.
pub fn every_fill(case: &mut Case) {
    let fill = case.index() as u8;
    for n in [1, 16, 17, 40, 257, 1_025] {
        as_read(case, n, fill);
    }
    let (key, n) = (case.random.bytes(16), case.random.some_length());
    started(case, &key, n, fill);
}

pub fn some_mebibytes(case: &mut Case) {
    let n = MEBIBYTES[case.index() as usize];
    for fill in [0xff, case.random.some_fill()] {
        as_read(case, n, fill);
    }
}

/// Lengths around the power of two of the case's index, up to the limit.
pub fn powers_of_two(case: &mut Case) {
    let power = 2_u64 << case.index();
    for away in [-17, -16, -15, -1, 0, 1, 15, 16, 17] {
        let n = power.saturating_add_signed(away).min(MAX_BYTES);
        for fill in [0xff, case.random.some_fill()] {
            let key = case.random.bytes(16);
            started(case, &key, n, fill);
        }
    }
}

/// Edits that give or take fill bytes lead from blank files to blank files, also
/// where they are too long to be read.
pub fn any_length(case: &mut Case) {
    let random = &mut case.random;
    let (key, fill) = (random.bytes(16), random.some_fill());
    let n = 100 + random.some_length().min(MAX_BYTES - 200);
    let l = random.below(80) as usize;
    let [bytes, blocks] = [l, l / 16 * 16].map(|l| vec![fill; l]);
    let begun = started(case, &key, n, fill);
    for edit in [
        Call::Append {
            bytes: bytes.clone(),
        },
        Call::CutTail { bytes },
        Call::Prepend {
            bytes: blocks.clone(),
        },
        Call::DropFront { bytes: blocks },
    ] {
        let mut edited = begun.clone();
        assert_eq!(case.call(&edit, &mut edited), 0);
        let other = started(case, &key, edited.fields().n, fill);
        assert!(edited.state == other.state, "{edit} leaves no blank file");
    }
    sealed_and_checked(case, begun);
}
