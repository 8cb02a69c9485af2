//! Long inputs: what a call does with its first bytes it must do with all.

use armfile::SLIP_BYTES;
use compare::{Call, Case, Lent};

use crate::choose::{output, LONG};
use crate::gcm;
use crate::journals::{replay, singly};

/// Every input of the case's length, one at a time, beside short ones, and a
/// journal of such edits.
pub fn inputs(case: &mut Case) {
    let long = LONG[case.index() as usize];
    hashes(case, long);
    for [nonce, aad, text] in [[12, 20, long], [13, long, 30], [long, 0, 300]] {
        let message = gcm::some_message(case, nonce, aad, text);
        gcm::carried(case, &message);
    }
    let short = case.random.below(100) as usize;
    let lent = read(case, short);
    let bytes = case.random.bytes(long);
    let whole = bytes[..long / 16 * 16].to_vec();
    let edits = [
        Call::Append {
            bytes: bytes.clone(),
        },
        Call::Prepend {
            bytes: whole.clone(),
        },
        Call::Change {
            p: case.random.below(40),
            old: case.random.bytes(long),
            new: bytes.clone(),
        },
        Call::DropFront { bytes: whole },
        Call::CutTail { bytes },
    ];
    let journal: Vec<u8> = edits.iter().flat_map(Call::record).collect();
    let (answer, after) = singly(case, &lent, &edits);
    assert_eq!((answer, after.offset), (0, journal.len() as u64));
    assert!(replay(case, &lent, &journal) == (0, after.clone()));
    sealed_and_checked(case, after);
    let lent = read(case, long);
    sealed_and_checked(case, lent);
}

/// Some MiB, read and hashed: ends inside a block, and at a batch's end.
pub fn file(case: &mut Case) {
    let lent = read(case, (3 << 20) + 7);
    sealed_and_checked(case, lent);
    let ghash = Call::Ghash {
        h: case.random.bytes(16),
        a: case.random.bytes((2 << 20) + 1),
        c: case.random.bytes(1 << 20),
    };
    hash(case, &ghash);
}

/// GHASH with A and with C of this length, and GMAC with a message and with a
/// nonce of it.
fn hashes(case: &mut Case, long: usize) {
    let key = case.random.bytes(16);
    let bytes = case.random.bytes(long);
    let short = case.random.bytes(21);
    for (a, c) in [(&bytes, &short), (&short, &bytes)] {
        let (a, c) = (a.clone(), c.clone());
        let ghash = Call::Ghash {
            h: key.clone(),
            a: a.clone(),
            c: c.clone(),
        };
        let gmac = Call::Gmac {
            key: key.clone(),
            nonce: a,
            a: c,
        };
        for call in [ghash, gmac] {
            hash(case, &call);
        }
    }
}

fn hash(case: &mut Case, call: &Call) {
    let mut lent = Lent::new();
    lent.out = output(&mut case.random, 16);
    assert_eq!(case.call(call, &mut lent), 0);
}

/// The state of a random file of this length.
pub fn read(case: &mut Case, length: usize) -> Lent {
    let call = Call::Read {
        key: case.random.bytes(16),
        arm: 3,
        last: 4,
        file: case.random.bytes(length),
    };
    let mut lent = Lent::new();
    assert_eq!(case.call(&call, &mut lent), 0);
    lent
}

pub fn sealed_and_checked(case: &mut Case, mut lent: Lent) {
    lent.out = output(&mut case.random, SLIP_BYTES);
    assert_eq!(case.call(&Call::Seal, &mut lent), 0);
    let slip = lent.out.clone();
    assert_eq!(case.call(&Call::Check { slip }, &mut lent), 0);
    assert_eq!(lent.verdict, 1, "the slip just sealed is current");
}
