//! The calls without a state.

use compare::{Call, Case, Lent};

use crate::choose::{block, one_of, output, plain, LENGTHS, PLAIN, SIZES};

/// x^i times x^j for all j, i the case's index. The product is linear in each
/// factor, so these are all that steps bit by bit can do.
pub fn single_bits(case: &mut Case) {
    for j in 0..128 {
        let call = Call::Multiply {
            a: plain(case.index() as usize),
            b: plain(j),
        };
        with_output(case, &call, 16);
    }
}

/// The first bits of a block ones, as many as the case's index and one more,
/// times the bits of a block from each on ones. What integer multiplications
/// carry depends on how many ones meet.
pub fn runs_of_ones(case: &mut Case) {
    let first = u128::MAX << (127 - case.index());
    for j in 0..128 {
        let [a, b] = [first, u128::MAX >> j].map(|ones| ones.to_be_bytes().to_vec());
        with_output(case, &Call::Multiply { a, b }, 16);
    }
}

/// Blocks of one bit, of zeros and of ones, under the key of the case's index
/// among such blocks.
pub fn plain_blocks(case: &mut Case) {
    for number in 0..PLAIN {
        let call = Call::Encrypt {
            key: plain(case.index() as usize),
            block: plain(number),
        };
        with_output(case, &call, 16);
    }
}

/// Makes a block call, or a hash, with an output of this size.
pub fn with_output(case: &mut Case, call: &Call, size: usize) {
    let mut lent = Lent::new();
    lent.out = output(&mut case.random, size);
    case.call(call, &mut lent);
}

pub fn blocks(case: &mut Case) {
    let [key, a, b] = [(); 3].map(|()| block(&mut case.random));
    let encrypt = Call::Encrypt {
        key,
        block: a.clone(),
    };
    with_output(case, &encrypt, 16);
    with_output(case, &Call::Multiply { a, b }, 16);
}

/// A of the case's length, with C or the nonce of each length.
pub fn edge_lengths(case: &mut Case) {
    let length = LENGTHS[case.index() as usize];
    for other in LENGTHS {
        hashes(case, length, other);
    }
}

pub fn random_lengths(case: &mut Case) {
    let [length, other] = [(); 2].map(|()| {
        let most = one_of(&mut case.random, &[100, 100, 600, 3_000]);
        case.random.below(most) as usize
    });
    hashes(case, length, other);
}

/// GHASH of A and C of these lengths, and GMAC of A under such a nonce.
pub fn hashes(case: &mut Case, a_length: usize, other: usize) {
    let key = block(&mut case.random);
    let a = case.random.bytes(a_length);
    let second = case.random.bytes(other);
    let ghash = Call::Ghash {
        h: key.clone(),
        a: a.clone(),
        c: second.clone(),
    };
    with_output(case, &ghash, 16);
    let nonce = second;
    with_output(case, &Call::Gmac { key, nonce, a }, 16);
}

/// Outputs of the case's size, with keys and blocks or nonces of each size.
pub fn wrong_lengths(case: &mut Case) {
    let size = SIZES[case.index() as usize];
    for first in SIZES {
        for second in SIZES {
            let one = case.random.bytes(first);
            let two = case.random.bytes(second);
            let three = case.random.bytes(20);
            let calls = [
                Call::Encrypt {
                    key: one.clone(),
                    block: two.clone(),
                },
                Call::Multiply {
                    a: one.clone(),
                    b: two.clone(),
                },
                Call::Ghash {
                    h: one.clone(),
                    a: two.clone(),
                    c: three.clone(),
                },
                Call::Gmac {
                    key: one,
                    nonce: two,
                    a: three,
                },
            ];
            for call in calls {
                with_output(case, &call, size);
            }
        }
    }
}
