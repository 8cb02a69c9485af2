//! Whole inputs: from 512 bytes on they are hashed by batches of sixteen
//! blocks, against a table of powers of H, and what is left block by block.

use compare::{Call, Case};
use reference::field::power;

use crate::blocks::{hashes, with_output};
use crate::choose::{one_of, plain};
use crate::{gcm, long};

/// Lengths with no batch, around blocks and just below the first two batches.
const BELOW: [usize; 9] = [1, 16, 20, 255, 256, 257, 495, 496, 511];

/// Lengths with batches, and with none to fifteen blocks and bytes left.
const ABOVE: [usize; 11] = [512, 513, 527, 528, 700, 767, 768, 769, 1_000, 1_024, 2_047];

/// Each input of as many bytes as the case's index, beside one that has no
/// batch and one that has.
pub fn every_length(case: &mut Case) {
    let length = case.index() as usize;
    for others in [&BELOW[..], &ABOVE] {
        let other = one_of(&mut case.random, others);
        hashes(case, length, other);
        hashes(case, other, length);
        for [nonce, aad, text] in [[12, length, other], [length.max(1), other, length]] {
            let message = gcm::some_message(case, nonce, aad, text);
            gcm::carried(case, &message);
        }
    }
    let lent = long::read(case, length);
    long::sealed_and_checked(case, lent);
}

/// GHASH of A and C under H.
fn ghash(case: &mut Case, h: &[u8], a: &[u8], c: &[u8]) {
    let [h, a, c] = [h, a, c].map(<[u8]>::to_vec);
    with_output(case, &Call::Ghash { h, a, c }, 16);
}

/// The block of the case's index, of one bit, of zeros or of ones: as H, and
/// at each place of a batch behind a batch of zeros, where its weight is one
/// power of H alone.
pub fn plain_batches(case: &mut Case) {
    let block = plain(case.index() as usize);
    let random = case.random.bytes(768);
    ghash(case, &block, &[0xff; 512], &random);
    for h in [case.random.bytes(16), vec![0xff; 16]] {
        for place in 0..16 {
            let mut bytes = vec![0; 512];
            bytes[256 + 16 * place..][..16].copy_from_slice(&block);
            ghash(case, &h, &bytes, &[]);
        }
    }
}

/// Ones alone under an H of which one power, by the case's index the first,
/// second, fourth, eighth or sixteenth, is ones too. No products have larger
/// digits, from which no carry may come.
pub fn ones(case: &mut Case) {
    let roots = (128 - case.index()) % 128; // ones are their own power 2^128
    let h = power(&[0xff; 16], 1 << roots);
    for n in [512, 527, 768, 1_024] {
        ghash(case, &h, &vec![0xff; n], &vec![0xff; n]);
    }
}
