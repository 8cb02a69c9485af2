//! GCM with tags of 128 bits: SP 800-38D sections 6.2, 6.5 and 7.

use crate::aes;
use crate::field::{add, companion, multiply, Block};
use crate::ghash::{first_counter, hash_key, pair_block, tag};

/// inc32, section 6.2: the last 32 bits plus one, modulo 2^32. The first 96
/// stay.
pub fn next_counter(block: &Block) -> Block {
    let number = u32::from_be_bytes(block[12..].try_into().expect("4 bytes"));
    let mut next = *block;
    next[12..].copy_from_slice(&number.wrapping_add(1).to_be_bytes());
    next
}

/// GCTR, section 6.5: the text plus the encrypted counters from the first on.
/// Of the last one no more is used than there is text.
pub fn counter_mode(key: &[u8; 16], first: &Block, text: &[u8]) -> Vec<u8> {
    let words = aes::schedule(key);
    let mut counter = *first;
    let mut out = Vec::with_capacity(text.len());
    for part in text.chunks(16) {
        let pad = aes::cipher(&words, &counter);
        out.extend(part.iter().zip(pad).map(|(a, b)| a ^ b));
        counter = next_counter(&counter);
    }
    out
}

/// The text plus its key stream, which begins at the counter after J. What is
/// done twice leaves the text.
fn with_key_stream(key: &[u8; 16], nonce: &[u8], text: &[u8]) -> Vec<u8> {
    let j = first_counter(&hash_key(key), nonce);
    counter_mode(key, &next_counter(&j), text)
}

/// Encryption, section 7.1, for a nonce of one byte or more: the ciphertext
/// and its tag.
pub fn encrypt(key: &[u8; 16], nonce: &[u8], a: &[u8], text: &[u8]) -> (Vec<u8>, Block) {
    let ciphertext = with_key_stream(key, nonce, text);
    let tag = tag(key, nonce, a, &ciphertext);
    (ciphertext, tag)
}

/// Decryption, section 7.2: the text, where the tag fits.
pub fn decrypt(
    key: &[u8; 16],
    nonce: &[u8],
    a: &[u8],
    ciphertext: &[u8],
    given: &Block,
) -> Option<Vec<u8>> {
    let fits = tag(key, nonce, a, ciphertext) == *given;
    fits.then(|| with_key_stream(key, nonce, ciphertext))
}

/// The nonce of 16 bytes that becomes this J, for tests that want a certain
/// one. J is (nonce · H + L) · H, with L the nonce's length; so, with H's
/// inverse, the nonce is (J / H + L) / H. H must not be zero.
pub fn nonce_of(h: &Block, j: &Block) -> Block {
    let inverse = companion(h);
    let hashed = add(&multiply(j, &inverse), &pair_block(0, 128));
    multiply(&hashed, &inverse)
}

#[cfg(test)]
mod tests {
    use super::*;
    use crate::random::Random;

    #[test]
    fn the_last_32_bits_count() {
        let cases = [
            (0, 1),
            (0xff, 0x100),
            (0xffff_fffe, 0xffff_ffff),
            (0xffff_ffff, 0),
            (u128::MAX, u128::MAX - 0xffff_ffff),
            (7 << 32 | 0xffff_ffff, 7 << 32),
        ];
        for (before, after) in cases {
            let next = next_counter(&u128::to_be_bytes(before));
            assert_eq!(u128::from_be_bytes(next), after);
        }
    }

    /// Each counter is written out from the first one and its number.
    #[test]
    fn counter_mode_adds_the_encrypted_counters() {
        let mut random = Random::for_test(8);
        for length in 0..100 {
            let (key, first, text) = (random.block(), random.block(), random.bytes(length));
            let from = u32::from_be_bytes(first[12..].try_into().unwrap());
            let expected: Vec<u8> = (0..length)
                .map(|place| {
                    let mut counter = first;
                    let number = from.wrapping_add(place as u32 / 16);
                    counter[12..].copy_from_slice(&number.to_be_bytes());
                    text[place] ^ aes::encrypt(&key, &counter)[place % 16]
                })
                .collect();
            assert_eq!(counter_mode(&key, &first, &text), expected);
        }
    }

    #[test]
    fn nonces_that_become_a_block() {
        let mut random = Random::for_test(9);
        for _ in 0..50 {
            let [h, j] = [random.block(), random.block()];
            assert_eq!(first_counter(&h, &nonce_of(&h, &j)), j);
        }
    }
}
