//! Document 02, Q-2: what is encrypted comes back, and only under its own tag;
//! the causes and their order; counters that wrap.

use reference::calls::{gcm_decrypt, gcm_encrypt, gcm_refusal};
use reference::field::Block;
use reference::random::Random;
use reference::refusal::{MAX_BYTES, MAX_TEXT_BYTES};
use reference::{aes, gcm, ghash};

/// What a refused call must leave.
const OLD: u8 = 0xaa;

/// Lengths of texts and of associated data, around those of blocks.
const LENGTHS: [usize; 10] = [0, 1, 15, 16, 17, 31, 32, 33, 100, 257];

/// A key, a nonce, associated data and a text.
fn some_message(random: &mut Random, a: usize, text: usize) -> [Vec<u8>; 4] {
    let nonce = 1 + random.below(40) as usize;
    [16, nonce, a, text].map(|length| random.bytes(length))
}

/// The answer to an encryption, the output and the tag.
fn encrypted([key, nonce, a, text]: &[Vec<u8>; 4]) -> (Result<(), u64>, Vec<u8>, Vec<u8>) {
    let (mut out, mut tag) = (vec![OLD; text.len()], vec![OLD; 16]);
    let answer = gcm_encrypt(key, nonce, a, text, &mut out, &mut tag);
    (answer, out, tag)
}

/// The answer to a decryption and the output.
fn decrypted([key, nonce, a, text]: &[Vec<u8>; 4], tag: &[u8]) -> (Result<(), u64>, Vec<u8>) {
    let mut out = vec![OLD; text.len()];
    let answer = gcm_decrypt(key, nonce, a, text, &mut out, tag);
    (answer, out)
}

#[test]
fn what_was_encrypted_comes_back() {
    let mut random = Random::for_test(50);
    for a in LENGTHS {
        for text in LENGTHS {
            let mut message = some_message(&mut random, a, text);
            let (answer, out, tag) = encrypted(&message);
            assert_eq!(answer, Ok(()));
            let plain = std::mem::replace(&mut message[3], out);
            assert_eq!(decrypted(&message, &tag), (Ok(()), plain));
        }
    }
}

/// With any one bit of key, nonce, data, text or tag turned nothing comes.
#[test]
fn one_bit_turned() {
    let mut random = Random::for_test(51);
    for text in [0, 1, 16, 40] {
        let mut message = some_message(&mut random, 20, text);
        let (_, out, tag) = encrypted(&message);
        message[3] = out;
        let arguments = [&message[..], &[tag]].concat();
        for argument in 0..arguments.len() {
            for bit in 0..8 * arguments[argument].len() {
                let mut turned = arguments.clone();
                turned[argument][bit / 8] ^= 0x80 >> (bit % 8);
                let (message, tag) = (turned[..4].try_into().unwrap(), &turned[4]);
                assert_eq!(decrypted(message, tag), (Err(14), vec![OLD; text]));
            }
        }
    }
}

/// GMAC is GCM with no text.
#[test]
fn a_tag_of_no_text_is_gmac() {
    let mut random = Random::for_test(52);
    for a in LENGTHS {
        let message = some_message(&mut random, a, 0);
        let [key, nonce, a, _] = &message;
        let expected = ghash::gmac(&key[..].try_into().unwrap(), nonce, a);
        assert_eq!(encrypted(&message), (Ok(()), vec![], expected.to_vec()));
    }
}

/// The order of the causes, each brought about by one length. Where several
/// are, the first decides.
#[test]
fn the_first_cause_decides() {
    const NUMBERS: [u64; 6] = [1, 9, 7, 7, 2, 13];
    for set in 0_u32..64 {
        let has = |cause: u32| (set >> cause) & 1 == 1;
        let text = if has(5) { MAX_TEXT_BYTES + 1 } else { 40 };
        let lengths = [
            if has(0) { 15 } else { 16 },
            if has(1) { 0 } else { 12 },
            if has(4) { MAX_BYTES + 1 } else { 20 },
            text,
            text - u64::from(has(3)),
            if has(2) { 17 } else { 16 },
        ];
        let first = NUMBERS.get(set.trailing_zeros() as usize);
        let expected = first.map_or(Ok(()), |&number| Err(number));
        assert_eq!(gcm_refusal(lengths), expected, "{lengths:?}");
    }
}

/// Each length at its limit, and past it.
#[test]
fn limits() {
    let text = MAX_TEXT_BYTES;
    assert_eq!(text, 68_719_476_704, "SP 800-38D, 5.2.1.1: 2^39 - 256 bits");
    let cases = [
        ([16, MAX_BYTES, MAX_BYTES, text, text, 16], Ok(())),
        ([16, 1, 0, 0, 0, 16], Ok(())),
        ([16, MAX_BYTES + 1, 0, 0, 0, 16], Err(2)),
        ([16, u64::MAX, 0, text + 1, text + 1, 16], Err(2)),
        ([16, 1, u64::MAX, text + 1, text + 1, 16], Err(2)),
        ([16, 1, 0, text + 1, text + 1, 16], Err(13)),
        ([16, 1, 0, u64::MAX, u64::MAX, 16], Err(13)),
        ([16, 1, 0, u64::MAX, u64::MAX - 1, 16], Err(7)),
        ([16, 1, 0, text + 1, text, 16], Err(7)),
        ([16, 1, 0, text, text + 1, 16], Err(7)),
        ([17, 1, 0, text, text, 16], Err(1)),
    ];
    for (lengths, expected) in cases {
        assert_eq!(gcm_refusal(lengths), expected, "{lengths:?}");
    }
}

/// What is refused for a length keeps output and tag, and a tag that doesn't
/// fit is refused last.
#[test]
fn refused_calls_write_nothing() {
    let mut random = Random::for_test(53);
    let mut refused = 0;
    for key in [0, 15, 16, 17, 32] {
        for nonce in [0, 1, 12] {
            for out in [39, 40, 41] {
                for tag in [0, 15, 16, 17] {
                    let lengths = [key, nonce, 20, 40, out, tag];
                    let by_length = gcm_refusal(lengths.map(|length| length as u64));
                    let [key, nonce, a, text, mut out, mut tag] =
                        lengths.map(|length| random.bytes(length));
                    let before = (out.clone(), tag.clone());
                    let answer = gcm_decrypt(&key, &nonce, &a, &text, &mut out, &tag);
                    assert_eq!(answer, by_length.and(Err(14)), "{lengths:?}");
                    assert_eq!(out, before.0);
                    let answer = gcm_encrypt(&key, &nonce, &a, &text, &mut out, &mut tag);
                    assert_eq!(answer, by_length, "{lengths:?}");
                    assert_eq!((out, tag) == before, answer.is_err());
                    refused += usize::from(answer.is_err());
                }
            }
        }
    }
    assert_eq!(refused, 5 * 3 * 3 * 4 - 2, "two nonces of all are accepted");
}

/// A text whose counters wrap after so many blocks: the counters, written out
/// with the last 32 bits modulo 2^32, and never with a carry into the first 96.
#[test]
fn counters_wrap() {
    const BLOCKS: u32 = 40;
    let mut random = Random::for_test(54);
    for before in 0..BLOCKS {
        for first in [random.block(), [0xff; 16], [0; 16]] {
            let key = random.block();
            let mut j: Block = first;
            j[12..].copy_from_slice(&(u32::MAX - before).to_be_bytes());
            let nonce = gcm::nonce_of(&ghash::hash_key(&key), &j);
            let text = random.bytes(16 * BLOCKS as usize + 5);
            let (out, tag) = gcm::encrypt(&key, &nonce, b"data", &text);
            for (i, (part, out)) in text.chunks(16).zip(out.chunks(16)).enumerate() {
                let mut counter = j;
                let number = (u64::from(u32::MAX - before) + 1 + i as u64) % (1 << 32);
                counter[12..].copy_from_slice(&(number as u32).to_be_bytes());
                let pad = aes::encrypt(&key, &counter);
                let expected: Vec<u8> = part.iter().zip(pad).map(|(a, b)| a ^ b).collect();
                assert_eq!(out, expected, "block {i}, {before} before the wrap");
            }
            let back = gcm::decrypt(&key, &nonce, b"data", &out, &tag);
            assert_eq!(back, Some(text));
        }
    }
}
