//! Inputs of more bytes than 24 bits count. They are zero but for their first
//! and their last block, so that the second implementation needs two powers of
//! H in place of all the products.

#![forbid(unsafe_code)]

use armfile::Refusal::JournalLength;
use armfile::{ffi, Forecast, Part, Replayed, State};
use reference::field::{add, multiply, power, seek_steps, Block, ZERO};
use reference::ghash::{block_count, blocks_of, hash_key, pair_block};
use reference::journal::Edit;
use reference::random::Random;
use reference::{aes, gcm, join, state};

/// Bytes that are zero but for the first block and the last, which is short.
fn sparse(random: &mut Random, n: usize) -> Vec<u8> {
    let mut bytes = vec![0; n];
    bytes[..16].copy_from_slice(&random.block());
    bytes[n / 16 * 16..].fill_with(|| random.number() as u8);
    bytes
}

/// The sum of such bytes, or of none: the first block weighs H^m, the last H.
fn sum(h: &Block, bytes: &[u8]) -> Block {
    if bytes.is_empty() {
        return ZERO;
    }
    let first = blocks_of(&bytes[..16])[0];
    let last = blocks_of(&bytes[bytes.len() / 16 * 16..])[0];
    let m = block_count(bytes.len() as u64);
    let weighed = multiply(&first, &power(h, m.into()));
    add(&weighed, &multiply(&last, h))
}

/// GHASH of such A and C: A's sum weighs H to the number of C's blocks.
fn hash(h: &Block, a: &[u8], c: &[u8]) -> Block {
    let [a_length, c_length] = [a, c].map(|bytes| bytes.len() as u64);
    let weighed = multiply(&sum(h, a), &power(h, block_count(c_length).into()));
    let lengths = pair_block(8 * a_length, 8 * c_length);
    multiply(&add(&add(&weighed, &sum(h, c)), &lengths), h)
}

/// Each input of this length in turn.
fn counted(n: usize) {
    let mut random = Random::for_test(11);
    let bytes = sparse(&mut random, n);
    let (key, mut out) = (random.block(), [0; 16]);
    armfile::ghash(&key, &bytes, &[], &mut out).expect("a hash");
    assert_eq!(out, hash(&key, &bytes, &[]), "A");
    armfile::ghash(&key, &[], &bytes, &mut out).expect("a hash");
    assert_eq!(out, hash(&key, &[], &bytes), "C");

    let h = hash_key(&key);
    let mut first_counter = *b"a short one.\0\0\0\x01";
    armfile::gmac(&key, &first_counter[..12], &bytes, &mut out).expect("a tag");
    let mask = aes::encrypt(&key, &first_counter);
    assert_eq!(out, add(&hash(&h, &bytes, &[]), &mask), "a message");
    carried(&key, &first_counter, &bytes);
    armfile::gmac(&key, &bytes, &[], &mut out).expect("a tag");
    first_counter = hash(&h, &[], &bytes);
    assert_eq!(out, aes::encrypt(&key, &first_counter), "a nonce");

    let read = State::read(&key, 5, 6, &bytes).expect("a state");
    let expected = state::State {
        s: sum(&h, &bytes),
        n: n as u64,
        ..state::State::read(&key, 5, 6, &[]).expect("a state")
    };
    assert_eq!(read.as_bytes(), &expected.state_bytes(), "a file");
    replayed(&key, &bytes, &expected);
    joined(&mut random, n / 16);
}

/// Such bytes as associated data and as ciphertext, under a nonce of 12 bytes:
/// decrypted, and encrypted again.
fn carried(key: &Block, first_counter: &Block, bytes: &[u8]) {
    let nonce = &first_counter[..12];
    let mask = aes::encrypt(key, first_counter);
    let expected = add(&hash(&hash_key(key), bytes, bytes), &mask);
    let mut plain = vec![0; bytes.len()];
    armfile::gcm_decrypt(key, nonce, bytes, bytes, &mut plain, &expected).expect("a text");
    let text = gcm::counter_mode(key, &gcm::next_counter(first_counter), bytes);
    assert!(plain == text, "a text");
    let (mut again, mut tag) = (vec![0; bytes.len()], [0; 16]);
    armfile::gcm_encrypt(key, nonce, bytes, &plain, &mut again, &mut tag).expect("a text");
    assert!(again == bytes, "a ciphertext");
    assert_eq!(tag, expected, "a ciphertext's tag");
}

/// A journal that appends such bytes to an empty file and has one byte more, and
/// its forecast, by document 01's q + 2b.
fn replayed(key: &[u8], bytes: &[u8], expected: &state::State) {
    let mut journal = Edit::Append(bytes.to_vec()).pack();
    journal.push(0);
    let (mut held, _) = State::start(key, 5, 6, 0, 0xff).expect("a state");
    let m = block_count(expected.n);
    let outcome = Replayed {
        count: m + seek_steps(m) + 1,
        offset: 12 + expected.n,
        refusal: Some(JournalLength),
    };
    let told = Forecast {
        bound: m + 2 * u64::from(u64::BITS - m.leading_zeros()),
        greatest: expected.n,
        offset: outcome.offset,
        refusal: outcome.refusal,
    };
    assert_eq!(held.forecast(&journal), told);
    assert_eq!(held.replay(&journal), outcome);
    assert_eq!(held.as_bytes(), &expected.state_bytes(), "a journal");
}

/// So many parts of one block each, their sums zero but for the first and the
/// last; and their whole, in which the first weighs H to all blocks after it.
fn sparse_parts(random: &mut Random, h: &Block, count: usize) -> (Vec<Part>, Part) {
    let mut parts = vec![(ZERO, 16); count];
    let [first, last] = [random.block(), random.block()];
    (parts[0].0, parts[count - 1].0) = (first, last);
    let weighed = multiply(&first, &power(h, count as u128 - 1));
    (parts, (add(&weighed, &last), 16 * count as u64))
}

/// So many parts, all at once and as the wrapper joins them.
fn joined(random: &mut Random, count: usize) {
    let h = random.block();
    let (parts, whole) = sparse_parts(random, &h, count);
    let (sums, lengths) = join::lists(&parts);
    let (mut sum, mut n) = (ZERO, 0);
    assert_eq!(ffi::join(&h, &sums, &lengths, &mut sum, &mut n), 0);
    assert_eq!((sum, n), whole, "all parts at once");
    assert_eq!(armfile::join(&h, &parts), Ok(whole), "parts in groups");
}

/// What is counted here in two powers is what the second implementation counts.
#[test]
fn short_inputs() {
    let mut random = Random::for_test(12);
    for n in [17, 31, 33, 4097] {
        let (h, bytes) = (random.block(), sparse(&mut random, n));
        let more = sparse(&mut random, n + 30);
        for (a, c) in [(&bytes[..], &[][..]), (&[], &bytes), (&bytes, &more)] {
            assert_eq!(hash(&h, a, c), reference::ghash::ghash(&h, a, c));
        }
        let (parts, whole) = sparse_parts(&mut random, &h, n);
        let (sums, lengths) = join::lists(&parts);
        assert_eq!(join::join(&h, &sums, &lengths), Ok(whole));
    }
    counted(4097);
}

#[test]
fn more_than_2_24_bytes() {
    counted((1 << 24) + 21);
}
