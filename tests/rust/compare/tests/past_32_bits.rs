//! Inputs of more bytes than 32 bits count, beside the second implementation,
//! which takes every byte of them: a file that is read, a journal and a text to
//! decrypt; and the sums of a join, of which it takes those that are not zero.
//! They end at a page that may not be touched. By hand, in some minutes and with
//! 12 GiB of memory:
//!
//!     cargo test --release --offline --manifest-path tests/rust/Cargo.toml \
//!         -p compare --test past_32_bits -- --ignored --nocapture --test-threads 1

#![forbid(unsafe_code)]

use std::time::Instant;

use compare::edge::Edge;
use reference::journal::{Head, APPEND, CHANGE, CUT_TAIL, DROP_FRONT, HEAD_BYTES, PREPEND};
use reference::random::Random;
use reference::{forecast, gcm, ghash, join, State};

/// More bytes than 32 bits count, and no whole number of blocks.
const LONG: usize = (1 << 32) + 1_021;

/// Fills a long slice, eight bytes at a time.
fn fill(random: &mut Random, bytes: &mut [u8]) {
    for chunk in bytes.chunks_mut(8) {
        chunk.copy_from_slice(&random.number().to_le_bytes()[..chunk.len()]);
    }
}

/// What a step answers, and a line on how long it took.
fn timed<T>(step: &str, work: impl FnOnce() -> T) -> T {
    let begin = Instant::now();
    let answer = work();
    println!("{step}: {:.1} s", begin.elapsed().as_secs_f64());
    answer
}

/// A file of n bytes, read.
fn read(n: usize) {
    let (mut random, mut edge) = (Random::for_test(41), Edge::new(n));
    let (key, file) = (random.block(), edge.last(n));
    fill(&mut random, file);
    let held = timed("read by the library", || {
        armfile::State::read(&key, 5, 6, file).expect("a state")
    });
    let expected = timed("read by the second implementation", || {
        State::read(&key, 5, 6, file).expect("a state")
    });
    assert_eq!(held.as_bytes(), &expected.state_bytes());
}

/// The heads of a journal's records, most of whose bytes are in the first three.
/// Those have n and some more, so that what follows stands past n. The last one,
/// of no whole block, is refused.
fn heads(n: u64) -> [Head; 8] {
    let quarter = n / 4;
    [
        (APPEND, 0, quarter + 5),
        (CHANGE, 3, quarter),
        (PREPEND, 0, quarter.next_multiple_of(16)),
        (CUT_TAIL, 0, 1_000),
        (CHANGE, quarter, 777),
        (DROP_FRONT, 0, 160),
        (APPEND, 0, 5),
        (PREPEND, 0, 5),
    ]
    .map(|(kind, p, l)| Head { kind, p, l })
}

/// A journal of n bytes and more, forecast and replayed.
fn replay(n: u64) {
    let lengths = heads(n).map(|head| HEAD_BYTES + head.body() as usize);
    let length = lengths.iter().sum();
    let (mut random, mut edge) = (Random::for_test(42), Edge::new(length));
    let (key, journal) = (random.block(), edge.last(length));
    fill(&mut random, journal);
    let mut at = 0;
    for (head, length) in heads(n).iter().zip(lengths) {
        journal[at..at + HEAD_BYTES].copy_from_slice(&head.pack());
        at += length;
    }
    let (mut held, _) = armfile::State::start(&key, 5, 6, 40, 0xff).expect("a state");
    let mut expected = State::from_state_bytes(held.as_bytes());
    let (told, foretold) = (held.forecast(journal), forecast::forecast(40, journal));
    let by_library = timed("replayed by the library", || held.replay(journal));
    let replayed = timed("replayed by the second implementation", || {
        expected.replay(journal)
    });
    let number = by_library.refusal.map(armfile::Refusal::number);
    assert_eq!(
        (by_library.count, by_library.offset, number),
        (replayed.count, replayed.offset, replayed.refusal)
    );
    assert_eq!(held.as_bytes(), &expected.state_bytes());
    assert_eq!(number, Some(5));
    assert!(by_library.offset > n);
    let stop = (by_library.offset, by_library.refusal);
    assert_eq!((told.offset, told.refusal), stop);
    let bounds = (foretold.bound, foretold.greatest);
    assert_eq!((told.bound, told.greatest), bounds);
    assert!(by_library.count <= told.bound);
}

/// A text of n bytes, decrypted; under a wrong tag it isn't.
fn decrypt(n: usize) {
    let (mut random, [mut edge, mut other]) =
        (Random::for_test(43), [(); 2].map(|()| Edge::new(n)));
    let (key, nonce, aad) = (random.block(), random.bytes(12), random.bytes(33));
    let (text, out) = (edge.last(n), other.last(n));
    fill(&mut random, text);
    let tag = timed("tag by the second implementation", || {
        ghash::tag(&key, &nonce, &aad, text)
    });
    let wrong = tag.map(|byte| byte ^ 1);
    let refused = armfile::gcm_decrypt(&key, &nonce, &aad, text, out, &wrong);
    assert_eq!(refused, Err(armfile::Refusal::WrongTag));
    assert!(
        out.iter().all(|&byte| byte == 0),
        "written under a wrong tag"
    );
    timed("decrypted by the library", || {
        armfile::gcm_decrypt(&key, &nonce, &aad, text, out, &tag).expect("a text")
    });
    let first = ghash::first_counter(&ghash::hash_key(&key), &nonce);
    let plain = timed("decrypted by the second implementation", || {
        gcm::counter_mode(&key, &gcm::next_counter(&first), text)
    });
    assert!(out == plain, "another text");
}

/// A join of n bytes of sums. All but three parts have no bytes and a sum of
/// zero, and weigh nothing: without them the whole is the same.
fn join(n: usize) {
    let count = n / 16;
    let (mut random, mut edge) = (Random::for_test(44), Edge::new(n));
    let (h, sums) = (random.block(), edge.last(16 * count));
    let mut lengths = vec![0; count];
    let (mut few_sums, mut few_lengths) = (Vec::new(), Vec::new());
    for place in [0, count - 60, count - 1] {
        let (sum, length) = (random.block(), 16 * random.below(1 << 50));
        sums[16 * place..][..16].copy_from_slice(&sum);
        lengths[place] = length;
        few_sums.extend(sum);
        few_lengths.push(length);
    }
    let mut whole = ([0; 16], 0);
    let answer = timed("joined by the library", || {
        armfile::ffi::join(&h, sums, &lengths, &mut whole.0, &mut whole.1)
    });
    assert_eq!(answer, 0);
    assert_eq!(join::join(&h, &few_sums, &few_lengths), Ok(whole));
}

/// What is done by hand below is done here with less.
#[test]
fn short_inputs() {
    for n in [0, 16, 4_093, 100_003] {
        read(n);
        decrypt(n);
    }
    replay(20_000);
    join(100_003);
}

#[test]
#[ignore = "takes a minute and 8 GiB of memory"]
fn a_file_of_more_than_2_32_bytes() {
    read(LONG);
}

#[test]
#[ignore = "takes a minute and 9 GiB of memory"]
fn a_journal_of_more_than_2_32_bytes() {
    replay(LONG as u64);
}

#[test]
#[ignore = "takes minutes and 12 GiB of memory"]
fn a_text_of_more_than_2_32_bytes() {
    decrypt(LONG);
}

#[test]
#[ignore = "takes half a minute"]
fn sums_of_more_than_2_32_bytes() {
    join(LONG);
}
