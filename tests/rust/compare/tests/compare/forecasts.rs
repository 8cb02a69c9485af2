//! Forecasts of journals, document 02, Q-7. What other parts replay is forecast
//! there too.

use armfile::MAX_BYTES;
use compare::Case;
use reference::forecast::Forecast;
use reference::journal::{Head, APPEND, CHANGE, CUT_TAIL, DROP_FRONT, PREPEND};
use reference::random::Random;

use crate::edits::blank_file;
use crate::journals::replay;

/// The kinds of the edits at the ends of a file.
const AT_THE_ENDS: [u64; 4] = [APPEND, PREPEND, DROP_FRONT, CUT_TAIL];

/// A journal of records with these heads and random bytes for their bodies.
fn journal_of(random: &mut Random, heads: &[Head]) -> Vec<u8> {
    let mut journal = Vec::new();
    for head in heads {
        journal.extend(head.pack());
        journal.extend(random.bytes(head.body() as usize));
    }
    journal
}

/// Forecasts one edit of l bytes of each kind for a file of n bytes, with a
/// change at each of these places.
fn single_edits(case: &mut Case, n: u64, l: u64, places: impl Iterator<Item = u64>) {
    let at_the_ends = AT_THE_ENDS.map(|kind| (kind, 0));
    for (kind, p) in at_the_ends.into_iter().chain(places.map(|p| (CHANGE, p))) {
        let journal = journal_of(&mut case.random, &[Head { kind, p, l }]);
        case.forecast(n, &journal);
    }
}

/// Every edit of up to 40 bytes on a file of as many bytes as the case's index.
pub fn of_every_small_edit(case: &mut Case) {
    let n = case.index();
    for l in 0..=40 {
        single_edits(case, n, l, 0..=n + 1);
    }
}

/// Edits of files of about 2^i blocks, i the case's index: there the block count
/// gets one digit more. With the largest i the file is at its limit, and past it.
pub fn around_powers_of_two(case: &mut Case) {
    let border: u64 = 16 << case.index();
    for n in border - 16..=border + 17 {
        for l in [1, 15, 16, 17, 32] {
            let last = n.saturating_sub(l).min(MAX_BYTES);
            let places = [0, last / 2, last.saturating_sub(15), last];
            single_edits(case, n, l, places.into_iter());
        }
    }
}

/// Journals replayed on files of any length: on one that accepts all their
/// records, and on another.
pub fn of_any_length(case: &mut Case) {
    let [n, other] = [(); 2].map(|()| case.random.some_length());
    let most = case.random.below(30);
    let heads = case.random.some_heads(n, most, 8);
    let journal = journal_of(&mut case.random, &heads);
    for n in [n, other] {
        let before = blank_file(case, n);
        let (answer, after) = replay(case, &before, &journal);
        let whole = (answer, after.offset) == (0, journal.len() as u64);
        assert!(whole || n == other, "stops at {}", after.offset);
    }
}

/// Other bytes in the bodies have no part in a forecast. Where the first head
/// asks for more bytes than are there, it is refused, and nothing is foretold.
pub fn of_other_bodies(case: &mut Case) {
    let n = case.random.some_length();
    let heads = case.random.some_heads(n, 30, 8);
    let [journal, mut other] = [(); 2].map(|()| journal_of(&mut case.random, &heads));
    let told = case.forecast(n, &journal);
    assert_eq!(case.forecast(n, &other), told, "with other bodies");
    if other.is_empty() {
        return;
    }
    other[8] ^= 1; // l is 2^24 more
    let refused = Forecast {
        bound: 0,
        greatest: n,
        offset: 0,
        refusal: Some(10),
    };
    assert_eq!(case.forecast(n, &other), refused, "with another head");
}

/// What is told of the first records is told of all.
pub fn of_many_records(case: &mut Case) {
    let (n, count) = (1 << 50, 40_000);
    let heads = case.random.some_heads(n, count, 8);
    let journal = journal_of(&mut case.random, &heads);
    let told = case.forecast(n, &journal);
    assert_eq!(told.offset, journal.len() as u64);
    assert!(told.offset > 12 * count, "{told:?}");
}
