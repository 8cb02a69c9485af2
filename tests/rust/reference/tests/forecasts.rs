//! Document 02, Q-7: forecasts, with figures worked out by hand. What is told of
//! random journals is held to their replay in `journals.rs`.

use reference::forecast::{forecast, from_heads, Forecast};
use reference::journal::{Head, APPEND, CHANGE, CUT_TAIL, DROP_FRONT, PREPEND};
use reference::refusal::{MAX_BYTES, MAX_JOURNAL_BYTES};

/// A journal of these records, kind, p and l of each, and zero bytes for their
/// bodies.
fn journal_of(records: &[(u64, u64, u64)]) -> Vec<u8> {
    let record = |&(kind, p, l): &(u64, u64, u64)| {
        let head = Head { kind, p, l };
        let mut record = head.pack().to_vec();
        record.resize(head.record() as usize, 0);
        record
    };
    records.iter().flat_map(record).collect()
}

/// The forecast of a journal that is done to its end.
fn done(bound: u64, greatest: u64, journal: &[u8]) -> Forecast {
    Forecast {
        bound,
        greatest,
        offset: journal.len() as u64,
        refusal: None,
    }
}

/// One edit each: the file's length, the record, the blocks that it touches,
/// the width of the larger block count, and the greater length. Those of 40
/// bytes are the cases of document 01: three blocks, of width 2.
#[test]
fn bounds_of_single_edits() {
    for (n, record, q, b, greatest) in [
        (40, (CHANGE, 17, 1), 1, 2, 40),
        (40, (CHANGE, 15, 2), 2, 2, 40),
        (40, (CHANGE, 0, 40), 3, 2, 40),
        (40, (APPEND, 0, 8), 1, 2, 48),
        (40, (APPEND, 0, 9), 2, 3, 49), // four blocks afterwards
        (40, (PREPEND, 0, 16), 1, 3, 56),
        (40, (DROP_FRONT, 0, 16), 1, 2, 40),
        (40, (DROP_FRONT, 0, 32), 2, 2, 40),
        (40, (CUT_TAIL, 0, 8), 1, 2, 40),
        (40, (CUT_TAIL, 0, 9), 2, 2, 40),
        (40, (CUT_TAIL, 0, 40), 3, 2, 40),
        (0, (APPEND, 0, 1), 1, 1, 1),
        (0, (APPEND, 0, 16), 1, 1, 16),
        (0, (APPEND, 0, 17), 2, 2, 17),
        (0, (PREPEND, 0, 64), 4, 3, 64),
        (64, (CUT_TAIL, 0, 1), 1, 3, 64), // four blocks before and after
        (49, (CUT_TAIL, 0, 1), 1, 3, 49), // and only before
        (48, (CUT_TAIL, 0, 1), 1, 2, 48),
        (64, (DROP_FRONT, 0, 64), 4, 3, 64),
        (1, (CHANGE, 0, 1), 1, 1, 1),
        // 2^57 blocks, the last of them short by one byte
        (MAX_BYTES, (CHANGE, MAX_BYTES - 1, 1), 1, 58, MAX_BYTES),
        (MAX_BYTES, (CHANGE, MAX_BYTES - 17, 17), 2, 58, MAX_BYTES),
        (MAX_BYTES - 16, (APPEND, 0, 16), 2, 58, MAX_BYTES),
        (MAX_BYTES - 16, (PREPEND, 0, 16), 1, 58, MAX_BYTES),
        (MAX_BYTES - 16, (CHANGE, 0, 1), 1, 57, MAX_BYTES - 16),
    ] {
        let journal = journal_of(&[record]);
        let expected = done(q + 2 * b, greatest, &journal);
        assert_eq!(forecast(n, &journal), expected, "{record:?} of {n}");
    }
}

/// The same of the longest records, of which there are only the heads: what
/// else they need stands before the blocks.
#[test]
fn bounds_of_long_edits() {
    let (l, blocks) = ((1 << 32) - 1, 1 << 28);
    for (n, (kind, p), body, q, b, greatest) in [
        (1 << 40, (CHANGE, 0), 2 * l, blocks, 37, 1 << 40),
        (1 << 40, (CHANGE, 5), 2 * l, blocks + 1, 37, 1 << 40),
        (3, (APPEND, 0), l, blocks + 1, 29, l + 3),
        (l, (CUT_TAIL, 0), l, blocks, 29, l),
        (l + 18, (CUT_TAIL, 0), l, blocks + 1, 29, l + 18),
    ] {
        let expected = Forecast {
            bound: q + 2 * b,
            greatest,
            offset: 12 + body,
            refusal: None,
        };
        let told = from_heads(n, 12 + body, |_| Head { kind, p, l });
        assert_eq!(told, expected, "{kind} at {p} of {n}");
    }
}

/// They are records as any others, and may be refused, but nothing is bounded.
#[test]
fn edits_of_no_bytes() {
    let empty = [
        (CHANGE, 40, 0),
        (APPEND, 0, 0),
        (PREPEND, 0, 0),
        (DROP_FRONT, 0, 0),
        (CUT_TAIL, 0, 0),
    ];
    for count in 0..=5 {
        let journal = journal_of(&empty[..count]);
        assert_eq!(journal.len(), 12 * count);
        assert_eq!(forecast(40, &journal), done(0, 40, &journal));
        let more = [&journal[..], &journal_of(&[(APPEND, 0, 9)])].concat();
        assert_eq!(forecast(40, &more), done(8, 49, &more));
    }
    let journal = journal_of(&[(APPEND, 0, 0), (CHANGE, 41, 0), (APPEND, 0, 0)]);
    let expected = Forecast {
        bound: 0,
        greatest: 40,
        offset: 12,
        refusal: Some(3),
    };
    assert_eq!(forecast(40, &journal), expected);
}

/// The first cause of those that hold, behind a record that is done.
#[test]
fn refused_records() {
    for (n, record, number) in [
        (10, (0, 9, 5), 11),
        (10, (6, 9, 5), 11),
        (10, (7, 0, 0), 11),
        (10, (PREPEND, 9, 5), 12),
        (10, (CUT_TAIL, 1, 11), 12),
        (10, (CHANGE, 10, 1), 3),
        (10, (CHANGE, MAX_BYTES, 5), 3),
        (10, (DROP_FRONT, 0, 15), 5),
        (10, (DROP_FRONT, 0, 17), 5),
        (10, (DROP_FRONT, 0, 16), 3),
        (10, (CUT_TAIL, 0, 11), 3),
        (MAX_BYTES, (PREPEND, 0, 17), 5),
        (MAX_BYTES, (PREPEND, 0, 16), 2),
        (MAX_BYTES, (APPEND, 0, 1), 2),
    ] {
        let expected = Forecast {
            bound: 0,
            greatest: n,
            offset: 12,
            refusal: Some(number),
        };
        let journal = journal_of(&[(APPEND, 0, 0), record]);
        assert_eq!(forecast(n, &journal), expected, "{record:?} of {n}");
    }
}

/// 2, then 10, and no head is asked for; up to both limits one is.
#[test]
fn refused_as_a_whole() {
    let (past, long) = (MAX_BYTES + 1, MAX_JOURNAL_BYTES + 1);
    for (n, journal, number) in [
        (past, 0, 2),
        (past, 12, 2),
        (u64::MAX, long, 2),
        (0, long, 10),
        (MAX_BYTES, long, 10),
        (40, u64::MAX, 10),
    ] {
        let expected = Forecast {
            bound: 0,
            greatest: n,
            offset: 0,
            refusal: Some(number),
        };
        let told = from_heads(n, journal, |at| panic!("the head at {at} is asked for"));
        assert_eq!(told, expected);
    }
    let mut asked = Vec::new();
    let told = from_heads(MAX_BYTES, MAX_JOURNAL_BYTES, |at| {
        asked.push(at);
        Head::open(&[0; 12])
    });
    assert_eq!((told.refusal, asked), (Some(11), vec![0]));
}

/// The greatest length is the first, the last or one between, and is not that
/// which a refused record would come to.
#[test]
fn greatest_lengths() {
    let up_and_down = [
        (APPEND, 0, 9),
        (PREPEND, 0, 48),
        (CUT_TAIL, 0, 90),
        (APPEND, 0, 20),
    ];
    for (count, bound, greatest) in [
        (0, 0, 40),
        (1, 8, 49),              // to four blocks
        (2, 8 + 9, 97),          // three touched, to seven
        (3, 8 + 9 + 13, 97),     // bytes 7 to 96 touch seven, of seven
        (4, 8 + 9 + 13 + 6, 97), // bytes 7 to 26 touch two, to two
    ] {
        let journal = journal_of(&up_and_down[..count]);
        let told = forecast(40, &journal);
        assert_eq!(told, done(bound, greatest, &journal), "{count} records");
        let refused = [(PREPEND, 0, 500), (APPEND, 0, 500)];
        let more = [&journal[..], &journal_of(&refused)].concat();
        let expected = Forecast {
            refusal: Some(5),
            ..told
        };
        assert_eq!(forecast(40, &more), expected, "{count} records and one");
    }
    let shorter = journal_of(&[(CUT_TAIL, 0, 9), (DROP_FRONT, 0, 16)]);
    assert_eq!(forecast(40, &shorter), done(6 + 5, 40, &shorter));
}

/// The journal of four records that `journals.rs` has, with its bounds, lengths
/// and places, cut at each byte; and with bytes behind it.
#[test]
fn journals_that_stop_early() {
    let records = [
        (CHANGE, 17, 1),
        (APPEND, 0, 8),
        (DROP_FRONT, 0, 16),
        (CUT_TAIL, 0, 8),
    ];
    let journal = [&journal_of(&records)[..], &[0; 13]].concat();
    let borders = [
        (0, 40, 0),
        (5, 40, 14),
        (10, 48, 34),
        (15, 48, 62),
        (20, 48, 82),
    ];
    for cut in 0..=journal.len() as u64 {
        let met = borders.iter().rev().find(|border| border.2 <= cut);
        let &(bound, greatest, offset) = met.expect("the first border");
        let behind = cut - offset;
        let refusal = match (behind, offset) {
            (0, _) => None,
            (12.., 82) => Some(11),
            _ => Some(10),
        };
        let expected = Forecast {
            bound,
            greatest,
            offset,
            refusal,
        };
        assert_eq!(forecast(40, &journal[..cut as usize]), expected, "{cut}");
    }
}
