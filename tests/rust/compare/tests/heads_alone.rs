//! A forecast reads the heads of records and no byte of their bodies. Here only
//! the heads that a replay would open are there; a call that reads another page
//! ends by a signal, which is seen from a process of its own. So a journal may be
//! as long as C can claim. The second implementation is given heads alone.

#![cfg(target_os = "linux")]

use std::collections::BTreeMap;

use armfile::ffi::c;
use armfile::{MAX_BYTES, MAX_JOURNAL_BYTES};
use compare::edge::{faults, PAGE};
use compare::hidden::Hidden;
use reference::forecast::{from_heads, Forecast};
use reference::journal::{Head, APPEND, CHANGE, CUT_TAIL, DROP_FRONT, HEAD_BYTES, PREPEND};
use reference::random::Random;
use reference::State;

/// The longest length that a record can name.
const MAX_L: u64 = u32::MAX as u64;

/// About how many heads of a journal are tried at both ends of a page.
const TRIED: usize = 8;

const HEAD: u64 = HEAD_BYTES as u64;

fn head(kind: u64, p: u64, l: u64) -> Head {
    Head { kind, p, l }
}

/// Heads by their offsets.
type Places = BTreeMap<u64, Head>;

/// The heads of records back to back, and where the records end.
fn placed(heads: &[Head]) -> (Places, u64) {
    let mut end = 0;
    let place = |&head: &Head| {
        let offset = end;
        end += head.record();
        (offset, head)
    };
    (heads.iter().map(place).collect(), end)
}

/// A journal of so many bytes, of which only these heads are there, and what is
/// in one page with them, each byte of it this one. The byte with the number
/// `border` begins a page.
fn hidden(places: &Places, length: u64, border: u64, fill: u8) -> Hidden {
    let mut journal = Hidden::new(length as usize, border as usize, fill);
    for (&offset, &head) in places {
        journal.put(offset as usize, head);
    }
    journal
}

/// The library's forecast of a journal. What it must write is lent with values
/// that no forecast gives.
fn by_library(n: u64, journal: &Hidden, length: u64) -> Forecast {
    let (mut bound, mut greatest, mut offset) = (u64::MAX, !n, u64::MAX);
    let (first, length) = (journal.at(0), length as usize);
    // SAFETY: a read of what is not there ends the process.
    let answer =
        unsafe { c::armfile_forecast(n, first, length, &mut bound, &mut greatest, &mut offset) };
    Forecast {
        bound,
        greatest,
        offset,
        refusal: (answer != 0).then_some(answer),
    }
}

/// Holds the library to the second implementation, on a journal of so many
/// bytes: records with these heads, and zero bytes behind them. The heads that
/// the second implementation asks for are there. In turn such a head begins a
/// page, so that what is before it can't be read, and ends one, so that its body
/// can't; and so does the journal. The bytes beside the heads differ each time.
fn forecast(n: u64, heads: &[Head], length: u64) -> Forecast {
    let (places, _) = placed(heads);
    let mut asked = Places::new();
    let expected = from_heads(n, length, |offset| {
        let head = places.get(&offset).copied().unwrap_or(head(0, 0, 0));
        asked.insert(offset, head);
        head
    });
    let some = asked.keys().step_by(1 + asked.len() / TRIED);
    let around = some.flat_map(|&offset| [(offset, 0), (offset + HEAD, 0xff)]);
    for (border, fill) in around.chain([(length, 0x5e)]) {
        let journal = hidden(&asked, length, border, fill);
        let told = || by_library(n, &journal, length);
        let touched = faults(|| {
            told();
        });
        let case = || format!("{heads:?}, {length} bytes, file of {n}, a page at {border}");
        assert!(!touched, "reads what is no head: {}", case());
        assert_eq!(told(), expected, "{}", case());
    }
    expected
}

/// The forecast of a journal that is refused with this number before any record.
fn refused(n: u64, number: u64) -> Forecast {
    Forecast {
        bound: 0,
        greatest: n,
        offset: 0,
        refusal: Some(number),
    }
}

/// The length of a file that accepts `every_kind`.
const MEBIBYTE: u64 = 1 << 20;

/// Records of each kind, with bodies of whole pages and more.
fn every_kind() -> [Head; 6] {
    let l = 3 * PAGE as u64;
    [
        head(APPEND, 0, l + 5),
        head(CHANGE, 77, l),
        head(PREPEND, 0, l + 16),
        head(CUT_TAIL, 0, 2 * l + 1),
        head(CHANGE, MEBIBYTE / 2, l - 1),
        head(DROP_FRONT, 0, l - 16),
    ]
}

/// What these tests rest on: heads can be read, and the bytes of a body can't, its
/// first or its last by where the border of a page is. A replay ends at them.
#[test]
fn bodies_are_not_there() {
    let (places, length) = placed(&every_kind());
    for &offset in places.keys() {
        let [before, behind] =
            [offset, offset + HEAD].map(|border| hidden(&places, length, border, 0));
        let is_there = |journal: &Hidden, at: u64| {
            // SAFETY: a read of what is not there ends a process of its own.
            !faults(|| unsafe {
                journal.at(at as usize).read_volatile();
            })
        };
        for journal in [&before, &behind] {
            assert!(is_there(journal, offset) && is_there(journal, offset + 11));
            assert!(!is_there(journal, offset + 12 + PAGE as u64));
        }
        assert!(!is_there(&behind, offset + 12), "{offset}");
        assert!(offset == 0 || !is_there(&before, offset - 1), "{offset}");
        assert!(faults(|| replay(&behind, length)), "replayed without them");
    }
}

fn replay(journal: &Hidden, length: u64) {
    let state = State {
        n: MEBIBYTE,
        ..State::default()
    };
    let (mut bytes, mut count, mut offset) = (state.state_bytes(), 0, 0);
    let (state, first) = (bytes.as_mut_ptr(), journal.at(0));
    // SAFETY: a read of what is not there ends the process.
    unsafe { c::armfile_replay(state, first, length as usize, &mut count, &mut offset) };
}

/// All of them, and cut short around the borders of each record; with bytes
/// behind them, which are no head or that of no record; and on files that refuse
/// one of them.
#[test]
fn every_kind_of_body() {
    let heads = every_kind();
    let (places, end) = placed(&heads);
    assert_eq!(forecast(MEBIBYTE, &heads, end).refusal, None);
    for &offset in places.keys() {
        for behind in [1, 11, 12, 13, PAGE as u64, 2 * PAGE as u64 + 12] {
            let told = forecast(MEBIBYTE, &heads, offset + behind);
            assert_eq!((told.offset, told.refusal), (offset, Some(10)));
        }
        let told = forecast(MEBIBYTE, &heads, offset);
        assert_eq!((told.offset, told.refusal), (offset, None));
    }
    for (behind, number) in [(1, 10), (11, 10), (12, 11), (13, 11)] {
        let told = forecast(MEBIBYTE, &heads, end + behind);
        assert_eq!((told.offset, told.refusal), (end, Some(number)));
    }
    for n in [0, 5_000, MAX_BYTES - 20_000, MAX_BYTES] {
        assert_ne!(forecast(n, &heads, end).refusal, None, "file of {n}");
    }
    for n in [MAX_BYTES + 1, u64::MAX] {
        assert_eq!(forecast(n, &heads, end), refused(n, 2));
    }
}

/// One record behind another or by itself, with places and lengths at their
/// ends, before one byte less than it needs, all, more, and as many as a journal
/// may have.
#[test]
fn every_head() {
    for (n, done) in [(40, true), (1 << 33, false), (MAX_BYTES - 3, true)] {
        for kind in 0..8 {
            for p in [0, 1, MAX_BYTES] {
                for l in [0, 1, 16, 1 << 31, MAX_L - 15, MAX_L] {
                    let heads = [head(APPEND, 0, 3), head(kind, p, l)];
                    one_record(n, if done { &heads } else { &heads[1..] });
                }
            }
        }
    }
}

fn one_record(n: u64, heads: &[Head]) {
    let (_, end) = placed(heads);
    let cut = end.saturating_sub(1);
    for length in [cut, end, end + 1, end + 12, MAX_JOURNAL_BYTES] {
        forecast(n, heads, length);
    }
}

/// As many bytes as a journal may have, in appends of nearly as many as a record
/// may have, on files that they fill to the limit or not. Of a journal with one
/// byte more none is read.
#[test]
fn the_longest_journal() {
    let heads = [head(APPEND, 0, (1 << 32) - 12); 256];
    let (_, end) = placed(&heads);
    assert_eq!(end, MAX_JOURNAL_BYTES);
    let added = end - 256 * 12;
    for n in [0, 40, 1 << 45, MAX_BYTES - added] {
        let told = forecast(n, &heads, end);
        assert_eq!((told.offset, told.refusal), (end, None));
        assert_eq!(told.greatest, n + added);
        assert_eq!(forecast(n, &heads, end + 1), refused(n, 10));
    }
    let told = forecast(MAX_BYTES - added + 1, &heads, end);
    assert_eq!((told.offset, told.refusal), (end - (1 << 32), Some(2)));
    for n in [MAX_BYTES, MAX_BYTES + 1, u64::MAX] {
        assert_eq!(forecast(n, &heads, end), refused(n, 2));
        assert_eq!(forecast(n, &heads, end + 1).bound, 0);
    }
}

/// Journals of any length, for files of any length: for one that accepts all
/// their records, whole and cut anywhere, and for others.
#[test]
fn long_journals() {
    let mut random = Random::for_test(60);
    let mut refused = 0;
    for _ in 0..100 {
        let (n, most) = (random.some_length(), random.below(60));
        let heads = random.some_heads(n, most, 32);
        let (_, end) = placed(&heads);
        assert_eq!(forecast(n, &heads, end).offset, end);
        forecast(n, &heads, random.below(end + 1));
        let told = forecast(random.some_length(), &heads, end);
        refused += usize::from(told.refusal.is_some());
    }
    assert!((20..80).contains(&refused), "{refused} refused");
}
