//! Document 02, Q-1: replay against the same calls made singly, and against
//! the plain machine; and Q-7: forecasts against both.

use std::collections::BTreeSet;

use reference::forecast::{forecast, Forecast};
use reference::journal::{Edit, Head, Replayed};
use reference::random::{copy_front, copy_tail, Random};
use reference::refusal::MAX_BYTES;
use reference::{Machine, State};

const KEY: [u8; 16] = *b"a key for a test";

/// Four records written out by hand, for 40 zero bytes: change of byte 17
/// counts 3, append of 8 then 2, drop-front of 16 of the 48 bytes then 4, and
/// a cut of 8 of the 32 left, which takes no whole block, 2.
const BY_HAND: [&[u8]; 4] = [
    b"\x20\0\0\0\0\0\0\x11\0\0\0\x01\0\x09",
    b"\x40\0\0\0\0\0\0\0\0\0\0\x08EIGHT 8.",
    b"\x80\0\0\0\0\0\0\0\0\0\0\x10\0\0\0\0\0\0\0\0\0\0\0\0\0\0\0\0",
    b"\xa0\0\0\0\0\0\0\0\0\0\0\x08EIGHT 8.",
];

fn of_forty() -> State {
    State::start(&KEY, 7, 0, 40, 0).unwrap().0
}

#[test]
fn a_journal_written_by_hand() {
    let mut state = of_forty();
    let mut file = [0; 24];
    file[1] = 9;
    let expected = Replayed {
        count: 3 + 2 + 4 + 2,
        offset: 14 + 20 + 28 + 20,
        refusal: None,
    };
    assert_eq!(state.replay(&BY_HAND.concat()), expected);
    assert_eq!(state, State::read(&KEY, 7, 0, &file).unwrap());
}

/// What is refused in the place of the last record, and its number.
#[test]
fn refused_records() {
    let head = |kind, p, l| Head { kind, p, l }.pack().to_vec();
    let with = |kind, p, l: u64, body: usize| [head(kind, p, l), vec![0; body]].concat();
    let cases = [
        (vec![0], 10),
        (head(2, 0, 0)[..11].to_vec(), 10),
        (with(1, 0, 3, 5), 10),
        (with(2, 0, 6, 5), 10),
        (with(1, 0, u32::MAX.into(), 20), 10),
        (with(0, 9, 6, 5), 10),
        (with(6, 9, 6, 5), 10),
        (with(7, 9, 6, 5), 10),
        (with(0, 9, 5, 5), 11),
        (with(6, 9, 5, 5), 11),
        (with(7, 0, 5, 5), 11),
        (with(2, 9, 5, 5), 12),
        (with(3, 9, 5, 5), 12),
        (with(4, 9, 5, 5), 12),
        (with(5, 9, 33, 33), 12),
        (with(1, 28, 5, 10), 3),
        (with(1, MAX_BYTES, 5, 10), 3),
        (with(3, 0, 5, 5), 5),
        (with(4, 0, 5, 5), 5),
        (with(4, 0, 48, 48), 3),
        (with(5, 0, 33, 33), 3),
    ];
    let before = BY_HAND[..3].concat();
    for (record, number) in cases {
        let mut state = of_forty();
        let mut expected = state.replay(&before);
        let left = state;
        assert_eq!((expected.offset, left.n), (62, 32));
        expected.refusal = Some(number);
        let mut state = of_forty();
        let journal = [&before, &record[..], &[0; 40]].concat();
        let whole = if number == 10 {
            record.len()
        } else {
            journal.len() - 62
        };
        assert_eq!(state.replay(&journal[..62 + whole]), expected, "{record:?}");
        assert_eq!(state, left);
    }
}

/// A state past the limit is refused 2, even where there is nothing to do; a
/// record may meet the limit.
#[test]
fn at_the_limit() {
    for journal in [vec![], vec![0; 5], BY_HAND.concat()] {
        let mut past = of_forty();
        past.n = MAX_BYTES + 1;
        let before = past;
        let expected = Replayed {
            refusal: Some(2),
            ..Replayed::default()
        };
        assert_eq!(past.replay(&journal), expected);
        assert_eq!(past, before);
    }
    let (mut full, _) = State::start(&KEY, 7, 0, MAX_BYTES - 8, 0xff).unwrap();
    let replayed = full.replay(&[BY_HAND[1], BY_HAND[1]].concat());
    assert_eq!((replayed.offset, replayed.refusal), (20, Some(2)));
    assert_eq!(full.n, MAX_BYTES);
    assert_eq!(full.replay(&[]), Replayed::default());
}

/// A random edit of the machine's file that a record can hold. Its old or
/// removed bytes are true ones, where they lie in the file.
fn some_edit(random: &mut Random, file: &[u8]) -> Edit {
    let mut bytes = random.some_bytes(40);
    let mut blocks = random.some_blocks();
    match random.below(5) {
        0 => {
            let p = random.below(file.len() as u64 + 2);
            let new = random.bytes(bytes.len());
            copy_front(file.get(p as usize..).unwrap_or_default(), &mut bytes);
            Edit::Change { p, old: bytes, new }
        }
        1 => Edit::Append(bytes),
        2 => Edit::Prepend(blocks),
        3 => {
            copy_front(file, &mut blocks);
            Edit::DropFront(blocks)
        }
        _ => {
            copy_tail(file, &mut bytes);
            Edit::CutTail(bytes)
        }
    }
}

fn by_machine(edit: &Edit, machine: &mut Machine) -> Result<u64, u64> {
    match edit {
        Edit::Change { p, old, new } => machine.change(*p, old, new),
        Edit::Append(bytes) => machine.append(bytes),
        Edit::Prepend(bytes) => machine.prepend(bytes),
        Edit::DropFront(bytes) => machine.drop_front(bytes),
        Edit::CutTail(bytes) => machine.cut_tail(bytes),
    }
}

/// What Q-7 sums up of an accepted edit, between files of these lengths: the
/// blocks that its bytes touch, gathered byte by byte, and twice the binary
/// digits of the larger block count.
fn bound(edit: &Edit, before: u64, after: u64) -> u64 {
    let (first, bytes) = match edit {
        Edit::Change { p, new, .. } => (*p, new),
        Edit::Append(bytes) => (before, bytes),
        Edit::Prepend(bytes) | Edit::DropFront(bytes) => (0, bytes),
        Edit::CutTail(bytes) => (after, bytes),
    };
    let places = first..first + bytes.len() as u64;
    let touched: BTreeSet<u64> = places.map(|byte| byte / 16).collect();
    if touched.is_empty() {
        return 0;
    }
    let blocks = before.max(after).div_ceil(16);
    (touched.len() + 2 * format!("{blocks:b}").len()) as u64
}

/// A journal of true edits. The machine is fed the edits themselves, up to one
/// that it refuses; what follows a refused record has no part. Beside it what a
/// replay and a forecast must answer, from the machine's counts and lengths.
fn some_journal(random: &mut Random, machine: &mut Machine) -> (Vec<u8>, Replayed, Forecast) {
    let (mut journal, mut replayed) = (Vec::new(), Replayed::default());
    let (mut most, mut greatest) = (0, machine.n());
    for _ in 0..random.below(20) {
        let edit = some_edit(random, &machine.bytes);
        let before = machine.n();
        journal.extend(edit.pack());
        match by_machine(&edit, machine) {
            Ok(count) => replayed.count += count,
            Err(number) => {
                replayed.refusal = Some(number);
                journal.extend(random.some_bytes(60));
                break;
            }
        }
        replayed.offset = journal.len() as u64;
        most += bound(&edit, before, machine.n());
        greatest = greatest.max(machine.n());
    }
    let told = Forecast {
        bound: most,
        greatest,
        offset: replayed.offset,
        refusal: replayed.refusal,
    };
    (journal, replayed, told)
}

/// The replay leaves the state of a reader of the machine's bytes.
#[test]
fn journals_of_true_edits() {
    let mut random = Random::for_test(50);
    let mut refused = 0;
    for _ in 0..200 {
        let n = random.below(120);
        let file = random.bytes(n as usize);
        let mut machine = Machine::read(&KEY, 7, 8, &file).unwrap();
        let (journal, expected, told) = some_journal(&mut random, &mut machine);
        assert_eq!(forecast(n, &journal), told);
        assert!(expected.count <= told.bound, "{expected:?}, {told:?}");
        let mut state = State::read(&KEY, 7, 8, &file).unwrap();
        assert_eq!(state.replay(&journal), expected);
        assert_eq!(state, State::read(&KEY, 7, 8, &machine.bytes).unwrap());
        refused += usize::from(expected.refusal.is_some());
    }
    assert!((50..150).contains(&refused), "{refused} refused");
}

/// Records that may be refused for anything, on fields of no file: the state
/// and the count are those of the calls made singly.
#[test]
fn journals_of_any_state() {
    let mut random = Random::for_test(51);
    for _ in 0..300 {
        let before = State {
            h: random.block(),
            i: random.block(),
            s: random.block(),
            n: random.below(150),
            ..of_forty()
        };
        let file = random.bytes(before.n as usize);
        let edits: Vec<Edit> = (0..10).map(|_| some_edit(&mut random, &file)).collect();
        let journal: Vec<u8> = edits.iter().flat_map(Edit::pack).collect();
        let (mut single, mut expected) = (before, Replayed::default());
        for edit in edits {
            match edit.by_state(&mut single) {
                Ok(count) => expected.count += count,
                Err(number) => {
                    expected.refusal = Some(number);
                    break;
                }
            }
            expected.offset += edit.pack().len() as u64;
        }
        let mut state = before;
        assert_eq!(state.replay(&journal), expected);
        assert_eq!(state, single);
    }
}
