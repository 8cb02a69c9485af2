//! Replay of journals, document 02, Q-1. Each is forecast first, Q-7.

use armfile::MAX_BYTES;
use compare::call::UNWRITTEN;
use compare::{Call, Case, Lent};
use reference::journal::{Head, CHANGE, HEAD_BYTES};
use reference::Machine;

use crate::choose::{one_of, FILE_LENGTHS};
use crate::edits::{blank_file, by_machine, read_file, true_edits};
use crate::lists::some_recorded_edit;
use crate::states::arbitrary_state;

/// The longest length that a record can name.
const MAX_L: u64 = u32::MAX as u64;

/// Replays a journal on a state. It writes count and offset whatever it
/// answers, so they are lent with values that no replay gives.
pub fn replay(case: &mut Case, before: &Lent, journal: &[u8]) -> (u64, Lent) {
    let mut lent = before.clone();
    (lent.count, lent.offset) = (UNWRITTEN, UNWRITTEN);
    let journal = journal.to_vec();
    let answer = case.call(&Call::Replay { journal }, &mut lent);
    assert_ne!(lent.count, UNWRITTEN, "the count");
    assert_ne!(lent.offset, UNWRITTEN, "the offset");
    (answer, lent)
}

/// Makes edits one by one up to the first that is refused, and answers as a
/// replay of their journal must.
pub fn singly(case: &mut Case, before: &Lent, edits: &[Call]) -> (u64, Lent) {
    let (mut lent, mut count, mut offset, mut answer) = (before.clone(), 0, 0, 0);
    for edit in edits {
        answer = case.call(edit, &mut lent);
        if answer != 0 {
            break;
        }
        count += lent.count;
        offset += edit.record().len() as u64;
    }
    (lent.count, lent.offset) = (count, offset);
    (answer, lent)
}

/// Random edits that records can hold, each of the file that those before it
/// leave. Where the machine is given, it makes them too, and their old and
/// removed bytes are true. A refused one ends them, or is left out.
fn some_edits(case: &mut Case, before: &Lent, mut machine: Option<&mut Machine>) -> Vec<Call> {
    let (mut lent, mut edits) = (before.clone(), Vec::new());
    let all_accepted = case.random.once_in(2);
    for _ in 0..case.random.below(30) {
        let file = machine.as_ref().map(|machine| &machine.bytes[..]);
        let edit = some_recorded_edit(case, lent.fields().n, file);
        let refused = case.call(&edit, &mut lent) != 0;
        if let Some(machine) = &mut machine {
            assert_eq!(by_machine(&edit, machine).is_err(), refused, "{edit}");
        }
        if refused && all_accepted {
            continue;
        }
        edits.push(edit);
        if refused {
            break;
        }
    }
    edits
}

/// A journal of these edits comes to what the edits come to by themselves. What
/// follows a refused record has no part.
fn as_single_calls(case: &mut Case, before: &Lent, edits: &[Call]) -> Lent {
    let mut journal: Vec<u8> = edits.iter().flat_map(Call::record).collect();
    let expected = singly(case, before, edits);
    if expected.0 != 0 {
        journal.extend(case.random.some_bytes(40));
    }
    let outcome = replay(case, before, &journal);
    assert!(outcome == expected, "single calls leave {}", expected.1);
    outcome.1
}

/// Journals of edits of a file, true and not: with true bytes the sum is that
/// of the machine's bytes.
pub fn of_edits(case: &mut Case) {
    let n = case.random.below(120) as usize;
    let (before, mut machine) = read_file(case, n);
    let truly = case.random.once_in(2);
    let edits = some_edits(case, &before, truly.then_some(&mut machine));
    let after = as_single_calls(case, &before, &edits);
    if truly {
        assert_eq!(after.fields().n, machine.n(), "the machine's length");
        assert_eq!(after.fields().s, machine.sum(), "the machine's sum");
    }
}

/// Journals on a file so long that a record may be refused for its growth.
pub fn on_a_long_file(case: &mut Case) {
    let n = MAX_BYTES - case.random.below(200);
    let before = blank_file(case, n);
    let edits = some_edits(case, &before, None);
    as_single_calls(case, &before, &edits);
}

/// A state of 100 bytes, and a record of each kind that it accepts. The case's
/// index says which is first.
fn every_kind(case: &mut Case) -> (Lent, Vec<Vec<u8>>) {
    let (lent, _) = read_file(case, 100);
    let l = 16 * case.random.below(3) as usize;
    let mut edits = true_edits(case, &[], l).to_vec();
    edits.push(Call::Change {
        p: case.random.below(4),
        old: case.random.bytes(l),
        new: case.random.bytes(l),
    });
    edits.rotate_left(case.index() as usize % 5);
    (lent, edits.iter().map(Call::record).collect())
}

/// The offset of each record's first byte.
fn firsts(records: &[Vec<u8>]) -> Vec<usize> {
    (0..records.len())
        .map(|i| records[..i].concat().len())
        .collect()
}

/// A journal that ends early is refused 10 at the record that it ends in; the
/// rest from there on, with what was missing, then comes to the same.
pub fn cut_short(case: &mut Case) {
    let (lent, records) = every_kind(case);
    let (journal, firsts) = (records.concat(), firsts(&records));
    let whole = replay(case, &lent, &journal);
    assert_eq!((whole.0, whole.1.offset), (0, journal.len() as u64));
    for cut in 0..journal.len() {
        let (answer, part) = replay(case, &lent, &journal[..cut]);
        let inside = !firsts.contains(&cut);
        assert_eq!(answer, if inside { 10 } else { 0 }, "cut at {cut}");
        let (answer, mut rest) = replay(case, &part, &journal[part.offset as usize..]);
        rest.count += part.count;
        rest.offset += part.offset;
        assert!((answer, rest) == whole, "in two pieces, cut at {cut}");
    }
}

/// Any one bit of a record's head turned. A bit of p is refused 12, but in a
/// change; one of l's higher bits asks for bytes that are not there.
pub fn one_bit_turned(case: &mut Case) {
    let (lent, records) = every_kind(case);
    let journal = records.concat();
    for first in firsts(&records) {
        let kind = Head::open(&journal[first..]).kind;
        for bit in 0..8 * HEAD_BYTES {
            let mut damaged = journal.clone();
            damaged[first + bit / 8] ^= 0x80 >> (bit % 8);
            let (answer, after) = replay(case, &lent, &damaged);
            let expected = match bit {
                3..64 if kind != CHANGE => 12,
                64..86 => 10,
                _ => continue,
            };
            assert_eq!((answer, after.offset), (expected, first as u64));
        }
    }
}

/// Heads of the case's kind, with places and lengths at their ends, before as
/// many bytes as are needed, more and fewer; on files of the case's length.
pub fn every_head(case: &mut Case) {
    let (kind, n) = (case.index() % 8, FILE_LENGTHS[case.index() as usize / 8]);
    let mut lent = Lent::new();
    let mut state = arbitrary_state(case);
    state.n = n;
    lent.state = state.state_bytes();
    replay(case, &lent, &[]);
    let done = Call::Append {
        bytes: case.random.bytes(3),
    };
    for p in [0, 1, n.min(MAX_BYTES), 1 << 60, MAX_BYTES] {
        for l in [0, 1, 16, 17, 40, 1 << 31, MAX_L - 15, MAX_L] {
            let head = Head { kind, p, l };
            let needed = head.body().min(100) as usize;
            for body in [0, needed.saturating_sub(1), needed, needed + 9] {
                let record = [&head.pack()[..], &case.random.bytes(body)].concat();
                replay(case, &lent, &record);
                replay(case, &lent, &[done.record(), record].concat());
            }
        }
    }
}

/// Records of any kind, most of them with the bytes that they need, on states
/// of no file.
pub fn of_any_records(case: &mut Case) {
    let mut lent = Lent::new();
    lent.state = arbitrary_state(case).state_bytes();
    let mut journal = Vec::new();
    for _ in 0..case.random.below(6) {
        let random = &mut case.random;
        let any_kind = random.once_in(5);
        let kind = random.below(if any_kind { 8 } else { 5 });
        let mut head = Head {
            kind: kind + u64::from(!any_kind),
            p: 0,
            l: one_of(random, &[0, 1, 16, 17, 32, 48]),
        };
        if head.kind == CHANGE || random.once_in(8) {
            head.p = random.number() >> one_of(random, &[3, 57, 61]);
        }
        let body = head.body() - u64::from(head.l > 0 && random.once_in(10));
        journal.extend(head.pack());
        journal.extend(random.bytes(body as usize));
    }
    replay(case, &lent, &journal);
}

/// What is done with the first records is done with all.
pub fn of_many_records(case: &mut Case) {
    let (before, _) = read_file(case, 1_000);
    let edits: Vec<Call> = (0..4_000)
        .map(|i| match i % 4 {
            0 => Call::Append {
                bytes: case.random.some_bytes(20),
            },
            1 => Call::Prepend {
                bytes: case.random.bytes(16),
            },
            2 => Call::CutTail {
                bytes: case.random.bytes(1),
            },
            _ => Call::Change {
                p: case.random.below(900),
                old: case.random.bytes(2),
                new: case.random.bytes(2),
            },
        })
        .collect();
    let after = as_single_calls(case, &before, &edits);
    assert!(after.offset > 65_536, "{} bytes", after.offset);
}
