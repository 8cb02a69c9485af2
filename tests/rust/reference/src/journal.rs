//! The edit journal, document 02, Q-1: records back to back, each a head,
//! packed most significant bit first, and the bytes of one edit.

use crate::bits::{number_of, pack};
use crate::refusal::{
    refuse, too_long, BAD_JOURNAL, BAD_KIND, BAD_PLACE, MAX_JOURNAL_BYTES, TOO_LONG,
};
use crate::State;

/// The bytes of a record's head.
pub const HEAD_BYTES: usize = 12;

/// The kind of a change, the only one with a place and with two runs of bytes.
pub const CHANGE: u64 = 1;
pub const APPEND: u64 = 2;
pub const PREPEND: u64 = 3;
pub const DROP_FRONT: u64 = 4;
pub const CUT_TAIL: u64 = 5;

/// A record's head: kind (3 bits), p (61 bits) and l (32 bits).
#[derive(Clone, Copy, Debug, PartialEq, Eq)]
pub struct Head {
    pub kind: u64,
    pub p: u64,
    pub l: u64,
}

impl Head {
    pub fn pack(&self) -> [u8; HEAD_BYTES] {
        let bytes = pack(&[
            (3, self.kind.into()),
            (61, self.p.into()),
            (32, self.l.into()),
        ]);
        bytes.try_into().expect("12 bytes")
    }

    /// The head that `pack` packed; any 12 bytes are a head.
    pub fn open(bytes: &[u8]) -> Head {
        Head {
            kind: number_of(bytes, 0, 3) as u64,
            p: number_of(bytes, 3, 61) as u64,
            l: number_of(bytes, 64, 32) as u64,
        }
    }

    /// How many bytes the record needs after its head.
    pub fn body(&self) -> u64 {
        if self.kind == CHANGE {
            2 * self.l
        } else {
            self.l
        }
    }

    /// The refusal of a record after whose head so many bytes remain: 10, 11,
    /// 12.
    pub fn refusal(&self, remain: u64) -> Result<(), u64> {
        refuse(&[
            (remain < self.body(), BAD_JOURNAL),
            (matches!(self.kind, 0 | 6 | 7), BAD_KIND),
            (self.kind != CHANGE && self.p != 0, BAD_PLACE),
        ])
    }
}

/// What a record opens to: one kind of edit with its own fields.
#[derive(Clone, Debug, PartialEq, Eq)]
pub enum Edit {
    Change { p: u64, old: Vec<u8>, new: Vec<u8> },
    Append(Vec<u8>),
    Prepend(Vec<u8>),
    DropFront(Vec<u8>),
    CutTail(Vec<u8>),
}

impl Edit {
    /// The edit at the front of these bytes and the length of its record, or
    /// the record's refusal: 10, 11, 12.
    pub fn open(rest: &[u8]) -> Result<(Edit, usize), u64> {
        refuse(&[(rest.len() < HEAD_BYTES, BAD_JOURNAL)])?;
        let (head, rest) = rest.split_at(HEAD_BYTES);
        let head = Head::open(head);
        head.refusal(rest.len() as u64)?;
        let bytes = rest[..head.body() as usize].to_vec();
        let length = HEAD_BYTES + bytes.len();
        let edit = match head.kind {
            CHANGE => Edit::Change {
                p: head.p,
                old: bytes[..head.l as usize].to_vec(),
                new: bytes[head.l as usize..].to_vec(),
            },
            APPEND => Edit::Append(bytes),
            PREPEND => Edit::Prepend(bytes),
            DROP_FRONT => Edit::DropFront(bytes),
            CUT_TAIL => Edit::CutTail(bytes),
            kind => panic!("kind {kind} is refused"),
        };
        Ok((edit, length))
    }

    /// The record that opens to the edit. Old and new are of one length.
    pub fn pack(&self) -> Vec<u8> {
        let (kind, p, bytes) = match self {
            Edit::Change { p, old, new } => {
                assert_eq!(old.len(), new.len(), "no record holds this change");
                (CHANGE, *p, [&old[..], new])
            }
            Edit::Append(bytes) => (APPEND, 0, [&[], &bytes[..]]),
            Edit::Prepend(bytes) => (PREPEND, 0, [&[], &bytes[..]]),
            Edit::DropFront(bytes) => (DROP_FRONT, 0, [&[], &bytes[..]]),
            Edit::CutTail(bytes) => (CUT_TAIL, 0, [&[], &bytes[..]]),
        };
        let l = bytes[1].len() as u64;
        let head = Head { kind, p, l }.pack();
        [&head, bytes[0], bytes[1]].concat()
    }

    /// The edit made singly.
    pub fn by_state(&self, state: &mut State) -> Result<u64, u64> {
        match self {
            Edit::Change { p, old, new } => state.change(*p, old, new),
            Edit::Append(bytes) => state.append(bytes),
            Edit::Prepend(bytes) => state.prepend(bytes),
            Edit::DropFront(bytes) => state.drop_front(bytes),
            Edit::CutTail(bytes) => state.cut_tail(bytes),
        }
    }
}

/// What a replay answers: the total count of the records that were applied,
/// the first byte of the refused one and its number, or the journal's length
/// and no number.
#[derive(Clone, Copy, Debug, Default, PartialEq, Eq)]
pub struct Replayed {
    pub count: u64,
    pub offset: u64,
    pub refusal: Option<u64>,
}

/// The refusal of a replay before it opens a record, from the file's length
/// and the journal's alone: 2, 10.
pub fn replay_refusal(n: u64, journal: u64) -> Result<(), u64> {
    refuse(&[
        (too_long(n.into()), TOO_LONG),
        (journal > MAX_JOURNAL_BYTES, BAD_JOURNAL),
    ])
}

impl State {
    /// Applies each record in turn and stops at the first refusal. The state
    /// is then that of the records before it.
    pub fn replay(&mut self, journal: &[u8]) -> Replayed {
        let mut done = Replayed::default();
        done.refusal = self.replay_on(journal, &mut done).err();
        done
    }

    fn replay_on(&mut self, journal: &[u8], done: &mut Replayed) -> Result<(), u64> {
        replay_refusal(self.n, journal.len() as u64)?;
        let mut rest = journal;
        while !rest.is_empty() {
            let (edit, length) = Edit::open(rest)?;
            done.count += edit.by_state(self)?;
            done.offset += length as u64;
            rest = &rest[length..];
        }
        Ok(())
    }
}

#[cfg(test)]
mod tests {
    use super::*;
    use crate::random::Random;

    const MAX_P: u64 = (1 << 61) - 1;
    const MAX_L: u64 = (1 << 32) - 1;

    #[test]
    fn packing_by_whole_words_gives_the_same_bytes() {
        let mut random = Random::for_test(8);
        for _ in 0..500 {
            let head = Head {
                kind: random.below(8),
                p: random.number() >> 3,
                l: random.number() >> 32,
            };
            let mut expected = (head.kind << 61 | head.p).to_be_bytes().to_vec();
            expected.extend((head.l as u32).to_be_bytes());
            assert_eq!(head.pack().to_vec(), expected);
            assert_eq!(Head::open(&expected), head);
        }
    }

    /// The whole head counts, at both ends of each field.
    #[test]
    fn records_refuse_10_then_11_then_12() {
        for kind in 0..8 {
            for p in [0, 1, 1 << 60, MAX_P] {
                for l in [0, 1, 1 << 31, MAX_L] {
                    let head = Head { kind, p, l };
                    let needed = if kind == 1 { 2 * l } else { l };
                    let mut expected = Ok(());
                    if kind != 1 && p > 0 {
                        expected = Err(12);
                    }
                    if !(1..=5).contains(&kind) {
                        expected = Err(11);
                    }
                    assert_eq!(head.refusal(needed), expected);
                    assert_eq!(head.refusal(MAX_JOURNAL_BYTES - 12), expected);
                    if needed > 0 {
                        assert_eq!(head.refusal(needed - 1), Err(10));
                        assert_eq!(head.refusal(0), Err(10));
                    }
                }
            }
        }
    }

    #[test]
    fn records_open_to_what_was_packed() {
        let mut random = Random::for_test(9);
        for l in 0..40 {
            let [old, new] = [(); 2].map(|()| random.bytes(l));
            let p = random.number() >> 3;
            let edits = [
                Edit::Append(new.clone()),
                Edit::Prepend(new.clone()),
                Edit::DropFront(new.clone()),
                Edit::CutTail(new.clone()),
                Edit::Change { p, old, new },
            ];
            for edit in edits {
                let mut record = edit.pack();
                let length = record.len();
                for cut in 0..length {
                    assert_eq!(Edit::open(&record[..cut]), Err(10), "cut at {cut}");
                }
                record.extend(random.some_bytes(20));
                assert_eq!(Edit::open(&record), Ok((edit, length)));
            }
        }
    }

    #[test]
    fn journals_refuse_2_then_10() {
        let limit = MAX_JOURNAL_BYTES;
        assert_eq!(limit, 1_099_511_627_776);
        for (n, journal, expected) in [
            (MAX_P, limit, Ok(())),
            (MAX_P, limit + 1, Err(10)),
            (MAX_P + 1, 0, Err(2)),
            (MAX_P + 1, limit + 1, Err(2)),
            (u64::MAX, u64::MAX, Err(2)),
            (0, u64::MAX, Err(10)),
        ] {
            assert_eq!(replay_refusal(n, journal), expected, "{n}, {journal}");
        }
    }
}
