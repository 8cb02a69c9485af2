//! Lists of random calls, refused ones and journals among them.

use armfile::{MAX_BYTES, SLIP_BYTES};
use compare::call::UNJUDGED;
use compare::{Call, Case, Lent};
use reference::random::{copy_front, copy_tail, Random};
use reference::Machine;
use reference::Verdict::{Ahead, Current, NotGenuine, Stale};

use crate::choose::{numbers_around, one_of, output, LASTS, NUMBERS};
use crate::edits::by_machine;
use crate::slips::{expect, numbered, read_again};

/// The calls of a list.
const CALLS: usize = 60;

/// A slip, and what was sealed: the machine's bytes, and the state but for its
/// last used number.
struct Sealed {
    slip: Vec<u8>,
    bytes: Vec<u8>,
    state: Vec<u8>,
}

/// What a list has gathered: the state, the plain machine that is fed the
/// same calls, the slips, what takes back each edit, and the sums of the two
/// sides' counts.
struct List {
    lent: Lent,
    machine: Machine,
    slips: Vec<Sealed>,
    opposites: Vec<Call>,
    reported: u64,
    expected: u64,
}

/// The last used number that a list begins with.
fn some_last(random: &mut Random) -> u64 {
    match random.below(3) {
        0 => one_of(random, &NUMBERS),
        1 => u64::MAX - random.below(6),
        _ => random.below(1000),
    }
}

impl List {
    /// A list that begins with an accepted start, of any fill, or with a read.
    fn begin(case: &mut Case, last: u64) -> List {
        let random = &mut case.random;
        let key = random.bytes(16);
        let arm = random.number() as u32;
        let n = random.below(120);
        let (call, machine) = if random.once_in(2) {
            let file = random.bytes(n as usize);
            let machine = Machine::read(&key, arm, last, &file);
            let call = Call::Read {
                key,
                arm,
                last,
                file,
            };
            (call, machine)
        } else {
            let fill = random.some_fill();
            let machine = Machine::start(&key, arm, last, n, fill);
            let call = Call::Start {
                key,
                arm,
                last,
                n,
                fill,
            };
            (call, machine)
        };
        let mut lent = Lent::new();
        assert_eq!(case.call(&call, &mut lent), 0, "{call}");
        List {
            lent,
            machine: machine.expect("an accepted start"),
            slips: Vec::new(),
            opposites: Vec::new(),
            reported: 0,
            expected: 0,
        }
    }

    /// One edit of both, with equal answers.
    fn edit(&mut self, case: &mut Case, call: &Call) {
        let answer = case.call(call, &mut self.lent);
        match by_machine(call, &mut self.machine) {
            Ok(count) => {
                assert_eq!(answer, 0, "the machine accepts");
                self.reported += self.lent.count;
                self.expected += count;
                self.opposites.push(opposite(call));
            }
            Err(number) => assert_eq!(answer, number, "the machine refuses"),
        }
    }

    /// Takes back the latest edit that was not yet taken back, if there is one.
    fn undo(&mut self, case: &mut Case) {
        let Some(call) = self.opposites.pop() else {
            return;
        };
        let left = self.opposites.len();
        self.edit(case, &call);
        assert_eq!(self.opposites.len(), left + 1, "an edit is taken back");
        self.opposites.truncate(left);
    }

    /// A journal of a few edits, the last of which may be refused. The machine
    /// makes them one by one.
    fn replay(&mut self, case: &mut Case, truly: bool) {
        let (mut journal, mut offset, mut answer) = (Vec::new(), 0, 0);
        for _ in 0..case.random.below(6) {
            let file = truly.then_some(&self.machine.bytes[..]);
            let edit = some_recorded_edit(case, self.machine.n(), file);
            journal.extend(edit.record());
            match by_machine(&edit, &mut self.machine) {
                Ok(count) => {
                    self.expected += count;
                    self.opposites.push(opposite(&edit));
                }
                Err(number) => {
                    answer = number;
                    break;
                }
            }
            offset = journal.len() as u64;
        }
        let answered = case.call(&Call::Replay { journal }, &mut self.lent);
        assert_eq!(answered, answer, "the machine's answer to the journal");
        assert_eq!(self.lent.offset, offset, "where the machine stops");
        self.reported += self.lent.count;
    }

    /// A seal of both, in slips of the right length but once in ten.
    fn seal(&mut self, case: &mut Case, truly: bool) {
        let size = SLIP_BYTES - usize::from(case.random.once_in(10));
        self.seal_in(case, size, truly);
    }

    /// A seal of both in slips of a size. With true bytes the slip is the
    /// machine's, whose tag is GMAC of its bytes.
    fn seal_in(&mut self, case: &mut Case, size: usize, truly: bool) {
        self.lent.out = output(&mut case.random, size);
        let mut expected = self.lent.out.clone();
        let answer = case.call(&Call::Seal, &mut self.lent);
        let number = self.machine.seal(&mut expected).err().unwrap_or(0);
        assert_eq!(answer, number, "the machine's answer to seal");
        let compared = if truly || answer != 0 { size } else { 20 };
        let same = self.lent.out[..compared] == expected[..compared];
        assert!(same, "the machine's slip is {expected:02x?}");
        if answer == 0 {
            self.slips.push(Sealed {
                slip: self.lent.out.clone(),
                bytes: self.machine.bytes.clone(),
                state: self.but_for_last().to_vec(),
            });
        }
    }

    /// The state without its last used number.
    fn but_for_last(&self) -> &[u8] {
        &self.lent.state[..76]
    }

    /// A check by both of an earlier slip or one made by hand, whole or
    /// damaged, or of random bytes.
    fn check(&mut self, case: &mut Case, truly: bool) {
        let slip = self.some_slip(case);
        let expected = self.machine.check(&slip);
        self.lent.verdict = UNJUDGED;
        let answer = case.call(&Call::Check { slip }, &mut self.lent);
        assert_eq!(answer, expected.err().unwrap_or(0), "the machine's answer");
        if let (true, Ok(verdict)) = (truly, expected) {
            assert_eq!(self.lent.verdict, verdict.number(), "the machine's verdict");
        }
    }

    fn some_slip(&self, case: &mut Case) -> Vec<u8> {
        let random = &mut case.random;
        let mut slip = match random.below(8) {
            0 => random.bytes(SLIP_BYTES),
            1..5 if !self.slips.is_empty() => {
                let from_end = random.below(self.slips.len().min(4) as u64) as usize;
                self.slips[self.slips.len() - 1 - from_end].slip.clone()
            }
            _ => {
                let number = one_of(random, &numbers_around(self.machine.last));
                numbered(&self.lent.fields(), number)
            }
        };
        match random.below(6) {
            0 => slip[random.below(36) as usize] ^= 1 << random.below(8),
            1 => slip.truncate(random.below(36) as usize),
            _ => {}
        }
        slip
    }

    /// Checks every slip of the list. What is expected comes of what was
    /// sealed, without a tag: of the bytes held now the newest slip is current
    /// and the others are stale, and of other bytes none is genuine. Where
    /// bytes may be untrue, the state stands for them.
    fn check_all(&self, case: &mut Case, truly: bool) {
        for (i, sealed) in self.slips.iter().enumerate() {
            let again = if truly {
                sealed.bytes == self.machine.bytes
            } else {
                sealed.state == self.but_for_last()
            };
            let newest = i + 1 == self.slips.len();
            let verdict = match (again, newest) {
                (false, _) => NotGenuine,
                (true, true) => Current,
                (true, false) => Stale,
            };
            expect(case, &self.lent, &sealed.slip, Ok(verdict));
        }
    }

    /// What document 01 demands after every call, true bytes or not.
    fn compare(&self) {
        let fields = self.lent.fields();
        assert_eq!(fields.n, self.machine.n(), "the machine's length");
        assert_eq!(fields.last, self.machine.last, "the machine's number");
        assert_eq!(self.reported, self.expected, "the machine's counts");
    }
}

/// The edit that takes back an accepted one, and the sum with it, whether its
/// bytes were true or not.
fn opposite(edit: &Call) -> Call {
    match edit.clone() {
        Call::Change { p, old, new } => Call::Change {
            p,
            old: new,
            new: old,
        },
        Call::Append { bytes } => Call::CutTail { bytes },
        Call::CutTail { bytes } => Call::Append { bytes },
        Call::Prepend { bytes } => Call::DropFront { bytes },
        Call::DropFront { bytes } => Call::Prepend { bytes },
        _ => panic!("{edit} is no edit"),
    }
}

/// A random edit of a file of n bytes. Old and removed bytes are those of the
/// file where it is given.
fn some_edit(case: &mut Case, n: u64, file: Option<&[u8]>) -> Call {
    let random = &mut case.random;
    let held = file.unwrap_or_default();
    match random.below(5) {
        0 => {
            let p = n - random.below(n.min(200) + 1) + random.below(3);
            let mut old = random.some_bytes(40);
            let length = old.len() + usize::from(random.once_in(10));
            let new = random.bytes(length);
            copy_front(held.get(p as usize..).unwrap_or_default(), &mut old);
            Call::Change { p, old, new }
        }
        1 => Call::Append {
            bytes: random.some_bytes(50),
        },
        2 => Call::Prepend {
            bytes: random.some_blocks(),
        },
        3 => {
            let mut bytes = random.some_blocks();
            copy_front(held, &mut bytes);
            Call::DropFront { bytes }
        }
        _ => {
            let mut bytes = random.some_bytes(50);
            copy_tail(held, &mut bytes);
            Call::CutTail { bytes }
        }
    }
}

/// A random edit that a record can hold: old and new are of one length, and p
/// has 61 bits.
pub fn some_recorded_edit(case: &mut Case, n: u64, file: Option<&[u8]>) -> Call {
    let mut edit = some_edit(case, n, file);
    if let Call::Change { p, old, new } = &mut edit {
        new.truncate(old.len());
        *p = (*p).min(MAX_BYTES);
    }
    edit
}

/// A list of any calls, with what must hold after each of them.
fn some_list(case: &mut Case, truly: bool, after_each: fn(&List)) {
    let last = some_last(&mut case.random);
    let mut list = List::begin(case, last);
    for _ in 0..CALLS {
        match case.random.below(12) {
            0 => list.seal(case, truly),
            1 => list.check(case, truly),
            2 => list.replay(case, truly),
            3 => list.check_all(case, truly),
            4 | 5 => (0..=case.random.below(3)).for_each(|_| list.undo(case)),
            _ => {
                let truly = truly || case.random.once_in(2);
                let file = truly.then_some(&list.machine.bytes[..]);
                let call = some_edit(case, list.machine.n(), file);
                list.edit(case, &call);
            }
        }
        list.compare();
        after_each(&list);
    }
    list.check_all(case, truly);
}

/// With true bytes the sum is that of the machine's bytes after every call.
pub fn true_calls(case: &mut Case) {
    some_list(case, true, |list| {
        let sum = list.machine.sum();
        assert_eq!(list.lent.fields().s, sum, "the machine's sum");
    });
}

/// Lengths, counts and numbers agree without true bytes too.
pub fn calls_true_or_not(case: &mut Case) {
    some_list(case, false, |_| {});
}

/// Lists come to every verdict, and none of them is rare.
pub fn every_verdict(case: &mut Case) {
    for list in [true_calls, calls_true_or_not] {
        let before = case.verdicts();
        (0..200).for_each(|_| list(case));
        for (count, before) in case.verdicts().into_iter().zip(before) {
            assert!(count - before >= 80, "verdicts: {:?}", case.verdicts());
        }
    }
}

/// A true edit that is accepted and leaves other bytes.
fn some_altering_edit(case: &mut Case, machine: &Machine) -> Call {
    loop {
        let call = some_edit(case, machine.n(), Some(&machine.bytes));
        let mut edited = machine.clone();
        if by_machine(&call, &mut edited).is_ok() && edited.bytes != machine.bytes {
            return call;
        }
    }
}

/// A card's week: sealed, edited and sealed, edited back and sealed. Then the
/// first slip is stale, the second not genuine and the third current. To the
/// card read again with another last used number, that number decides.
pub fn a_week(case: &mut Case) {
    let last = one_of(&mut case.random, &LASTS).min(u64::MAX - 3);
    let mut list = List::begin(case, last);
    list.seal_in(case, SLIP_BYTES, true);
    let format = some_altering_edit(case, &list.machine);
    list.edit(case, &format);
    list.seal_in(case, SLIP_BYTES, true);
    list.undo(case);
    list.seal_in(case, SLIP_BYTES, true);

    let mut states = vec![(list.lent, Stale, Current)];
    for (seals, first, third) in [
        (0, Ahead, Ahead),
        (1, Current, Ahead),
        (2, Stale, Ahead),
        (3, Stale, Current),
    ] {
        let again = read_again(case, &list.machine, last + seals);
        states.push((again, first, third));
    }
    for (lent, first, third) in states {
        for (sealed, verdict) in list.slips.iter().zip([first, NotGenuine, third]) {
            expect(case, &lent, &sealed.slip, Ok(verdict));
        }
    }
}

/// Lists on a file so long that no machine can hold it.
pub fn on_a_long_file(case: &mut Case) {
    let mut lent = Lent::new();
    let call = Call::Start {
        key: case.random.bytes(16),
        arm: case.random.number() as u32,
        last: u64::MAX - case.random.below(10),
        n: MAX_BYTES - case.random.below(200),
        fill: case.random.some_fill(),
    };
    assert_eq!(case.call(&call, &mut lent), 0, "{call}");
    for _ in 0..CALLS {
        let call = match case.random.below(8) {
            0 => Call::Seal,
            1 => Call::Check {
                slip: lent.out.clone(),
            },
            2 => {
                let around = numbers_around(lent.fields().last);
                let number = one_of(&mut case.random, &around);
                Call::Check {
                    slip: numbered(&lent.fields(), number),
                }
            }
            _ => some_edit(case, lent.fields().n, None),
        };
        if matches!(call, Call::Seal) {
            lent.out = output(&mut case.random, SLIP_BYTES);
        }
        lent.verdict = UNJUDGED;
        case.call(&call, &mut lent);
    }
}
