//! The controller against the plain machine over lists of random calls:
//! document 01, "The file and its five edits".

use reference::ghash::gmac;
use reference::random::{copy_front, copy_tail, Random};
use reference::{Machine, Slip, State, Verdict};

/// The pair under test, and what the list has gathered so far.
struct Pair {
    state: State,
    machine: Machine,
    slips: Vec<[u8; 36]>,
    reported: u64,
    expected: u64,
    accepted: usize,
}

impl Pair {
    /// A blank file, of any fill.
    fn start(random: &mut Random, last: u64) -> Pair {
        let key = random.block();
        let arm = random.number() as u32;
        let (n, fill) = (random.below(120), random.some_fill());
        Pair::of(
            State::start(&key, arm, last, n, fill).unwrap().0,
            Machine::start(&key, arm, last, n, fill).unwrap(),
        )
    }

    fn read(random: &mut Random, last: u64) -> Pair {
        let key = random.block();
        let arm = random.number() as u32;
        let n = random.below(120) as usize;
        let file = random.bytes(n);
        Pair::of(
            State::read(&key, arm, last, &file).unwrap(),
            Machine::read(&key, arm, last, &file).unwrap(),
        )
    }

    fn of(state: State, machine: Machine) -> Pair {
        Pair {
            state,
            machine,
            slips: Vec::new(),
            reported: 0,
            expected: 0,
            accepted: 0,
        }
    }

    /// One edit of both, with equal answers.
    fn edit(
        &mut self,
        by_state: impl Fn(&mut State) -> Result<u64, u64>,
        by_machine: impl Fn(&mut Machine) -> Result<u64, u64>,
    ) {
        let before = (self.state, self.machine.clone());
        let answer = by_state(&mut self.state);
        let expected = by_machine(&mut self.machine);
        assert_eq!(answer, expected);
        match (answer, expected) {
            (Ok(count), Ok(counted)) => {
                self.reported += count;
                self.expected += counted;
                self.accepted += 1;
            }
            _ => {
                assert_eq!(self.state, before.0);
                assert_eq!(self.machine, before.1);
            }
        }
    }

    /// A random edit. Its bytes are true ones, or random if `truly` is false.
    fn random_edit(&mut self, random: &mut Random, truly: bool) {
        match random.below(5) {
            0 => self.random_change(random, truly),
            1 => {
                let given = random.some_bytes(50);
                self.edit(|s| s.append(&given), |m| m.append(&given));
            }
            2 => {
                let given = random.some_blocks();
                self.edit(|s| s.prepend(&given), |m| m.prepend(&given));
            }
            3 => {
                let mut given = random.some_blocks();
                if truly {
                    copy_front(&self.machine.bytes, &mut given);
                }
                self.edit(|s| s.drop_front(&given), |m| m.drop_front(&given));
            }
            _ => {
                let mut given = random.some_bytes(50);
                if truly {
                    copy_tail(&self.machine.bytes, &mut given);
                }
                self.edit(|s| s.cut_tail(&given), |m| m.cut_tail(&given));
            }
        }
    }

    fn random_change(&mut self, random: &mut Random, truly: bool) {
        let p = random.below(self.machine.n() + 3);
        let mut old = random.some_bytes(40);
        let count = old.len() + usize::from(random.once_in(10));
        let new = random.bytes(count);
        if truly && p < self.machine.n() {
            copy_front(&self.machine.bytes[p as usize..], &mut old);
        }
        self.edit(|s| s.change(p, &old, &new), |m| m.change(p, &old, &new));
    }

    /// A seal of both, in slips of the right length but once in ten.
    fn seal(&mut self, random: &mut Random, truly: bool) {
        let length = if random.once_in(10) { 35 } else { 36 };
        let mut slip = vec![0xaa; length];
        let mut expected = slip.clone();
        let before = self.state;
        let answer = self.state.seal(&mut slip);
        assert_eq!(answer, self.machine.seal(&mut expected));
        if answer.is_err() {
            assert_eq!(self.state, before);
            assert_eq!(slip, vec![0xaa; length]);
            return;
        }
        assert_eq!(slip[..20], expected[..20]);
        if truly {
            assert_eq!(slip, expected);
            assert_eq!(self.machine.check(&slip), Ok(Verdict::Current));
        }
        assert_eq!(self.state.check(&slip), Ok(Verdict::Current));
        self.slips.push(slip.try_into().unwrap());
    }

    /// The slip of an accepted seal of both.
    fn sealed(&mut self) -> [u8; 36] {
        let (mut slip, mut expected) = ([0; 36], [0; 36]);
        self.state.seal(&mut slip).unwrap();
        self.machine.seal(&mut expected).unwrap();
        assert_eq!(slip, expected);
        slip
    }

    /// A check by both, held to what it must find.
    fn both_find(&self, slip: &[u8], expected: Result<Verdict, u64>) {
        assert_eq!(self.state.check(slip), expected, "{slip:02x?}");
        assert_eq!(self.machine.check(slip), expected, "{slip:02x?}");
    }

    /// A check by both of an earlier slip, whole or damaged.
    fn check(&mut self, random: &mut Random) {
        let slip = self.random_slip(random);
        let before = self.state;
        assert_eq!(self.state.check(&slip), self.machine.check(&slip));
        assert_eq!(self.state, before);
    }

    fn random_slip(&self, random: &mut Random) -> Vec<u8> {
        if self.slips.is_empty() || random.once_in(8) {
            return random.bytes(36);
        }
        let from_end = random.below(self.slips.len().min(4) as u64) as usize;
        let mut slip = self.slips[self.slips.len() - 1 - from_end].to_vec();
        match random.below(4) {
            0 => slip[random.below(36) as usize] ^= 1 << random.below(8),
            1 => slip.truncate(random.below(36) as usize),
            _ => {}
        }
        slip
    }

    /// What document 01 demands after every call, true bytes or not.
    fn compare(&self) {
        assert_eq!(self.state.n, self.machine.n());
        assert_eq!(self.state.last, self.machine.last);
        assert_eq!(self.reported, self.expected);
    }
}

#[test]
fn true_edits() {
    let mut random = Random::for_test(40);
    let mut accepted = 0;
    for list in 0..200 {
        let mut pair = if list % 2 == 0 {
            Pair::start(&mut random, list)
        } else {
            Pair::read(&mut random, list)
        };
        for _ in 0..60 {
            match random.below(10) {
                0 => pair.seal(&mut random, true),
                1 => pair.check(&mut random),
                _ => pair.random_edit(&mut random, true),
            }
            pair.compare();
            assert_eq!(pair.state.s, pair.machine.sum());
        }
        accepted += pair.accepted;
    }
    println!("{accepted} accepted edits");
    assert!(accepted > 5000);
}

/// Lengths, counts and seal numbers agree without true bytes too.
#[test]
fn edits_true_or_not() {
    let mut random = Random::for_test(41);
    for list in 0..100 {
        let mut pair = Pair::start(&mut random, list);
        for _ in 0..60 {
            if random.once_in(10) {
                pair.seal(&mut random, false);
            } else {
                pair.random_edit(&mut random, false);
            }
            pair.compare();
        }
    }
}

#[test]
fn numbers_run_out_in_a_list() {
    let mut random = Random::for_test(42);
    for _ in 0..20 {
        let mut pair = Pair::start(&mut random, u64::MAX - 5);
        for _ in 0..80 {
            if random.once_in(2) {
                pair.seal(&mut random, true);
            } else {
                pair.random_edit(&mut random, true);
            }
            pair.compare();
        }
        assert_eq!(pair.state.last, u64::MAX);
        assert_eq!(pair.slips.len(), 5);
    }
}

/// One edit of l bytes from byte p on, by both; then the sums are equal and
/// the count is at most q + 2b, b the width of the larger block count.
fn small_edit(
    (state, machine): &(State, Machine),
    (p, l): (usize, usize),
    by_state: impl Fn(&mut State) -> Result<u64, u64>,
    by_machine: impl Fn(&mut Machine) -> Result<u64, u64>,
) {
    let mut pair = Pair::of(*state, machine.clone());
    pair.edit(by_state, by_machine);
    pair.compare();
    assert_eq!(pair.state.s, pair.machine.sum());
    if pair.accepted == 1 && l > 0 {
        let q = (p + l - 1) / 16 - p / 16 + 1;
        let larger = state.n.max(pair.state.n).div_ceil(16);
        let width = u64::from(u64::BITS - larger.leading_zeros());
        assert!(pair.reported <= q as u64 + 2 * width);
    }
}

/// Every edit of up to 50 bytes on every file of up to 50 bytes.
#[test]
fn every_small_edit() {
    let mut random = Random::for_test(43);
    let key = random.block();
    for n in 0..=50 {
        let file = random.bytes(n);
        let both = (
            State::read(&key, 1, 2, &file).unwrap(),
            Machine::read(&key, 1, 2, &file).unwrap(),
        );
        for l in 0..=50 {
            let new = random.bytes(l);
            let mut front = new.clone();
            copy_front(&file, &mut front);
            let mut tail = new.clone();
            copy_tail(&file, &mut tail);
            let rest = n.saturating_sub(l);
            small_edit(&both, (n, l), |s| s.append(&new), |m| m.append(&new));
            small_edit(&both, (0, l), |s| s.prepend(&new), |m| m.prepend(&new));
            small_edit(
                &both,
                (0, l),
                |s| s.drop_front(&front),
                |m| m.drop_front(&front),
            );
            small_edit(
                &both,
                (rest, l),
                |s| s.cut_tail(&tail),
                |m| m.cut_tail(&tail),
            );
            for p in 0..=n + 1 {
                let mut old = new.clone();
                copy_front(&file[p.min(n)..], &mut old);
                let at = p as u64;
                small_edit(
                    &both,
                    (p, l),
                    |s| s.change(at, &old, &new),
                    |m| m.change(at, &old, &new),
                );
            }
        }
    }
}

/// Any one bit of a genuine slip turned: refused 8 in the version, not
/// genuine elsewhere, by both.
#[test]
fn one_damaged_bit() {
    let mut random = Random::for_test(44);
    for _ in 0..5 {
        let mut pair = Pair::read(&mut random, 9);
        let slip = pair.sealed();
        for bit in 0..36 * 8 {
            let mut damaged = slip;
            damaged[bit / 8] ^= 0x80 >> (bit % 8);
            let expected = if bit < 3 {
                Err(8)
            } else {
                Ok(Verdict::NotGenuine)
            };
            pair.both_find(&damaged, expected);
        }
        pair.both_find(&slip, Ok(Verdict::Current));
    }
}

/// Slips well made by hand: the length, the arm and the tag decide whether they
/// are genuine, whatever the number is, and the number decides how.
#[test]
fn slips_made_by_hand() {
    let mut random = Random::for_test(45);
    let numbers = [
        (0, Verdict::Stale),
        (8, Verdict::Stale),
        (9, Verdict::Current),
        (10, Verdict::Ahead),
        (u64::MAX, Verdict::Ahead),
    ];
    for (number, verdict) in [numbers; 40].concat() {
        let pair = Pair::read(&mut random, 9);
        let arm = pair.machine.arm ^ u32::from(random.once_in(3));
        let length = pair.machine.n() + u64::from(random.once_in(3));
        let nonce = reference::slip::nonce(arm, number);
        let tag = gmac(&pair.machine.key, &nonce, &pair.machine.bytes);
        let slip = Slip {
            length,
            arm,
            number,
            tag,
        };
        let genuine = arm == pair.machine.arm && length == pair.machine.n();
        let expected = if genuine {
            verdict
        } else {
            Verdict::NotGenuine
        };
        pair.both_find(&slip.pack(), Ok(expected));
    }
}

/// A card is sealed, changed and sealed, changed back and sealed: the first
/// slip is of the bytes that are held again, and it is stale.
#[test]
fn a_card_put_back() {
    let mut random = Random::for_test(46);
    for last in [0, 9, u64::MAX - 3] {
        let mut pair = Pair::read(&mut random, last);
        pair.edit(|s| s.append(b"A"), |m| m.append(b"A"));
        let p = pair.machine.n() - 1;
        let first = pair.sealed();
        pair.edit(|s| s.change(p, b"A", b"B"), |m| m.change(p, b"A", b"B"));
        pair.both_find(&first, Ok(Verdict::NotGenuine));
        let second = pair.sealed();
        pair.edit(|s| s.change(p, b"B", b"A"), |m| m.change(p, b"B", b"A"));
        pair.both_find(&first, Ok(Verdict::Stale));
        let third = pair.sealed();
        pair.both_find(&first, Ok(Verdict::Stale));
        pair.both_find(&second, Ok(Verdict::NotGenuine));
        pair.both_find(&third, Ok(Verdict::Current));
    }
}
