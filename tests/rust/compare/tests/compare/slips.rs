//! Seal and check.

use armfile::{MAX_BYTES, SLIP_BYTES};
use compare::call::UNJUDGED;
use compare::{Call, Case, Lent};
use reference::Verdict::{self, Ahead, Current, NotGenuine, Stale};
use reference::{slip, Machine, Slip, State};

use crate::choose::{numbers_around, one_of, output, LASTS, NUMBERS};

/// The state and the machine of a random file, with this last used number.
fn some_file(case: &mut Case, last: u64) -> (Lent, Machine) {
    let random = &mut case.random;
    let key = random.bytes(16);
    let arm = random.number() as u32;
    let length = random.below(100) as usize;
    let file = random.bytes(length);
    let machine = Machine::read(&key, arm, last, &file).expect("a file");
    (read_again(case, &machine, last), machine)
}

/// The state of the machine's bytes read, with this last used number.
pub fn read_again(case: &mut Case, machine: &Machine, last: u64) -> Lent {
    let mut lent = Lent::new();
    let read = Call::Read {
        key: machine.key.to_vec(),
        arm: machine.arm,
        last,
        file: machine.bytes.clone(),
    };
    assert_eq!(case.call(&read, &mut lent), 0);
    lent
}

/// A sealed random file: the state afterwards, its slip, and the machine.
fn sealed(case: &mut Case) -> (Lent, Vec<u8>, Machine) {
    let last = case.random.number() >> 1;
    let (mut lent, mut machine) = some_file(case, last);
    lent.out = output(&mut case.random, SLIP_BYTES);
    assert_eq!(case.call(&Call::Seal, &mut lent), 0);
    let mut expected = [0; SLIP_BYTES];
    machine.seal(&mut expected).expect("a slip");
    assert_eq!(lent.out, expected, "the machine's slip");
    let slip = lent.out.clone();
    (lent, slip, machine)
}

/// Checks a slip and holds the answer and the verdict to what is expected.
pub fn expect(case: &mut Case, lent: &Lent, slip: &[u8], expected: Result<Verdict, u64>) {
    let call = Call::Check {
        slip: slip.to_vec(),
    };
    let mut after = lent.clone();
    after.verdict = UNJUDGED;
    let answer = case.call(&call, &mut after);
    match expected {
        Ok(verdict) => assert_eq!((answer, after.verdict), (0, verdict.number())),
        Err(number) => assert_eq!((answer, after.verdict), (number, UNJUDGED)),
    }
}

/// The slip that a state would write under a number of the caller's choice.
pub fn numbered(state: &State, number: u64) -> Vec<u8> {
    let slip = Slip {
        length: state.n,
        arm: state.arm,
        number,
        tag: state.tag(&slip::nonce(state.arm, number)),
    };
    slip.pack().to_vec()
}

/// What a genuine slip is by its number. Most significant byte first, numbers
/// stand in the order of their bytes.
pub fn by_number(number: u64, last: u64) -> Verdict {
    let (number, last) = (number.to_be_bytes(), last.to_be_bytes());
    if number == last {
        Current
    } else if number < last {
        Stale
    } else {
        Ahead
    }
}

/// A genuine slip with one bit turned, and what it is then: refused 8 in the
/// version, not genuine elsewhere.
fn turned(slip: &[u8], bit: usize) -> (Vec<u8>, Result<Verdict, u64>) {
    let mut damaged = slip.to_vec();
    damaged[bit / 8] ^= 0x80 >> (bit % 8);
    (damaged, if bit < 3 { Err(8) } else { Ok(NotGenuine) })
}

/// Any one bit turned.
pub fn one_bit_turned(case: &mut Case) {
    let (lent, slip, machine) = sealed(case);
    for bit in 0..8 * SLIP_BYTES {
        let (damaged, expected) = turned(&slip, bit);
        assert_eq!(machine.check(&damaged), expected, "bit {bit}");
        expect(case, &lent, &damaged, expected);
    }
    expect(case, &lent, &slip, Ok(Current));
}

/// Slips that are genuine to one state under every number around its last used
/// one, the case's. Damaged they are not, whatever their number is.
pub fn every_number(case: &mut Case) {
    let last = LASTS[case.index() as usize % LASTS.len()];
    let (lent, machine) = some_file(case, last);
    for number in numbers_around(last) {
        let slip = numbered(&lent.fields(), number);
        let expected = Ok(by_number(number, last));
        assert_eq!(machine.check(&slip), expected, "number {number}");
        expect(case, &lent, &slip, expected);
        damaged(case, &lent, &slip);
    }
}

/// A genuine slip with one bit turned in its version, its length, its arm, its
/// number or its tag; with the last used number in place of its own; and with a
/// byte less or more.
fn damaged(case: &mut Case, lent: &Lent, slip: &[u8]) {
    for (first, bits) in [(0, 3), (3, 61), (64, 32), (96, 64), (160, 128)] {
        let bit = first + case.random.below(bits) as usize;
        let (damaged, expected) = turned(slip, bit);
        expect(case, lent, &damaged, expected);
    }
    let mut renumbered = slip.to_vec();
    renumbered[12..20].copy_from_slice(&lent.fields().last.to_be_bytes());
    if renumbered != slip {
        expect(case, lent, &renumbered, Ok(NotGenuine));
    }
    expect(case, lent, &slip[..SLIP_BYTES - 1], Err(7));
    expect(case, lent, &[slip, &[0]].concat(), Err(7));
}

/// Slips of as many bytes as the case's index: seal and check refuse 7. Where
/// the state's length passes the limit they refuse 2, whatever the slip is.
pub fn wrong_lengths(case: &mut Case) {
    let (mut lent, slip, _) = sealed(case);
    let size = case.index() as usize;
    let expected = if size == SLIP_BYTES { 0 } else { 7 };
    let cut_or_longer: Vec<u8> = slip.iter().cycle().take(size).copied().collect();
    let current = (expected == 0).then_some(Current).ok_or(7);
    expect(case, &lent, &cut_or_longer, current);
    let other = vec![0; size];
    expect(case, &lent, &other, Err(if expected == 0 { 8 } else { 7 }));
    lent.out = output(&mut case.random, size);
    let mut past = lent.clone();
    assert_eq!(case.call(&Call::Seal, &mut lent), expected);
    let n = MAX_BYTES + 1 + case.random.below(100);
    past.state = State { n, ..past.fields() }.state_bytes();
    expect(case, &past, &cut_or_longer, Err(2));
    expect(case, &past, &other, Err(2));
    assert_eq!(case.call(&Call::Seal, &mut past), 2);
}

/// Slips well made: the length, the arm and the tag decide whether they are
/// genuine. A number that no seal has used yet is no hindrance, nor is one that
/// none can use, 0.
pub fn made_by_hand(case: &mut Case) {
    let (lent, _, machine) = sealed(case);
    let random = &mut case.random;
    let number = match random.below(3) {
        0 => one_of(random, &NUMBERS),
        1 => one_of(random, &numbers_around(machine.last)),
        _ => random.number(),
    };
    let arm = machine.arm ^ u32::from(random.once_in(3));
    let length = machine.n() ^ (u64::from(random.once_in(3)) << random.below(61));
    let mut made = Slip {
        length,
        arm,
        number,
        tag: machine.tag(&slip::nonce(arm, number)),
    };
    let verdict = if arm == machine.arm && length == machine.n() {
        by_number(number, machine.last)
    } else {
        NotGenuine
    };
    expect(case, &lent, &made.pack(), Ok(verdict));
    for version in 0..8 {
        let mut bytes = made.pack();
        bytes[0] = (bytes[0] & 0x1f) | (version << 5);
        let expected = if version == 1 { Ok(verdict) } else { Err(8) };
        expect(case, &lent, &bytes, expected);
    }
    made.tag = case.random.block();
    expect(case, &lent, &made.pack(), Ok(NotGenuine));
}

/// Seals until no number is left, then refuses 6; 7 stands before 6. Of the
/// slips, all of the same bytes, the last stays current.
pub fn last_numbers(case: &mut Case) {
    let mut lent = Lent::new();
    let left = case.random.below(5);
    let call = Call::Start {
        key: case.random.bytes(16),
        arm: 1,
        last: u64::MAX - left,
        n: case.random.below(100),
        fill: case.random.some_fill(),
    };
    assert_eq!(case.call(&call, &mut lent), 0);
    let mut slips = Vec::new();
    for seal in 0..left + 3 {
        lent.out = output(&mut case.random, SLIP_BYTES + 1);
        assert_eq!(case.call(&Call::Seal, &mut lent), 7);
        lent.out = output(&mut case.random, SLIP_BYTES);
        let expected = if seal < left { 0 } else { 6 };
        assert_eq!(case.call(&Call::Seal, &mut lent), expected);
        if expected == 0 {
            slips.push(lent.out.clone());
        }
    }
    assert_eq!(lent.fields().last, u64::MAX);
    if let Some(newest) = slips.pop() {
        expect(case, &lent, &newest, Ok(Current));
    }
    for older in slips {
        expect(case, &lent, &older, Ok(Stale));
    }
    for last in NUMBERS {
        let mut other = lent.fields();
        other.last = last;
        let mut lent = lent.clone();
        lent.state = other.state_bytes();
        case.call(&Call::Seal, &mut lent);
    }
}
