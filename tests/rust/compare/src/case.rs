//! Cases: seeds, counts and the report of a failing case.
//!
//! The inputs of a case follow from its seed alone, a decimal number: the last
//! six digits are the case's index in its part, the three before them the
//! part's number, and what is left the round. COMPARE_SEED runs one case
//! again; COMPARE_ROUND, a number, takes other random inputs.

use std::sync::Mutex;
use std::time::Instant;

use reference::random::Random;
use reference::State;

use crate::call::{Call, Lent};
use crate::edge::report_faults;
use crate::library::{fields, Stand};
use crate::say;

/// A part of the comparison: its name, how many cases it has, and a case.
pub type Part = (&'static str, u64, fn(&mut Case));

/// How many calls were answered by each number, from 0 to 15, and how many
/// checks came to each verdict, from 0 to 3.
#[derive(Clone, Copy, Default)]
pub struct Tally {
    answers: [u64; 16],
    verdicts: [u64; 4],
}

/// The one number that no call here is answered by: a text of so many bytes is
/// only claimed, in tests/claimed.rs.
const CLAIMED: usize = 13;

impl Tally {
    fn calls(&self) -> u64 {
        self.answers.iter().sum()
    }

    fn add(&mut self, other: Tally) {
        let counts = self.answers.iter_mut().chain(&mut self.verdicts);
        for (count, more) in counts.zip(other.answers.into_iter().chain(other.verdicts)) {
            *count += more;
        }
    }

    /// The verdicts as a part reports them: nothing where it checks no slip.
    fn shown_verdicts(&self) -> String {
        match self.verdicts {
            [0, 0, 0, 0] => String::new(),
            verdicts => format!(", verdicts {verdicts:?}"),
        }
    }
}

/// One case: its random generator, and a tally of the calls it has made.
pub struct Case {
    pub random: Random,
    seed: u64,
    tally: Tally,
}

/// The case that is run, for its report: its seed, how many calls it has begun,
/// and the latest of them.
struct Running {
    seed: u64,
    calls: u64,
    latest: Option<(Call, Lent)>,
}

static RUNNING: Mutex<Option<Running>> = Mutex::new(None);

impl Case {
    fn new(seed: u64) -> Case {
        let case = Case {
            random: Random::new(seed),
            seed,
            tally: Tally::default(),
        };
        case.begins(None);
        case
    }

    /// Notes a call that begins, or that none has yet.
    fn begins(&self, latest: Option<(Call, Lent)>) {
        let calls = self.tally.calls() + u64::from(latest.is_some());
        *RUNNING.lock().expect("no panic here") = Some(Running {
            seed: self.seed,
            calls,
            latest,
        });
    }

    /// The index of the case in its part, from 0 on.
    pub fn index(&self) -> u64 {
        self.seed % 1_000_000
    }

    /// How many checks of the case have come to each verdict until now.
    pub fn verdicts(&self) -> [u64; 4] {
        self.tally.verdicts
    }

    /// Makes a call by the library, by its wrapper and by `reference`, holds
    /// them to the same outcome, and leaves in `lent` what it is afterwards.
    /// Returns 0 or the refusal number. A replay is made with its forecast.
    pub fn call(&mut self, call: &Call, lent: &mut Lent) -> u64 {
        match call {
            Call::Replay { journal } => self.foretold(call, journal, lent),
            _ => self.compared(call, lent),
        }
    }

    /// Makes and compares this one call.
    pub(crate) fn compared(&mut self, call: &Call, lent: &mut Lent) -> u64 {
        self.begins(Some((call.clone(), lent.clone())));
        let lead = self.random.below(16) as usize;
        let expected = call.by_reference(lent);
        for stand in [Stand::AtThePage, Stand::AmongCanaries(lead)] {
            let outcome = call.by_library(lent, stand);
            let (answer, after) = outcome.unwrap_or_else(|fault| panic!("the library {fault}"));
            if (answer, &after) != (expected.0, &expected.1) {
                panic!(
                    "not the same\n  library   answers {answer}, {after}\n  \
                     reference answers {}, {}",
                    expected.0, expected.1
                );
            }
        }
        let (answer, after) = call.by_wrapper(lent);
        if (answer, &after) != (expected.0, &expected.1) {
            panic!("the wrapper answers {answer}, {after}, unlike the library");
        }
        fields_are_read(&after);
        self.tally.answers[answer as usize] += 1;
        if let (Call::Check { .. }, 0) = (call, answer) {
            self.tally.verdicts[usize::from(after.verdict)] += 1;
        }
        *lent = after;
        answer
    }
}

/// Holds the calls that read a state's fields to the fields themselves. They
/// refuse no state, so any that a call has left will do.
fn fields_are_read(lent: &Lent) {
    let held = armfile::State::from_bytes(lent.state);
    let read = (
        held.length(),
        held.arm(),
        held.last(),
        held.sum(),
        held.hash_key(),
    );
    let by_library = fields(&lent.state).unwrap_or_else(|fault| panic!("the library {fault}"));
    let State {
        n, arm, last, s, h, ..
    } = lent.fields();
    let expected = (n, arm, last, s, h);
    assert_eq!(read, expected, "length, arm, last, sum and hash key");
    assert_eq!(by_library, expected, "length, arm, last, sum and hash key");
    assert_eq!(held.as_bytes(), &lent.state, "the state that was only read");
}

/// Reports the case where a panic ends it.
impl Drop for Case {
    fn drop(&mut self) {
        if std::thread::panicking() {
            report();
        }
    }
}

/// Reports the case that is run, and how to run it again.
fn report() {
    let running = RUNNING.try_lock().ok();
    let Some(Running {
        seed,
        calls,
        latest,
    }) = running.as_deref().and_then(Option::as_ref)
    else {
        return;
    };
    say(&format!("failed at or after call {calls} of this case"));
    if let Some((call, lent)) = latest {
        say(&format!("  latest {call}\n  before {lent}"));
    }
    say(&format!(
        "again, from the root of the repository: COMPARE_SEED={seed} ARMFILE_LIB=target/lib \
         cargo test --offline --manifest-path tests/rust/Cargo.toml -p compare --test compare"
    ));
}

/// A number from the environment, if it is set.
fn given(name: &str) -> Option<u64> {
    let text = std::env::var(name).ok()?;
    Some(
        text.parse()
            .unwrap_or_else(|_| panic!("{name} is not a number")),
    )
}

/// Runs the case that COMPARE_SEED names.
fn run_again(parts: &[Part], seed: u64) {
    let number = (seed / 1_000_000 % 1_000) as usize;
    let (name, _, run) = parts.get(number).expect("COMPARE_SEED names no part");
    say(&format!("{name}: the case of seed {seed}"));
    let mut case = Case::new(seed);
    run(&mut case);
    say(&format!("{} calls, all the same", case.tally.calls()));
}

/// Runs the parts, or the one case that COMPARE_SEED names. All of them make
/// at least so many calls, and each number but 13 is answered by some.
pub fn run(parts: &[Part], least: u64) {
    report_faults(report);
    if let Some(seed) = given("COMPARE_SEED") {
        return run_again(parts, seed);
    }
    let round = given("COMPARE_ROUND").unwrap_or(0);
    let begin = Instant::now();
    let mut total = Tally::default();
    for (number, (name, cases, run)) in parts.iter().enumerate() {
        let part_begin = Instant::now();
        let first = round * 1_000_000_000 + number as u64 * 1_000_000;
        let mut tally = Tally::default();
        for seed in first..first + cases {
            let mut case = Case::new(seed);
            run(&mut case);
            tally.add(case.tally);
        }
        let (last, calls) = (first + cases - 1, tally.calls());
        let (verdicts, seconds) = (tally.shown_verdicts(), part_begin.elapsed().as_secs_f64());
        say(&format!(
            "{name}: seeds {first} to {last}, {calls} calls{verdicts}, {seconds:.1} s"
        ));
        total.add(tally);
    }
    let (calls, seconds) = (total.calls(), begin.elapsed().as_secs_f64());
    let Tally { answers, verdicts } = total;
    say(&format!("calls by their answers, 0 to 15: {answers:?}"));
    say(&format!("checks by their verdicts, 0 to 3: {verdicts:?}"));
    say(&format!(
        "{calls} calls compared with the second implementation, in {seconds:.1} s"
    ));
    assert!(calls >= least, "fewer than {least} calls");
    let numbers = 0..answers.len();
    let unanswered: Vec<usize> = numbers.filter(|&number| answers[number] == 0).collect();
    assert_eq!(unanswered, [CLAIMED], "answers that no call had");
}
