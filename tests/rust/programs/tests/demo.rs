//! What the demo program must print, made again by the plain machine, which
//! holds the bytes themselves. The program is run, and its output held to
//! crates/demo/stdout, by the toolchain's own check.

use std::fs::File;
use std::process::{Command, Stdio};

use reference::blank;
use reference::forecast;
use reference::journal::Edit;
use reference::machine::Machine;
use reference::Verdict::{self, Ahead, Current, NotGenuine, Stale};

const KEY: &[u8; 16] = b"a key for arm 7.";

/// What a byte of the blank card reads.
const FILL: u8 = 0xff;

fn hex(bytes: &[u8]) -> String {
    bytes.iter().map(|b| format!("{b:02x}")).collect()
}

fn step(text: &mut String, name: &str, machine: &Machine, count: u64) {
    replay(text, name, machine, count, "");
}

/// A step that also says where a replay stopped, or nothing.
fn replay(text: &mut String, name: &str, machine: &Machine, count: u64, stop: &str) {
    let sum = hex(&machine.sum());
    let n = machine.n();
    text.push_str(&format!(
        "{name}: length {n}, sum {sum}, count {count}{stop}\n"
    ));
}

/// The forecast of a journal for the file that the machine holds.
fn forecast(text: &mut String, name: &str, machine: &Machine, journal: &[u8]) {
    let told = forecast::forecast(machine.n(), journal);
    let stop = match told.refusal {
        Some(number) => format!("refused {number}"),
        None => "done".to_string(),
    };
    let (bound, greatest, offset) = (told.bound, told.greatest, told.offset);
    text.push_str(&format!(
        "{name}: bound {bound}, greatest length {greatest}, {stop} at {offset}\n"
    ));
}

/// A seal, and its slip.
fn seal(text: &mut String, name: &str, machine: &mut Machine) -> [u8; 36] {
    let mut slip = [0; 36];
    machine.seal(&mut slip).unwrap();
    text.push_str(&format!("{name}: slip {}\n", hex(&slip)));
    slip
}

/// A check that must come to this verdict.
fn check(text: &mut String, name: &str, machine: &Machine, slip: &[u8], verdict: Verdict) {
    assert_eq!(machine.check(slip), Ok(verdict), "{name}");
    let word = match verdict {
        NotGenuine => "not genuine",
        Current => "current",
        Stale => "stale",
        Ahead => "ahead",
    };
    text.push_str(&format!("{name}: {word}\n"));
}

/// The file from the blank card on, up to the first seal.
fn edited(text: &mut String) -> Machine {
    let mut machine = Machine::start(KEY, 7, 0, 40, FILL).unwrap();
    let count = blank::count(FILL, 40);
    step(text, "start with 40 bytes of FF", &machine, count);
    let count = machine.change(15, &[FILL; 3], b"new").unwrap();
    step(text, "change bytes 15 to 17", &machine, count);
    let count = machine.append(b"gripper A").unwrap();
    step(text, "append 9 bytes", &machine, count);
    let count = machine.prepend(b"motion file head").unwrap();
    step(text, "prepend 16 bytes", &machine, count);
    let count = machine.cut_tail(b"er A").unwrap();
    step(text, "cut 4 bytes", &machine, count);
    replayed(text, &mut machine);
    machine
}

/// A journal of two records, cut short by its last byte, and then whole. What is
/// forecast of it is for the file of before, each time.
fn replayed(text: &mut String, machine: &mut Machine) {
    let before = machine.clone();
    let change = Edit::Change {
        p: 31,
        old: b"new".to_vec(),
        new: b"now".to_vec(),
    };
    let journal = [change.pack(), Edit::Append(b"er B".to_vec()).pack()].concat();
    let (_, cut) = journal.split_last().unwrap();
    forecast(text, "forecast a journal cut short", &before, cut);
    // Of the journal cut short the second record is refused; it begins behind
    // a head of 12 bytes, 3 old ones and 3 new ones.
    let first = machine.change(31, b"new", b"now").unwrap();
    let stop = ", refused 10 at 18";
    replay(text, "replay a journal cut short", machine, first, stop);
    forecast(text, "forecast the whole journal", &before, &journal);
    let count = first + machine.append(b"er B").unwrap();
    let stop = ", done at 34";
    replay(text, "replay the whole journal", machine, count, stop);
}

/// Sealed, changed and sealed, changed back and sealed. Returns the last slip.
fn sealed(text: &mut String, machine: &mut Machine) -> [u8; 36] {
    let tuesday = seal(text, "seal on Tuesday", machine);
    let count = machine.change(56, b"gripper B", b"gripper C").unwrap();
    step(text, "change the format", machine, count);
    seal(text, "seal on Wednesday", machine);
    let count = machine.change(56, b"gripper C", b"gripper B").unwrap();
    step(text, "undo the change", machine, count);
    let thursday = seal(text, "seal on Thursday", machine);
    let friday = "check Tuesday's slip on Friday";
    check(text, friday, machine, &tuesday, Stale);
    let friday = "check Thursday's slip on Friday";
    check(text, friday, machine, &thursday, Current);
    thursday
}

#[test]
fn the_demo_prints_what_the_machine_says() {
    let mut text = String::new();
    let mut machine = edited(&mut text);
    let slip = sealed(&mut text, &mut machine);
    let card = machine.bytes;
    let mut flipped = card.clone();
    flipped[40] ^= 1;
    for (name, last, card, verdict) in [
        ("check after reading the card", 3, &card, Current),
        ("check where seal 3 is unknown", 2, &card, Ahead),
        ("check with one bit flipped", 3, &flipped, NotGenuine),
    ] {
        let restarted = Machine::read(KEY, 7, last, card).unwrap();
        step(&mut text, "read the card", &restarted, 0);
        check(&mut text, name, &restarted, &slip, verdict);
    }
    assert_eq!(text, include_str!("../../../../crates/demo/stdout"));
}

/// Where nothing can be written, that is told, once, on standard error.
#[test]
fn a_full_output_is_told() {
    let path = std::env::var_os("DEMO_PROGRAM")
        .expect("set DEMO_PROGRAM to the path of the built demo program");
    let full = File::options().write(true).open("/dev/full");
    let mut command = Command::new(path);
    command.stdout(full.expect("/dev/full")).stderr(Stdio::piped());
    let output = command.output().expect("DEMO_PROGRAM is run");
    let told = String::from_utf8(output.stderr).expect("text");
    assert_eq!(told, "demo: standard output cannot be written\n");
}
