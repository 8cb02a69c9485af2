//! The calls of the interface, as the library's wrapper and `reference` make
//! them; `library` has the library's own.

use std::fmt;

use armfile::{ffi, Forecast, Part, Refusal, StateBytes, BLOCK_BYTES, STATE_BYTES};
use reference::journal::Edit;
use reference::{calls, forecast, join, State};

use crate::hex;

/// A call made by the functions of a module, by a join, by a forecast and by the
/// methods of a state: but for those two, the wrapper and the second
/// implementation give them the same names.
macro_rules! made {
    (
        $call:expr, $module:ident, $join:path, $forecast:path,
        $state:ty, $held:ident, $after:ident
    ) => {{
        let out = &mut $after.out;
        match $call {
            Call::Encrypt { key, block } => $module::encrypt(key, block, out),
            Call::Multiply { a, b } => $module::multiply(a, b, out),
            Call::Ghash { h, a, c } => $module::ghash(h, a, c, out),
            Call::Join { h, sums, lengths } => {
                $join(h, sums, lengths).map(|whole| ($after.sum, $after.n) = whole)
            }
            Call::Gmac { key, nonce, a } => $module::gmac(key, nonce, a, out),
            Call::GcmEncrypt { message: m } => {
                $module::gcm_encrypt(&m.key, &m.nonce, &m.aad, &m.text, out, &mut $after.tag)
            }
            Call::GcmDecrypt { message: m, tag } => {
                $module::gcm_decrypt(&m.key, &m.nonce, &m.aad, &m.text, out, tag)
            }
            Call::Start {
                key,
                arm,
                last,
                n,
                fill,
            } => <$state>::start(key, *arm, *last, *n, *fill)
                .map(|started| ($held, $after.count) = started),
            Call::Read {
                key,
                arm,
                last,
                file,
            } => <$state>::read(key, *arm, *last, file).map(|state| $held = state),
            Call::Change { p, old, new } => $held.change(*p, old, new).map(|c| $after.count = c),
            Call::Append { bytes } => $held.append(bytes).map(|c| $after.count = c),
            Call::Prepend { bytes } => $held.prepend(bytes).map(|c| $after.count = c),
            Call::DropFront { bytes } => $held.drop_front(bytes).map(|c| $after.count = c),
            Call::CutTail { bytes } => $held.cut_tail(bytes).map(|c| $after.count = c),
            Call::Replay { journal } => {
                let replayed = $held.replay(journal);
                ($after.count, $after.offset) = (replayed.count, replayed.offset);
                replayed.refusal.map_or(Ok(()), Err)
            }
            Call::Forecast { n, journal } => {
                let told = $forecast(*n, journal);
                ($after.bound, $after.greatest) = (told.bound, told.greatest);
                $after.offset = told.offset;
                told.refusal.map_or(Ok(()), Err)
            }
            Call::Seal => $held.seal(out),
            Call::Check { slip } => $held.check(slip).map(|v| $after.verdict = v.number()),
        }
    }};
}

/// A count, a bound, an offset or a length that no call has written yet.
pub const UNWRITTEN: u64 = 0xeeee_eeee_eeee_eeee;

/// A verdict that no check has written yet.
pub const UNJUDGED: u8 = 0xee;

/// How many bytes of an input or output the report of a failing case shows.
const SHOWN: usize = 1_100;

/// The first bytes in hexadecimal.
fn shown(bytes: &[u8]) -> String {
    let (first, more) = bytes.split_at(bytes.len().min(SHOWN));
    let rest = if more.is_empty() { "" } else { ".." };
    hex(first) + rest
}

/// A call and its arguments, but for what it is lent for writing.
#[derive(Clone)]
pub enum Call {
    Encrypt {
        key: Vec<u8>,
        block: Vec<u8>,
    },
    Multiply {
        a: Vec<u8>,
        b: Vec<u8>,
    },
    Ghash {
        h: Vec<u8>,
        a: Vec<u8>,
        c: Vec<u8>,
    },
    Join {
        h: Vec<u8>,
        sums: Vec<u8>,
        lengths: Vec<u64>,
    },
    Gmac {
        key: Vec<u8>,
        nonce: Vec<u8>,
        a: Vec<u8>,
    },
    GcmEncrypt {
        message: Message,
    },
    GcmDecrypt {
        message: Message,
        tag: Vec<u8>,
    },
    Start {
        key: Vec<u8>,
        arm: u32,
        last: u64,
        n: u64,
        fill: u8,
    },
    Read {
        key: Vec<u8>,
        arm: u32,
        last: u64,
        file: Vec<u8>,
    },
    Change {
        p: u64,
        old: Vec<u8>,
        new: Vec<u8>,
    },
    Append {
        bytes: Vec<u8>,
    },
    Prepend {
        bytes: Vec<u8>,
    },
    DropFront {
        bytes: Vec<u8>,
    },
    CutTail {
        bytes: Vec<u8>,
    },
    Replay {
        journal: Vec<u8>,
    },
    Forecast {
        n: u64,
        journal: Vec<u8>,
    },
    Seal,
    Check {
        slip: Vec<u8>,
    },
}

/// What GCM is to encrypt or to decrypt, and under what.
#[derive(Clone)]
pub struct Message {
    pub key: Vec<u8>,
    pub nonce: Vec<u8>,
    pub aad: Vec<u8>,
    pub text: Vec<u8>,
}

impl Message {
    fn inputs(&self) -> [(&'static str, &[u8]); 4] {
        [
            ("key", &self.key),
            ("nonce", &self.nonce),
            ("aad", &self.aad),
            ("text", &self.text),
        ]
    }
}

/// All that calls are lent for writing: the state, the output or slip, the tag
/// of an encryption, the count, the offset, the verdict, the sum and the length
/// of a join, and the bound and the greatest length of a forecast. A call is lent
/// some of them, and must leave the others.
#[derive(Clone, PartialEq, Eq)]
pub struct Lent {
    pub state: StateBytes,
    pub out: Vec<u8>,
    pub tag: Vec<u8>,
    pub count: u64,
    pub offset: u64,
    pub verdict: u8,
    pub sum: [u8; BLOCK_BYTES],
    pub n: u64,
    pub bound: u64,
    pub greatest: u64,
}

/// An answer, 0 or a refusal number, and what was lent as it is afterwards.
pub type Outcome = (u64, Lent);

/// The name of a call, its inputs and its numbers.
pub(crate) type Parts<'a> = (
    &'static str,
    Vec<(&'static str, &'a [u8])>,
    Vec<(&'static str, u64)>,
);

impl Call {
    /// The name of the call, its inputs and its numbers.
    pub(crate) fn parts(&self) -> Parts<'_> {
        match self {
            Call::Encrypt { key, block } => {
                let inputs = vec![("key", &key[..]), ("block", block)];
                ("encrypt", inputs, vec![])
            }
            Call::Multiply { a, b } => ("multiply", vec![("a", a), ("b", b)], vec![]),
            Call::Ghash { h, a, c } => {
                let inputs = vec![("h", &h[..]), ("a", a), ("c", c)];
                ("ghash", inputs, vec![])
            }
            Call::Join { h, sums, lengths } => {
                let numbers = lengths.iter().map(|&length| ("length", length));
                ("join", vec![("h", h), ("sums", sums)], numbers.collect())
            }
            Call::Gmac { key, nonce, a } => {
                let inputs = vec![("key", &key[..]), ("nonce", nonce), ("a", a)];
                ("gmac", inputs, vec![])
            }
            Call::GcmEncrypt { message } => ("gcm_encrypt", message.inputs().into(), vec![]),
            Call::GcmDecrypt { message, tag } => {
                let inputs = [&message.inputs()[..], &[("tag", tag)]].concat();
                ("gcm_decrypt", inputs, vec![])
            }
            Call::Start {
                key,
                arm,
                last,
                n,
                fill,
            } => {
                let numbers = vec![
                    ("arm", (*arm).into()),
                    ("last", *last),
                    ("n", *n),
                    ("fill", (*fill).into()),
                ];
                ("start", vec![("key", &key[..])], numbers)
            }
            Call::Read {
                key,
                arm,
                last,
                file,
            } => {
                let inputs = vec![("key", &key[..]), ("file", file)];
                let numbers = vec![("arm", (*arm).into()), ("last", *last)];
                ("read", inputs, numbers)
            }
            Call::Change { p, old, new } => {
                let inputs = vec![("old", &old[..]), ("new", new)];
                ("change", inputs, vec![("p", *p)])
            }
            Call::Append { bytes } => ("append", vec![("bytes", bytes)], vec![]),
            Call::Prepend { bytes } => ("prepend", vec![("bytes", bytes)], vec![]),
            Call::DropFront { bytes } => ("drop_front", vec![("bytes", bytes)], vec![]),
            Call::CutTail { bytes } => ("cut_tail", vec![("bytes", bytes)], vec![]),
            Call::Replay { journal } => ("replay", vec![("journal", journal)], vec![]),
            Call::Forecast { n, journal } => {
                ("forecast", vec![("journal", journal)], vec![("n", *n)])
            }
            Call::Seal => ("seal", vec![], vec![]),
            Call::Check { slip } => ("check", vec![("slip", slip)], vec![]),
        }
    }

    /// The record of a journal that holds this edit.
    pub fn record(&self) -> Vec<u8> {
        let edit = match self.clone() {
            Call::Change { p, old, new } => Edit::Change { p, old, new },
            Call::Append { bytes } => Edit::Append(bytes),
            Call::Prepend { bytes } => Edit::Prepend(bytes),
            Call::DropFront { bytes } => Edit::DropFront(bytes),
            Call::CutTail { bytes } => Edit::CutTail(bytes),
            _ => panic!("{self} is no edit"),
        };
        edit.pack()
    }

    /// The call as a controller in Rust makes it.
    pub fn by_wrapper(&self, before: &Lent) -> Outcome {
        let mut after = before.clone();
        let mut held = armfile::State::from_bytes(before.state);
        let answer = made!(
            self,
            armfile,
            wrapped_join,
            wrapped_forecast,
            armfile::State,
            held,
            after
        );
        after.state = *held.as_bytes();
        (answer.map_or_else(Refusal::number, |()| 0), after)
    }

    /// The call by the second implementation. That a refused call alters
    /// nothing, but for a replay and a forecast, is said here once more.
    pub fn by_reference(&self, before: &Lent) -> Outcome {
        let mut after = before.clone();
        let mut held = State::from_state_bytes(&before.state);
        let answer = made!(
            self,
            calls,
            join::join,
            forecast::forecast,
            State,
            held,
            after
        );
        after.state = held.state_bytes();
        let always_writes = matches!(self, Call::Replay { .. } | Call::Forecast { .. });
        match answer {
            Err(number) if !always_writes => (number, before.clone()),
            _ => (answer.err().unwrap_or(0), after),
        }
    }
}

/// A join by the wrapper, which takes each sum beside its length. Where they are
/// not so many, the function beneath it is called, and has to refuse.
fn wrapped_join(h: &[u8], sums: &[u8], lengths: &[u64]) -> Result<Part, Refusal> {
    if sums.len() != BLOCK_BYTES * lengths.len() {
        let answer = ffi::join(h, sums, lengths, &mut [0; BLOCK_BYTES], &mut 0);
        return Err(Refusal::Unknown(answer));
    }
    let blocks = sums.chunks(BLOCK_BYTES);
    let sums = blocks.map(|sum| sum.try_into().expect("16 bytes"));
    let parts: Vec<Part> = sums.zip(lengths.iter().copied()).collect();
    armfile::join(h, &parts)
}

/// A forecast by the wrapper, which has two functions for it: of a length, and of
/// a state that has this length. They must agree.
fn wrapped_forecast(n: u64, journal: &[u8]) -> Forecast {
    let told = armfile::forecast(n, journal);
    let state = State {
        n,
        ..State::default()
    };
    let held = armfile::State::from_bytes(state.state_bytes());
    assert_eq!(held.forecast(journal), told, "the forecast by a state");
    told
}

impl fmt::Display for Call {
    fn fmt(&self, f: &mut fmt::Formatter) -> fmt::Result {
        let (name, inputs, numbers) = self.parts();
        write!(f, "{name}")?;
        for (name, number) in numbers {
            write!(f, ", {name} = {number}")?;
        }
        for (name, bytes) in inputs {
            write!(f, ", {name} = {} ({} bytes)", shown(bytes), bytes.len())?;
        }
        Ok(())
    }
}

impl Lent {
    /// Nothing of meaning lent yet.
    pub fn new() -> Lent {
        Lent {
            state: [0xee; STATE_BYTES],
            out: Vec::new(),
            tag: Vec::new(),
            count: UNWRITTEN,
            offset: UNWRITTEN,
            verdict: UNJUDGED,
            sum: [0xee; BLOCK_BYTES],
            n: UNWRITTEN,
            bound: UNWRITTEN,
            greatest: UNWRITTEN,
        }
    }

    /// The state's fields.
    pub fn fields(&self) -> State {
        State::from_state_bytes(&self.state)
    }
}

impl Default for Lent {
    fn default() -> Lent {
        Lent::new()
    }
}

impl fmt::Display for Lent {
    fn fmt(&self, f: &mut fmt::Formatter) -> fmt::Result {
        let (state, out, tag) = (hex(&self.state), shown(&self.out), hex(&self.tag));
        let (count, offset, verdict) = (self.count, self.offset, self.verdict);
        let (sum, n) = (hex(&self.sum), self.n);
        let (bound, greatest) = (self.bound, self.greatest);
        write!(
            f,
            "state {state}, out '{out}', tag '{tag}', count {count}, offset {offset}, \
             verdict {verdict}, sum {sum}, n {n}, bound {bound}, greatest {greatest}"
        )
    }
}
