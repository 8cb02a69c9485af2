//! Lengths that C can claim and no slice in Rust has. A refusal of such a
//! length comes before any of its bytes is touched: they stand on a page that
//! may be neither read nor written, and a call that touches it ends by a
//! signal, which is seen from a process of its own. A length that is not too
//! long is not refused: the call goes on to its bytes.

#![cfg(target_os = "linux")]

use std::sync::OnceLock;

use armfile::ffi::c;
use armfile::{MAX_BYTES, MAX_JOURNAL_BYTES, MAX_TEXT_BYTES, SLIP_BYTES};
use compare::edge::{faults, Edge};
use reference::calls::{block_refusal, gcm_refusal, ghash_refusal, gmac_refusal};
use reference::join;
use reference::journal::{
    replay_refusal, Edit, Head, APPEND, CHANGE, CUT_TAIL, DROP_FRONT, PREPEND,
};
use reference::refusal::{
    refuse, too_long, BAD_BUFFER, BAD_VERSION, NOT_SIXTEEN, TOO_LONG, UNEQUAL, USED_UP, WRONG_TAG,
};
use reference::State;

/// Lengths of inputs: true ones, up to `TRUE`, and claimed ones. The header
/// asks for less than 2^63.
const LENGTHS: [usize; 10] = [
    0,
    20,
    (1 << 32) + 16,
    LIMIT - 15,
    LIMIT,
    LIMIT + 1,
    LIMIT + 2,
    LIMIT + 17,
    1 << 62,
    (1 << 63) - 1,
];
const LIMIT: usize = MAX_BYTES as usize;

/// Lengths of keys and blocks, and of outputs: 16 in their lowest bits among
/// them.
const SIZES: [usize; 5] = [15, 16, 17, (1 << 32) + 16, (1 << 61) + 16];

/// How many lengths of parts: true ones, and claimed ones.
const COUNTS: [usize; 9] = [
    0,
    1,
    2,
    4,
    9,
    (1 << 28) + 1,
    (1 << 32) + 2,
    1 << 57,
    (1 << 59) - 1,
];

/// The longest text to encrypt or to decrypt.
const TEXT_LIMIT: usize = MAX_TEXT_BYTES as usize;

/// Lengths of a file.
const FILES: [u64; 9] = [
    0,
    1,
    40,
    1 << 32,
    MAX_BYTES - 16,
    MAX_BYTES - 1,
    MAX_BYTES,
    MAX_BYTES + 1,
    u64::MAX,
];

/// The longest length for which there are bytes.
const TRUE: usize = 64;

/// What those bytes are.
const FILL: u8 = 0x5e;

/// A page that may be neither read nor written. Bytes for the true lengths end
/// at it.
fn forbidden() -> *mut u8 {
    static EDGE: OnceLock<Edge> = OnceLock::new();
    let filled = || {
        let mut edge = Edge::new(TRUE);
        edge.last(TRUE).fill(FILL);
        edge
    };
    EDGE.get_or_init(filled).end()
}

/// An input of a length.
fn input(length: usize) -> *const u8 {
    let there = if length <= TRUE { length } else { 0 };
    forbidden().wrapping_sub(there)
}

/// An output of a length, for which these are the bytes if it is a true one.
fn output(bytes: &mut [u8; TRUE], length: usize) -> *mut u8 {
    if length <= TRUE {
        return bytes.as_mut_ptr();
    }
    forbidden()
}

/// What a call is lent for writing.
#[derive(Clone, PartialEq, Debug)]
struct Lent {
    state: [u8; 84],
    out: [u8; TRUE],
    tag: [u8; TRUE],
    count: u64,
    offset: u64,
    bound: u64,
    greatest: u64,
    verdict: u8,
}

impl Lent {
    /// A state of n bytes.
    fn of(n: u64) -> Lent {
        let state = State {
            n,
            last: u64::MAX,
            ..State::default()
        };
        Lent {
            state: state.state_bytes(),
            out: [0xee; TRUE],
            tag: [0xee; TRUE],
            count: 0xeeee,
            offset: 0xeeee,
            bound: 0xeeee,
            greatest: 0xeeee,
            verdict: 0xee,
        }
    }

    /// An output of a length.
    fn out(&mut self, length: usize) -> *mut u8 {
        output(&mut self.out, length)
    }

    /// A tag to be written, of a length.
    fn tag(&mut self, length: usize) -> *mut u8 {
        output(&mut self.tag, length)
    }
}

/// Holds a call to what it must answer. One that is refused touches no claimed
/// byte and alters nothing. One that is accepted, and to which bytes are
/// `claimed`, goes on to them.
fn expect(
    name: &str,
    expected: Result<(), u64>,
    claimed: bool,
    lent: &Lent,
    call: impl FnMut(&mut Lent) -> u64,
) {
    expect_left(name, expected, claimed, [lent, lent], call);
}

/// So does this, where a refused call turns what it is lent into something
/// else.
fn expect_left(
    name: &str,
    expected: Result<(), u64>,
    claimed: bool,
    [lent, left]: [&Lent; 2],
    mut call: impl FnMut(&mut Lent) -> u64,
) {
    let mut after = lent.clone();
    match expected {
        Err(number) => {
            let touched = ends_by_the_page(|| call(&mut after));
            assert!(!touched, "{name} touches what it must refuse");
            assert_eq!(call(&mut after), number, "{name}");
            assert_eq!(&after, left, "what {name}, refused, leaves");
        }
        Ok(()) if claimed => assert!(
            ends_by_the_page(|| call(&mut after)),
            "{name} reads nothing"
        ),
        Ok(()) => {}
    }
}

/// Whether a call touches the page, in a process of its own.
fn ends_by_the_page(call: impl FnOnce() -> u64) -> bool {
    forbidden(); // so that the new process need not wait for who makes it
    faults(|| {
        call();
    })
}

fn wide(length: usize) -> u64 {
    length as u64
}

#[test]
fn the_page_is_forbidden() {
    // SAFETY: the read is in a process that it ends.
    assert!(ends_by_the_page(
        || unsafe { forbidden().read_volatile() }.into()
    ));
    assert!(!ends_by_the_page(|| 0));
}

#[test]
fn block_calls() {
    for one in SIZES {
        for two in SIZES {
            for size in SIZES {
                let expected = block_refusal(wide(one), wide(two), wide(size));
                for (name, function) in [
                    (
                        "encrypt",
                        c::armfile_encrypt as unsafe extern "C" fn(_, _, _, _, _, _) -> _,
                    ),
                    ("multiply", c::armfile_multiply),
                ] {
                    let name = format!("{name} of {one}, {two} to {size}");
                    expect(&name, expected, false, &Lent::of(0), |lent| {
                        let out = lent.out(size);
                        // SAFETY: what is claimed is on the forbidden page.
                        unsafe { function(input(one), one, input(two), two, out, size) }
                    });
                }
            }
        }
    }
}

/// GHASH and GMAC: the key, two inputs and the output.
#[test]
fn hashes() {
    for key in SIZES {
        for one in LENGTHS {
            for two in LENGTHS {
                for size in SIZES {
                    let lengths = (wide(key), wide(one), wide(two), wide(size));
                    let claimed = one > TRUE || two > TRUE;
                    let name = format!("ghash of {lengths:?}");
                    let expected = ghash_refusal(lengths.0, lengths.1, lengths.2, lengths.3);
                    expect(&name, expected, claimed, &Lent::of(0), |lent| {
                        let (h, a, b) = (input(key), input(one), input(two));
                        // SAFETY: what is claimed is on the forbidden page.
                        unsafe { c::armfile_ghash(h, key, a, one, b, two, lent.out(size), size) }
                    });
                    let name = format!("gmac of {lengths:?}");
                    let expected = gmac_refusal(lengths.0, lengths.1, lengths.2, lengths.3);
                    expect(&name, expected, claimed, &Lent::of(0), |lent| {
                        let (k, nonce, a) = (input(key), input(one), input(two));
                        // SAFETY: what is claimed is on the forbidden page.
                        unsafe { c::armfile_gmac(k, key, nonce, one, a, two, lent.out(size), size) }
                    });
                }
            }
        }
    }
}

/// A join of H and of sums of these sizes, and of so many lengths. Those that are
/// true are of a byte that makes each of them broken, and too long.
fn join_of(h: usize, sums: usize, count: usize) {
    let claimed = 8 * count > TRUE;
    let there = if claimed { 0 } else { count };
    let lengths = [u64::from_ne_bytes([FILL; 8]); TRUE / 8];
    let expected = join::size_refusal(wide(h), wide(sums), wide(count))
        .and_then(|()| join::length_refusal(&lengths[..there]));
    let name = format!("join under {h} of {sums}, {count} lengths");
    expect(&name, expected, claimed, &Lent::of(0), |lent| {
        let (k, s, first) = (input(h), input(sums), input(8 * count).cast());
        let (sum, n) = (lent.out.as_mut_ptr(), &mut lent.count);
        // SAFETY: what is claimed is on the forbidden page.
        unsafe { c::armfile_join(k, h, s, sums, first, count, sum, n) }
    });
}

/// As many sums as lengths, and more or less of them, by few bytes or by bits
/// that a shorter number would lose.
#[test]
fn joins() {
    for count in COUNTS {
        let fit = 16 * count;
        let more = [1, 15, 16, 17].map(|by| fit + by);
        let less = [1, 15, 16, 17].map(|by| fit.wrapping_sub(by));
        let bits = [32, 36, 60, 61, 62].map(|bit| fit ^ (1 << bit));
        let sizes = [&more[..], &less, &bits, &[0, count, fit % (1 << 32), fit]].concat();
        for sums in sizes.into_iter().filter(|&sums| sums < 1 << 63) {
            for h in SIZES {
                join_of(h, sums, count);
            }
        }
    }
    for sums in [0, 16, (1 << 63) - 16] {
        join_of(16, sums, (1 << 60) - 1);
    }
}

/// Both calls of GCM, on arguments of these lengths: key, nonce, associated
/// data, text, output and tag. No tag lent here fits.
fn gcm(lengths: [usize; 6]) {
    let [key, nonce, aad, text, out, tag] = lengths;
    let [k, n, a, t, given] = [key, nonce, aad, text, tag].map(input);
    let claimed = lengths.into_iter().any(|length| length > TRUE);
    let by_length = gcm_refusal(lengths.map(wide));
    let name = format!("gcm_encrypt of {lengths:?}");
    expect(&name, by_length, claimed, &Lent::of(0), |lent| {
        let (o, made) = (lent.out(out), lent.tag(tag));
        // SAFETY: what is claimed is on the forbidden page.
        unsafe { c::armfile_gcm_encrypt(k, key, n, nonce, a, aad, t, text, o, out, made, tag) }
    });
    let name = format!("gcm_decrypt of {lengths:?}");
    let expected = if claimed {
        by_length
    } else {
        by_length.and(Err(WRONG_TAG))
    };
    expect(&name, expected, claimed, &Lent::of(0), |lent| {
        let o = lent.out(out);
        // SAFETY: what is claimed is on the forbidden page.
        unsafe { c::armfile_gcm_decrypt(k, key, n, nonce, a, aad, t, text, o, out, given, tag) }
    });
}

/// Each length of GCM in turn, the others right. Text and output have the same.
#[test]
fn gcm_lengths() {
    for length in SIZES {
        gcm([length, 12, 20, 40, 40, 16]);
        gcm([16, 12, 20, 40, 40, length]);
    }
    for length in LENGTHS {
        gcm([16, length, 20, 40, 40, 16]);
        gcm([16, 12, length, 40, 40, 16]);
    }
    let around = [TEXT_LIMIT - 1, TEXT_LIMIT, TEXT_LIMIT + 1, TEXT_LIMIT + 32];
    for length in LENGTHS.into_iter().chain(around).chain([(1 << 40) + 20]) {
        gcm([16, 12, 20, length, length, 16]);
        for other in [length ^ 1, length ^ (1 << 32), length ^ (1 << 36)] {
            gcm([16, 12, 20, length, other, 16]);
        }
    }
}

/// Every set of GCM's causes: each argument right, or wrong in each way.
#[test]
fn gcm_causes() {
    for key in [15, 16] {
        for nonce in [0, 12, LIMIT, LIMIT + 1] {
            for aad in [20, LIMIT, LIMIT + 1] {
                for text in [0, 40, TEXT_LIMIT, TEXT_LIMIT + 1, LIMIT + 1] {
                    for more in [0, 1] {
                        for tag in [16, 17] {
                            gcm([key, nonce, aad, text, text + more, tag]);
                        }
                    }
                }
            }
        }
    }
}

/// Start and read, whose file has the claimed length.
#[test]
fn states() {
    for key in SIZES {
        for length in LENGTHS {
            let expected = refuse(&[
                (key != 16, NOT_SIXTEEN),
                (too_long(length as u128), TOO_LONG),
            ]);
            let name = format!("read of a key of {key}, a file of {length}");
            expect(&name, expected, length > TRUE, &Lent::of(7), |lent| {
                let (k, file, state) = (input(key), input(length), lent.state.as_mut_ptr());
                // SAFETY: what is claimed is on the forbidden page.
                unsafe { c::armfile_read(k, key, 1, 2, file, length, state) }
            });
            for fill in [0, 1, 0xff] {
                let name = format!("start of a key of {key}, {length} bytes of {fill}");
                expect(&name, expected, false, &Lent::of(7), |lent| {
                    let (k, n) = (input(key), wide(length));
                    let (state, count) = (lent.state.as_mut_ptr(), &mut lent.count);
                    // SAFETY: what is claimed is on the forbidden page.
                    unsafe { c::armfile_start(k, key, 1, 2, n, fill, state, count) }
                });
            }
        }
    }
}

/// The edits that take one run of bytes.
type EndEdit = unsafe extern "C" fn(*mut u8, *const u8, usize, *mut u64) -> u64;

/// The refusal of an edit, by its kind in a journal, from its place and the
/// number of its bytes alone. Both may be larger than a record can hold.
fn edit_refusal(kind: u64, n: u64, p: u64, l: u64) -> Result<(), u64> {
    Head { kind, p, l }.edit_refusal(n)
}

#[test]
fn edits() {
    let edits: [(&str, EndEdit, u64); 4] = [
        ("append", c::armfile_append, APPEND),
        ("prepend", c::armfile_prepend, PREPEND),
        ("drop_front", c::armfile_drop_front, DROP_FRONT),
        ("cut_tail", c::armfile_cut_tail, CUT_TAIL),
    ];
    for n in FILES {
        for l in LENGTHS {
            for (name, function, kind) in edits {
                let name = format!("{name} of {l} bytes, file of {n}");
                let expected = edit_refusal(kind, n, 0, wide(l));
                expect(&name, expected, l > TRUE, &Lent::of(n), |lent| {
                    // SAFETY: what is claimed is on the forbidden page.
                    unsafe { function(lent.state.as_mut_ptr(), input(l), l, &mut lent.count) }
                });
            }
        }
    }
}

#[test]
fn changes() {
    let lengths = LENGTHS.into_iter().chain([(1 << 32) + 20]);
    let pairs: Vec<_> = lengths.flat_map(|l| [(l, l), (l, 20), (20, l)]).collect();
    for n in FILES {
        for &(old, new) in &pairs {
            for p in [
                0,
                1,
                n / 2,
                n,
                n.wrapping_add(1),
                1 << 63,
                u64::MAX - 19,
                u64::MAX,
            ] {
                let first = [(too_long(n.into()), TOO_LONG), (old != new, UNEQUAL)];
                let expected = refuse(&first).and_then(|()| edit_refusal(CHANGE, n, p, wide(new)));
                let name = format!("change at {p} of {old} bytes to {new}, file of {n}");
                expect(&name, expected, old > TRUE, &Lent::of(n), |lent| {
                    let (before, after) = (input(old), input(new));
                    let (state, count) = (lent.state.as_mut_ptr(), &mut lent.count);
                    // SAFETY: what is claimed is on the forbidden page.
                    unsafe { c::armfile_change(state, p, before, old, after, new, count) }
                });
            }
        }
    }
}

/// A replay and a forecast of a journal of which no byte is there. One that is
/// too long leaves the state, and is at its first byte, with the file's length
/// the greatest.
#[test]
fn journals() {
    let limit = MAX_JOURNAL_BYTES as usize;
    let around = [limit - 1, limit, limit + 1, limit + 12, limit + (1 << 32)];
    for n in FILES {
        for length in LENGTHS.into_iter().chain(around) {
            let lent = Lent::of(n);
            let (count, offset) = (0, 0);
            let left = Lent {
                count,
                offset,
                ..lent.clone()
            };
            let name = format!("replay of {length} bytes, file of {n}");
            let expected = replay_refusal(n, wide(length));
            expect_left(&name, expected, length > TRUE, [&lent, &left], |lent| {
                replay(lent, input(length), length)
            });
            let (bound, greatest) = (0, n);
            let left = Lent {
                bound,
                greatest,
                offset,
                ..lent.clone()
            };
            let name = format!("forecast of {length} bytes, file of {n}");
            expect_left(&name, expected, length > TRUE, [&lent, &left], |lent| {
                forecast(lent, n, input(length), length)
            });
        }
    }
}

fn replay(lent: &mut Lent, journal: *const u8, length: usize) -> u64 {
    let (state, count, offset) = (lent.state.as_mut_ptr(), &mut lent.count, &mut lent.offset);
    // SAFETY: what is claimed is on the forbidden page.
    unsafe { c::armfile_replay(state, journal, length, count, offset) }
}

fn forecast(lent: &mut Lent, n: u64, journal: *const u8, length: usize) -> u64 {
    let (bound, greatest) = (&mut lent.bound, &mut lent.greatest);
    // SAFETY: what is claimed is on the forbidden page.
    unsafe { c::armfile_forecast(n, journal, length, bound, greatest, &mut lent.offset) }
}

/// Records of which only the head is there, after one that is whole or after
/// none, on a file that may be too short, long enough or full.
#[test]
fn records() {
    let mut edge = Edge::new(TRUE);
    let whole = Edit::Append(b"abc".to_vec()).pack();
    for (n, done) in [(40, &whole[..]), (1 << 33, &[]), (MAX_BYTES - 3, &whole)] {
        for kind in 0..8 {
            for p in [0, 1, MAX_BYTES] {
                for l in [0, 1, 16, 1 << 31, (1 << 32) - 16, (1 << 32) - 1] {
                    one_record(&mut edge, n, done, Head { kind, p, l });
                }
            }
        }
    }
}

/// A record after those that are done, with one byte less than it needs, with
/// all, with one more, and with as many as a journal may have.
fn one_record(edge: &mut Edge, n: u64, done: &[u8], head: Head) {
    let lent = Lent::of(n);
    let mut state = State::from_state_bytes(&lent.state);
    let replayed = state.replay(done);
    assert_eq!(replayed.refusal, None);
    let left = Lent {
        state: state.state_bytes(),
        count: replayed.count,
        offset: replayed.offset,
        ..lent.clone()
    };
    let there = [done, &head.pack()].concat();
    let at_the_page = edge.last(there.len());
    at_the_page.copy_from_slice(&there);
    let journal = at_the_page.as_ptr();
    let body = head.body();
    let all = MAX_JOURNAL_BYTES - wide(there.len());
    for remain in [body.saturating_sub(1), body, body + 1, all] {
        let expected = head
            .refusal(remain)
            .and_then(|()| head.edit_refusal(state.n));
        let name = format!("replay of {head:?} before {remain} bytes, file of {n}");
        expect_left(&name, expected, head.l > 0, [&lent, &left], |lent| {
            replay(lent, journal, there.len() + remain as usize)
        });
    }
}

/// Seal and check. No number is left to the seal, so no slip is written, and
/// the bytes are of no slip with version 1, so none is judged.
#[test]
fn slips() {
    let around = [35, SLIP_BYTES, 37, (1 << 32) + SLIP_BYTES];
    for n in FILES {
        for size in LENGTHS.into_iter().chain(around) {
            let past = (too_long(n.into()), TOO_LONG);
            let wrong = (size != SLIP_BYTES, BAD_BUFFER);
            let name = format!("seal of {size} bytes, file of {n}");
            let expected = refuse(&[past, wrong, (true, USED_UP)]);
            expect(&name, expected, false, &Lent::of(n), |lent| {
                let (slip, state) = (lent.out(size), lent.state.as_mut_ptr());
                // SAFETY: what is claimed is on the forbidden page.
                unsafe { c::armfile_seal(state, slip, size) }
            });
            let name = format!("check of {size} bytes, file of {n}");
            let expected = refuse(&[past, wrong, (true, BAD_VERSION)]);
            expect(&name, expected, false, &Lent::of(n), |lent| {
                let (state, verdict) = (lent.state.as_ptr(), &mut lent.verdict);
                // SAFETY: what is claimed is on the forbidden page.
                unsafe { c::armfile_check(state, input(size), size, verdict) }
            });
        }
    }
}
