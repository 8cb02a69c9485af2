//! The calls as the library makes them, by its functions for C. Every buffer is
//! lent from memory that ends at a page which may not be touched, an empty one
//! too.

#![allow(unsafe_code)]

use std::cell::RefCell;

use armfile::ffi::c;
use armfile::{StateBytes, BLOCK_BYTES};

use crate::call::{Call, Lent, Outcome};
use crate::edge::Edge;
use crate::guarded::{Guarded, WIDTH};

/// Where the buffers of a call stand.
#[derive(Clone, Copy)]
pub enum Stand {
    /// With their ends at the page, so that no byte behind them can be read.
    AtThePage,
    /// Among canaries and moved by this number, so that a buffer is lent at
    /// every alignment.
    AmongCanaries(usize),
}

impl Stand {
    /// How many canaries are behind the buffer with this index. Where buffers
    /// hold numbers of 64 bits, they are aligned.
    fn behind(self, index: usize) -> usize {
        match self {
            Stand::AtThePage => 0,
            Stand::AmongCanaries(_) if index < NUMBERS || index == LENGTHS => WIDTH,
            Stand::AmongCanaries(lead) => WIDTH + (lead + 5 * index) % 16,
        }
    }
}

/// How many buffers may be written and hold one number of 64 bits: count, offset,
/// n, bound and greatest, in this order, before all others.
const NUMBERS: usize = 5;

/// How many buffers may be written: behind those numbers state, output, tag,
/// verdict and sum, in this order. What is only read follows them.
const WRITTEN: usize = NUMBERS + 5;

/// The lengths of a join, of which every other call has none.
const LENGTHS: usize = WRITTEN;

/// Where a call's other inputs begin.
const OTHERS: usize = LENGTHS + 1;

/// The most of those.
const INPUTS: usize = 5;

/// What every buffer has room for at first.
const ROOM: usize = 1 << 16;

thread_local! {
    /// The memory that is lent, a piece for each buffer. Every call uses it
    /// again.
    static EDGES: RefCell<[Edge; OTHERS + INPUTS]> =
        RefCell::new(std::array::from_fn(|_| Edge::new(ROOM)));
}

impl Call {
    /// The call by the library's own functions; or what is wrong with canaries
    /// and inputs afterwards.
    pub fn by_library(&self, before: &Lent, stand: Stand) -> Result<Outcome, String> {
        let (_, inputs, _) = self.parts();
        let numbers = [
            before.count,
            before.offset,
            before.n,
            before.bound,
            before.greatest,
        ];
        let numbers = numbers.map(u64::to_ne_bytes);
        let lengths = self.lengths();
        let mut lent: Vec<(&'static str, &[u8])> = vec![
            ("count", &numbers[0]),
            ("offset", &numbers[1]),
            ("n", &numbers[2]),
            ("bound", &numbers[3]),
            ("greatest", &numbers[4]),
            ("state", &before.state),
            ("out", &before.out),
            ("tag", &before.tag),
            ("verdict", std::slice::from_ref(&before.verdict)),
            ("sum", &before.sum),
            ("lengths", &lengths),
        ];
        lent.extend(inputs);
        EDGES.with_borrow_mut(|edges| {
            let pairs = edges.iter_mut().zip(&lent).enumerate();
            let guard = |(index, (edge, &(name, bytes))): (usize, (_, &(_, &[u8])))| {
                Guarded::new(name, edge, bytes, stand.behind(index))
            };
            let mut guarded: Vec<Guarded> = pairs.map(guard).collect();
            let pointers: Vec<_> = guarded.iter_mut().map(Guarded::lent).collect();
            // SAFETY: each pointer is of a buffer of its own with that length.
            let answer = unsafe { self.answered(&pointers) };
            left(&mut guarded, &lent[WRITTEN..]).map(|after| (answer, after))
        })
    }

    /// The bytes of a join's lengths.
    fn lengths(&self) -> Vec<u8> {
        match self {
            Call::Join { lengths, .. } => lengths.iter().flat_map(|n| n.to_ne_bytes()).collect(),
            _ => Vec::new(),
        }
    }

    /// The library's answer to the call on these buffers, pointer and length of
    /// each, the other inputs in the order of `parts`.
    unsafe fn answered(&self, lent: &[(*mut u8, usize)]) -> u64 {
        let [count, offset, n, bound, greatest] = std::array::from_fn(|i| lent[i].0.cast::<u64>());
        let [(state, _), (out, room), tag, (verdict, _), (sum, _)] =
            std::array::from_fn(|i| lent[NUMBERS + i]);
        let at = |i: usize| lent[OTHERS + i].0.cast_const();
        let len = |i: usize| lent[OTHERS + i].1;
        match self {
            Call::Encrypt { .. } => c::armfile_encrypt(at(0), len(0), at(1), len(1), out, room),
            Call::Multiply { .. } => c::armfile_multiply(at(0), len(0), at(1), len(1), out, room),
            Call::Ghash { .. } => {
                c::armfile_ghash(at(0), len(0), at(1), len(1), at(2), len(2), out, room)
            }
            Call::Join { lengths, .. } => {
                let (first, count) = (lent[LENGTHS].0.cast(), lengths.len());
                c::armfile_join(at(0), len(0), at(1), len(1), first, count, sum, n)
            }
            Call::Gmac { .. } => {
                c::armfile_gmac(at(0), len(0), at(1), len(1), at(2), len(2), out, room)
            }
            Call::GcmEncrypt { .. } | Call::GcmDecrypt { .. } => {
                gcm_answered([(out, room), tag], &lent[OTHERS..])
            }
            Call::Start {
                arm, last, n, fill, ..
            } => c::armfile_start(at(0), len(0), *arm, *last, *n, *fill, state, count),
            Call::Read { arm, last, .. } => {
                c::armfile_read(at(0), len(0), *arm, *last, at(1), len(1), state)
            }
            Call::Change { p, .. } => {
                c::armfile_change(state, *p, at(0), len(0), at(1), len(1), count)
            }
            Call::Append { .. } => c::armfile_append(state, at(0), len(0), count),
            Call::Prepend { .. } => c::armfile_prepend(state, at(0), len(0), count),
            Call::DropFront { .. } => c::armfile_drop_front(state, at(0), len(0), count),
            Call::CutTail { .. } => c::armfile_cut_tail(state, at(0), len(0), count),
            Call::Replay { .. } => c::armfile_replay(state, at(0), len(0), count, offset),
            Call::Forecast { n, .. } => {
                c::armfile_forecast(*n, at(0), len(0), bound, greatest, offset)
            }
            Call::Seal => c::armfile_seal(state, out, room),
            Call::Check { .. } => c::armfile_check(state, at(0), len(0), verdict),
        }
    }
}

/// The same for GCM on these outputs and inputs, of which a decryption has one
/// more: its tag.
unsafe fn gcm_answered(outputs: [(*mut u8, usize); 2], inputs: &[(*mut u8, usize)]) -> u64 {
    let [(key, l1), (nonce, l2), (aad, l3), (text, l4)] = [0, 1, 2, 3].map(|i| inputs[i]);
    let [(out, l5), (tag, l6)] = outputs;
    match inputs.get(4) {
        None => c::armfile_gcm_encrypt(key, l1, nonce, l2, aad, l3, text, l4, out, l5, tag, l6),
        Some(&(tag, l6)) => {
            c::armfile_gcm_decrypt(key, l1, nonce, l2, aad, l3, text, l4, out, l5, tag, l6)
        }
    }
}

/// What the buffers hold after a call, whose inputs must be as they were.
fn left(guarded: &mut [Guarded], inputs: &[(&'static str, &[u8])]) -> Result<Lent, String> {
    let (written, read) = guarded.split_at_mut(WRITTEN);
    for (input, (_, bytes)) in read.iter_mut().zip(inputs) {
        input.unaltered(bytes)?;
    }
    let (numbers, others) = written.split_at_mut(NUMBERS);
    let mut number = |i: usize| {
        let bytes = numbers[i].after()?.try_into().expect("8 bytes");
        Ok::<u64, String>(u64::from_ne_bytes(bytes))
    };
    Ok(Lent {
        count: number(0)?,
        offset: number(1)?,
        n: number(2)?,
        bound: number(3)?,
        greatest: number(4)?,
        state: others[0].after()?.try_into().expect("84 bytes"),
        out: others[1].after()?.to_vec(),
        tag: others[2].after()?.to_vec(),
        verdict: others[3].after()?[0],
        sum: others[4].after()?.try_into().expect("16 bytes"),
    })
}

/// What a state holds, as the calls that read it tell: length, arm, last used
/// number, sum and hash key.
pub type Fields = (u64, u32, u64, [u8; BLOCK_BYTES], [u8; BLOCK_BYTES]);

/// The fields of a state, which stands at the page, as do the blocks that are
/// written; or what is wrong with it or around them afterwards.
pub fn fields(state: &StateBytes) -> Result<Fields, String> {
    EDGES.with_borrow_mut(|[first, second, third, ..]| {
        let mut guarded = Guarded::new("state", first, state, 0);
        // Before the calls no byte of the blocks is what it must become.
        let unlike = state.map(|byte| !byte);
        let mut sum = Guarded::new("sum", second, &unlike[48..64], 0);
        let mut hash_key = Guarded::new("hash key", third, &unlike[16..32], 0);
        let [lent, to_sum, to_hash_key] =
            [&mut guarded, &mut sum, &mut hash_key].map(|guarded| guarded.lent().0);
        // SAFETY: the pointers are of 84 bytes and of twice 16 bytes.
        let (length, arm, last) = unsafe {
            c::armfile_sum(lent, to_sum);
            c::armfile_hash_key(lent, to_hash_key);
            (
                c::armfile_length(lent),
                c::armfile_arm(lent),
                c::armfile_last(lent),
            )
        };
        guarded.unaltered(state)?;
        let block = |bytes: &[u8]| bytes.try_into().expect("16 bytes");
        Ok((
            length,
            arm,
            last,
            block(sum.after()?),
            block(hash_key.after()?),
        ))
    })
}
