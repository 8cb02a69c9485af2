//! The controller, document 01: "What the controller holds", "The file and
//! its five edits" and "Slip, seal, check". Nothing here holds the file.
//!
//! Every call of a state whose n passes 2^61 - 1 is refused with 2 before all
//! else; the refusals named at each call come after that one, in their order.
//! A refused call alters nothing. An edit's answer is its count, and start's
//! has its own beside the state.

use crate::aes;
use crate::blank;
use crate::field::{add, companion, multiply, power, seek_steps, Block, ZERO};
use crate::ghash::{block_count, blocks_of, first_counter, hash_key, pair_block, sum};
use crate::refusal::{
    refuse, too_long, whole_sum, BAD_BUFFER, NOT_SIXTEEN, NOT_WHOLE, OUTSIDE, TOO_LONG, UNEQUAL,
    USED_UP,
};
use crate::slip::{nonce, Slip, Verdict, SLIP_BYTES};

/// The bytes of a packed state.
pub const STATE_BYTES: usize = 84;

/// What the controller holds. The default has zero in every field.
#[derive(Clone, Copy, Debug, Default, PartialEq, Eq)]
pub struct State {
    pub key: [u8; 16],
    pub h: Block,
    pub i: Block,
    pub s: Block,
    pub n: u64,
    pub arm: u32,
    pub last: u64,
}

impl State {
    /// A file of n fill bytes, and the count of its sum. Refusals: 1, 2.
    pub fn start(key: &[u8], arm: u32, last: u64, n: u64, fill: u8) -> Result<(State, u64), u64> {
        let mut state = State::begin(key, arm, last, n)?;
        state.s = blank::sum(&state.h, fill, n);
        Ok((state, blank::count(fill, n)))
    }

    /// A lent file. Refusals: 1, 2.
    pub fn read(key: &[u8], arm: u32, last: u64, file: &[u8]) -> Result<State, u64> {
        let mut state = State::begin(key, arm, last, file.len() as u64)?;
        state.s = sum(&state.h, &blocks_of(file));
        Ok(state)
    }

    /// A file of n bytes whose sum is still to come. Refusals: 1, 2.
    fn begin(key: &[u8], arm: u32, last: u64, n: u64) -> Result<State, u64> {
        refuse(&[
            (key.len() != 16, NOT_SIXTEEN),
            (too_long(n.into()), TOO_LONG),
        ])?;
        let key = key.try_into().expect("16 bytes");
        let h = hash_key(&key);
        Ok(State {
            key,
            h,
            i: companion(&h),
            s: ZERO,
            n,
            arm,
            last,
        })
    }

    /// Bytes p to p + l - 1, once old, become new. Refusals: 4, 3.
    pub fn change(&mut self, p: u64, old: &[u8], new: &[u8]) -> Result<u64, u64> {
        let l = new.len() as u64;
        refuse(&[
            self.passes_the_limit(),
            (old.len() != new.len(), UNEQUAL),
            (whole_sum(p, l) > self.n.into(), OUTSIDE),
        ])?;
        if l == 0 {
            return Ok(0);
        }
        let both: Vec<u8> = old.iter().zip(new).map(|(a, b)| a ^ b).collect();
        let given = place(p, &both);
        let last_touched = (p + l - 1) / 16;
        let k = block_count(self.n) - 1 - last_touched;
        Ok(self.add_weighted(&given, k))
    }

    /// The bytes go after the last. Refusal: 2.
    pub fn append(&mut self, bytes: &[u8]) -> Result<u64, u64> {
        let l = bytes.len() as u64;
        refuse(&[
            self.passes_the_limit(),
            (too_long(whole_sum(self.n, l)), TOO_LONG),
        ])?;
        if l == 0 {
            return Ok(0);
        }
        let given = place(self.n, bytes);
        let k = block_count(self.n + l) - block_count(self.n);
        let moved = multiply(&self.s, &power(&self.h, k.into()));
        self.s = add(&moved, &sum(&self.h, &given));
        self.n += l;
        Ok(count(&given, k))
    }

    /// The bytes go before the first. Refusals: 5, 2.
    pub fn prepend(&mut self, bytes: &[u8]) -> Result<u64, u64> {
        let l = bytes.len() as u64;
        refuse(&[
            self.passes_the_limit(),
            (!l.is_multiple_of(16), NOT_WHOLE),
            (too_long(whole_sum(self.n, l)), TOO_LONG),
        ])?;
        if l == 0 {
            return Ok(0);
        }
        let given = place(0, bytes);
        let k = block_count(self.n);
        self.n += l;
        Ok(self.add_weighted(&given, k))
    }

    /// The bytes leave the front. Refusals: 5, 3.
    pub fn drop_front(&mut self, bytes: &[u8]) -> Result<u64, u64> {
        let l = bytes.len() as u64;
        refuse(&[
            self.passes_the_limit(),
            (!l.is_multiple_of(16), NOT_WHOLE),
            (l > self.n, OUTSIDE),
        ])?;
        if l == 0 {
            return Ok(0);
        }
        let given = place(0, bytes);
        let k = block_count(self.n) - given.len() as u64;
        self.n -= l;
        Ok(self.add_weighted(&given, k))
    }

    /// The bytes leave the end. Refusal: 3.
    pub fn cut_tail(&mut self, bytes: &[u8]) -> Result<u64, u64> {
        let l = bytes.len() as u64;
        refuse(&[self.passes_the_limit(), (l > self.n, OUTSIDE)])?;
        if l == 0 {
            return Ok(0);
        }
        let given = place(self.n - l, bytes);
        let k = block_count(self.n) - block_count(self.n - l);
        let rest = add(&self.s, &sum(&self.h, &given));
        self.s = multiply(&rest, &power(&self.i, k.into()));
        self.n -= l;
        Ok(count(&given, k))
    }

    /// Raises the last used number by one and writes the slip. Refusals: 7, 6.
    pub fn seal(&mut self, slip: &mut [u8]) -> Result<(), u64> {
        refuse(&[
            self.passes_the_limit(),
            (slip.len() != SLIP_BYTES, BAD_BUFFER),
            (self.last == u64::MAX, USED_UP),
        ])?;
        self.last += 1;
        let sealed = Slip {
            length: self.n,
            arm: self.arm,
            number: self.last,
            tag: self.tag(&nonce(self.arm, self.last)),
        };
        slip.copy_from_slice(&sealed.pack());
        Ok(())
    }

    /// Whether the slip is genuine, and if it is, whether its number is the
    /// last used, a smaller or a larger one. Refusals: 7, 8.
    pub fn check(&self, slip: &[u8]) -> Result<Verdict, u64> {
        refuse(&[self.passes_the_limit()])?;
        let slip = Slip::open(slip)?;
        let genuine =
            slip.length == self.n && slip.arm == self.arm && slip.tag == self.tag(&slip.nonce());
        Ok(slip.verdict(genuine, self.last))
    }

    /// The state's tag under a nonce: (S + L) times H, plus AES(key, J). The
    /// state's n is at most 2^61 - 1 here.
    pub fn tag(&self, nonce: &[u8]) -> Block {
        let length = pair_block(8 * self.n, 0);
        let hash = multiply(&add(&self.s, &length), &self.h);
        add(
            &hash,
            &aes::encrypt(&self.key, &first_counter(&self.h, nonce)),
        )
    }

    /// The state as 84 bytes, each number most significant byte first: key,
    /// H, I, S, n, arm, last used number.
    pub fn state_bytes(&self) -> [u8; STATE_BYTES] {
        let mut bytes = Vec::new();
        bytes.extend(self.key);
        bytes.extend(self.h);
        bytes.extend(self.i);
        bytes.extend(self.s);
        bytes.extend(self.n.to_be_bytes());
        bytes.extend(self.arm.to_be_bytes());
        bytes.extend(self.last.to_be_bytes());
        bytes.try_into().expect("84 bytes")
    }

    /// The state that `state_bytes` packed; any 84 bytes are a state.
    pub fn from_state_bytes(bytes: &[u8; STATE_BYTES]) -> State {
        State {
            key: part(bytes, 0),
            h: part(bytes, 16),
            i: part(bytes, 32),
            s: part(bytes, 48),
            n: u64::from_be_bytes(part(bytes, 64)),
            arm: u32::from_be_bytes(part(bytes, 72)),
            last: u64::from_be_bytes(part(bytes, 76)),
        }
    }

    /// The cause that stands before all others in every call with a state.
    fn passes_the_limit(&self) -> (bool, u64) {
        (too_long(self.n.into()), TOO_LONG)
    }

    /// S becomes S + W times H^k; returns the count.
    fn add_weighted(&mut self, given: &[Block], k: u64) -> u64 {
        let w = sum(&self.h, given);
        self.s = add(&self.s, &multiply(&w, &power(&self.h, k.into())));
        count(given, k)
    }
}

/// The touched blocks of a file in which the bytes stand at byte p and all
/// others are zero.
fn place(p: u64, bytes: &[u8]) -> Vec<Block> {
    let mut placed = vec![0; (p % 16) as usize];
    placed.extend(bytes);
    blocks_of(&placed)
}

/// The count of an edit: q + seek(k) + 1.
fn count(given: &[Block], k: u64) -> u64 {
    given.len() as u64 + seek_steps(k) + 1
}

fn part<const L: usize>(bytes: &[u8], first: usize) -> [u8; L] {
    bytes[first..first + L].try_into().expect("L bytes")
}
