//! The seal of a robot arm's motion file, for controllers in Rust: a safe
//! wrapper over the C library libarmfile.a.
//!
//! A controller keeps no motion file, only a [`State`] of 84 bytes. Changing,
//! appending, prepending, dropping and cutting bytes moves the state without
//! reading the file. A seal writes a slip of 36 bytes whose tag is AES-128
//! GMAC of the whole file, and a check says whether a slip is genuine, and
//! whether it is the newest: a [`Verdict`]. A file that is to travel unread is
//! encrypted by [`gcm_encrypt`] and brought back by [`gcm_decrypt`], which need
//! no state. Of a file that is kept in parts [`join()`] gives the sum and the
//! length, from those of the parts. What a journal of edits will do to a file
//! [`forecast()`] tells beforehand, from the heads of its records.
//!
//! ```
//! use armfile::{State, Verdict, SLIP_BYTES};
//!
//! # fn main() -> Result<(), armfile::Refusal> {
//! let key = [7; 16]; // from the key store
//! let mut state = State::read(&key, 3, 0, b"MOVE 10 20 30")?;
//! state.append(b"; MOVE 0 0 0")?;
//! state.change(5, b"10", b"11")?;
//! let mut slip = [0; SLIP_BYTES];
//! state.seal(&mut slip)?;
//! assert_eq!(state.check(&slip)?, Verdict::Current);
//! state.cut_tail(b"; MOVE 0 0 0")?;
//! assert_eq!(state.check(&slip)?, Verdict::NotGenuine);
//! # Ok(())
//! # }
//! ```
//!
//! Every call either does its work or is refused with a [`Refusal`], and a
//! refused call leaves the state and every lent buffer as they were. The one
//! exception is [`State::replay`], which runs a journal of edits up to the
//! first that is refused and keeps what those before it did. [`forecast()`]
//! alters nothing, but refused or not it tells what the records before that one
//! will do. The library proves what it answers; what this wrapper adds is that
//! lengths are those of the slices, and that [`join()`] goes through its parts
//! group by group.
//!
//! The wrapper needs no allocator and no operating system: it uses `core`
//! alone, and the library beneath it needs no other.
//!
//! The state's layout is provisional until 32-byte keys are supported: don't
//! carry stored states from one version of the library to another.

#![no_std]
#![deny(unsafe_code)]

#[cfg(test)]
extern crate std;

use core::fmt;

pub mod ffi;
mod forecast;
mod join;
#[cfg(doctest)]
mod refused;
mod wipe;

pub use ffi::{StateBytes, BLOCK_BYTES, STATE_BYTES};
pub use forecast::{forecast, Forecast};
pub use join::{join, Part};

/// The bytes of a slip.
pub const SLIP_BYTES: usize = 36;

/// The version in a slip's first three bits. Any other is refused with 8.
pub const SLIP_FORMAT: u8 = 1;

/// The largest byte length of a file, of A, of C and of a nonce: 2^61 - 1.
pub const MAX_BYTES: u64 = (1 << 61) - 1;

/// The largest byte length of a journal: 2^40.
pub const MAX_JOURNAL_BYTES: u64 = 1 << 40;

/// The largest byte length of a text to encrypt or to decrypt: 2^36 - 32.
pub const MAX_TEXT_BYTES: u64 = (1 << 36) - 32;

/// Why a call was refused. A later version may have more causes, so a `match`
/// outside this crate needs an arm for those.
#[derive(Clone, Copy, Debug, PartialEq, Eq, Hash)]
#[non_exhaustive]
pub enum Refusal {
    /// 1: key, hash key or block not 16 bytes.
    KeyOrBlockLength,
    /// 2: file, A, C or nonce would pass 2^61 - 1 bytes.
    TooLong,
    /// 3: the bytes to change or to remove are not all in the file.
    OutOfFile,
    /// 4: old and new differ in length.
    UnequalPair,
    /// 5: the length to prepend or to drop, or that of a part which is not the
    /// last, is no multiple of 16.
    BrokenBlock,
    /// 6: the last used number is 2^64 - 1, so no number is left.
    NumbersUsed,
    /// 7: slip not 36 bytes, tag or block output not 16, or text and output of
    /// different lengths.
    OutputLength,
    /// 8: slip version not 1.
    SlipVersion,
    /// 9: empty nonce.
    EmptyNonce,
    /// 10: journal over 2^40 bytes, or one that ends inside a record.
    JournalLength,
    /// 11: record's kind 0, 6 or 7.
    RecordKind,
    /// 12: record's place not zero, and it is no change.
    RecordPlace,
    /// 13: text to encrypt or to decrypt over 2^36 - 32 bytes.
    TextTooLong,
    /// 14: the tag doesn't fit, so no text was released.
    WrongTag,
    /// 15: the sums to join are not 16 bytes for each length. Only [`ffi::join`]
    /// is refused so: [`join()`] takes each sum beside its length.
    SumsLength,
    /// A number, of a refusal or of a verdict, that this wrapper doesn't know,
    /// which only a library of another version answers.
    Unknown(u64),
}

/// The causes with their numbers and what is wrong.
const CAUSES: [(Refusal, u64, &str); 15] = [
    (Refusal::KeyOrBlockLength, 1, "key or block not 16 bytes"),
    (Refusal::TooLong, 2, "more than 2^61 - 1 bytes"),
    (Refusal::OutOfFile, 3, "bytes outside the file"),
    (Refusal::UnequalPair, 4, "old and new differ in length"),
    (Refusal::BrokenBlock, 5, "length no multiple of 16"),
    (Refusal::NumbersUsed, 6, "no seal number left"),
    (Refusal::OutputLength, 7, "buffer of the wrong length"),
    (Refusal::SlipVersion, 8, "slip version not 1"),
    (Refusal::EmptyNonce, 9, "empty nonce"),
    (Refusal::JournalLength, 10, "journal too long or cut short"),
    (Refusal::RecordKind, 11, "record of no known kind"),
    (
        Refusal::RecordPlace,
        12,
        "place in a record that is no change",
    ),
    (
        Refusal::TextTooLong,
        13,
        "text of more than 2^36 - 32 bytes",
    ),
    (Refusal::WrongTag, 14, "tag that doesn't fit"),
    (Refusal::SumsLength, 15, "sums not 16 bytes for each length"),
];

impl Refusal {
    /// The number of the cause, as the library answers it.
    pub fn number(self) -> u64 {
        match self {
            Refusal::Unknown(number) => number,
            known => CAUSES.iter().find(|c| c.0 == known).map_or(0, |c| c.1),
        }
    }

    /// The library's answer as a result.
    fn of(answer: u64) -> Result<(), Refusal> {
        if answer == 0 {
            return Ok(());
        }
        let known = CAUSES.iter().find(|c| c.1 == answer);
        Err(known.map_or(Refusal::Unknown(answer), |c| c.0))
    }
}

impl fmt::Display for Refusal {
    fn fmt(&self, f: &mut fmt::Formatter) -> fmt::Result {
        let known = CAUSES.iter().find(|c| c.0 == *self);
        let cause = known.map_or("unknown cause", |c| c.2);
        write!(f, "refused {}: {cause}", self.number())
    }
}

impl core::error::Error for Refusal {}

/// What a check found: [`State::check`]. A slip is genuine where its length and
/// its arm are the state's and its tag is the file's under its own number. Only
/// [`Verdict::Current`] is the slip of the newest seal: who takes any genuine
/// slip takes an old card too.
///
/// A later version may have more verdicts, so a `match` outside this crate needs
/// an arm for those, which should take no slip.
#[must_use = "a slip may be an old one, or not genuine"]
#[derive(Clone, Copy, Debug, PartialEq, Eq, Hash)]
#[non_exhaustive]
pub enum Verdict {
    /// Its length, its arm or its tag is another, whatever its number is.
    NotGenuine = 0,
    /// Genuine, and its number is the last used one.
    Current = 1,
    /// Genuine, but its number is smaller than the last used one: the file has
    /// kept the bytes that were sealed, or come back to them, but a later
    /// number was used since. An old card, put back, has such a slip.
    Stale = 2,
    /// Genuine, but its number is larger than the last used one: this state
    /// doesn't know of that seal. An older copy of it was put back, or it was
    /// begun with too small a number. Don't seal with it, or a number is used
    /// twice; begin it anew with the highest number of all seals.
    Ahead = 3,
}

impl Verdict {
    /// The library's number for the verdict.
    pub const fn number(self) -> u8 {
        self as u8
    }

    /// Whether the slip is genuine at all: current, stale or ahead.
    pub const fn is_genuine(self) -> bool {
        !matches!(self, Verdict::NotGenuine)
    }

    /// The library's verdict. No number that this wrapper doesn't know passes
    /// for one that it does.
    fn of(number: u8) -> Result<Verdict, Refusal> {
        use Verdict::{Ahead, Current, NotGenuine, Stale};
        let mut known = [NotGenuine, Current, Stale, Ahead].into_iter();
        let verdict = known.find(|verdict| verdict.number() == number);
        verdict.ok_or(Refusal::Unknown(number.into()))
    }
}

/// The verdict in words: `not genuine`, `current`, `stale` or `ahead`.
impl fmt::Display for Verdict {
    fn fmt(&self, f: &mut fmt::Formatter) -> fmt::Result {
        f.pad(match self {
            Verdict::NotGenuine => "not genuine",
            Verdict::Current => "current",
            Verdict::Stale => "stale",
            Verdict::Ahead => "ahead",
        })
    }
}

/// What a replay came to: [`State::replay`].
#[must_use = "a replay may have stopped at a refused record"]
#[derive(Clone, Copy, Debug, PartialEq, Eq)]
pub struct Replayed {
    /// The multiplications of all the records that were applied.
    pub count: u64,
    /// How many bytes of the journal those records are: where the refused one
    /// begins, or the journal's length where none was refused.
    pub offset: u64,
    /// Why the record at `offset` was refused, or, with `offset` 0, the state
    /// or the whole journal; `None` where all was applied.
    pub refusal: Option<Refusal>,
}

/// AES-128 of a block under a key, FIPS 197, written to `out`. All three are
/// 16 bytes. Refusals, in this order: 1, 7.
pub fn encrypt(key: &[u8], block: &[u8], out: &mut [u8]) -> Result<(), Refusal> {
    Refusal::of(ffi::encrypt(key, block, out))
}

/// The product of two blocks in the field of GCM, SP 800-38D section 6.3,
/// written to `out`. All three are 16 bytes. Refusals, in this order: 1, 7.
pub fn multiply(a: &[u8], b: &[u8], out: &mut [u8]) -> Result<(), Refusal> {
    Refusal::of(ffi::multiply(a, b, out))
}

/// GHASH(H, A, C) as GCM has it: over A padded, C padded and their two bit
/// lengths, SP 800-38D sections 6.4 and 7.1, written to the 16 bytes of
/// `out`. Refusals, in this order: 1, 7, 2.
pub fn ghash(h: &[u8], a: &[u8], c: &[u8], out: &mut [u8]) -> Result<(), Refusal> {
    Refusal::of(ffi::ghash(h, a, c, out))
}

/// GMAC of A under a key and a nonce of one byte or more, SP 800-38D, written
/// to the 16 bytes of `out`. Never use a nonce twice with one key. Refusals,
/// in this order: 1, 9, 7, 2.
pub fn gmac(key: &[u8], nonce: &[u8], a: &[u8], out: &mut [u8]) -> Result<(), Refusal> {
    Refusal::of(ffi::gmac(key, nonce, a, out))
}

/// Encrypts a text, AES-128 GCM of SP 800-38D: the ciphertext is written to
/// `out`, which has the text's length, and the tag, which vouches for it and for
/// the associated data, to the 16 bytes of `tag`. The nonce, of one byte or
/// more, and the associated data are no part of what is written; whoever
/// decrypts needs them too. Refusals, in this order: 1, 9, 7, 2, 13.
///
/// **Never use a nonce twice with one key**: not for two texts, and not for a
/// text and a [`gmac`] or a [`State::seal`] either. Two texts under one nonce
/// give their sum away, and two tags the hash key, by which anyone can forge.
/// The nonce of a seal is 12 bytes, its arm number and its seal number; a key
/// of its own for encryption keeps clear of them all.
///
/// ```
/// use armfile::{gcm_decrypt, gcm_encrypt, Refusal};
///
/// # fn main() -> Result<(), armfile::Refusal> {
/// let (key, nonce) = ([7; 16], [1; 12]); // from the key store, and never used before
/// let (mut carried, mut tag) = ([0; 13], [0; 16]);
/// gcm_encrypt(&key, &nonce, b"cell 3", b"MOVE 10 20 30", &mut carried, &mut tag)?;
///
/// let mut text = [0; 13];
/// gcm_decrypt(&key, &nonce, b"cell 3", &carried, &mut text, &tag)?;
/// assert_eq!(&text, b"MOVE 10 20 30");
///
/// let mut text = [0; 13];
/// let other = gcm_decrypt(&key, &nonce, b"cell 4", &carried, &mut text, &tag);
/// assert_eq!((other, text), (Err(Refusal::WrongTag), [0; 13]));
/// # Ok(())
/// # }
/// ```
pub fn gcm_encrypt(
    key: &[u8],
    nonce: &[u8],
    aad: &[u8],
    text: &[u8],
    out: &mut [u8],
    tag: &mut [u8],
) -> Result<(), Refusal> {
    Refusal::of(ffi::gcm_encrypt(key, nonce, aad, text, out, tag))
}

/// Decrypts what [`gcm_encrypt`] wrote with the same key, nonce and associated
/// data. The tag is tried first: exactly where it fits is the text written to
/// `out`, which has the ciphertext's length; otherwise `out` keeps its bytes.
/// Refusals, in this order: 1, 9, 7, 2, 13, 14.
pub fn gcm_decrypt(
    key: &[u8],
    nonce: &[u8],
    aad: &[u8],
    text: &[u8],
    out: &mut [u8],
    tag: &[u8],
) -> Result<(), Refusal> {
    Refusal::of(ffi::gcm_decrypt(key, nonce, aad, text, out, tag))
}

/// What a controller holds for a file: the key, the hash key and its
/// companion, the running sum, the file's length, the arm number and the last
/// used seal number.
///
/// A state can't be cloned or copied: two copies that seal would use one number
/// twice, and a repeated number gives the hash key away. For the same reason a
/// state brought back by [`State::from_bytes`] must be the last one stored.
///
/// A state holds the key. It is wiped when it is dropped; a copy that a move
/// left behind is not, so make it where it is to stay and lend it from there.
///
/// A state may hold any bytes. If its length passes 2^61 - 1, every call of
/// it is refused with 2 before all else; the refusals named at each call come
/// after that one.
pub struct State {
    bytes: StateBytes,
}

impl State {
    /// The state of a blank file, `n` copies of the byte `fill`, which must be
    /// what the erased card reads; for the arm with this number, with `last`
    /// the last used seal number: 0 for a new arm and key. With `n` 0 the file
    /// is empty, and may be appended piece by piece. Returns the state and the
    /// count of multiplications of its sum: at most 227 whatever `n` is, and 0
    /// where `n` or `fill` is 0. Refusals, in this order: 1, 2.
    ///
    /// ```
    /// use armfile::State;
    ///
    /// # fn main() -> Result<(), armfile::Refusal> {
    /// let key = [7; 16]; // from the key store
    /// let (mut state, count) = State::start(&key, 3, 0, 40, 0xff)?;
    /// assert_eq!((state.length(), count), (40, 5));
    /// state.change(8, &[0xff; 4], b"GRIP")?; // until now the bytes are blank
    /// # Ok(())
    /// # }
    /// ```
    pub fn start(
        key: &[u8],
        arm: u32,
        last: u64,
        n: u64,
        fill: u8,
    ) -> Result<(State, u64), Refusal> {
        let mut state = State::from_bytes([0; STATE_BYTES]);
        let mut count = 0;
        let answer = ffi::start(key, arm, last, n, fill, &mut state.bytes, &mut count);
        Refusal::of(answer)?;
        Ok((state, count))
    }

    /// The state of a lent file, which is read once and not kept. Refusals,
    /// in this order: 1, 2.
    pub fn read(key: &[u8], arm: u32, last: u64, file: &[u8]) -> Result<State, Refusal> {
        let mut state = State::from_bytes([0; STATE_BYTES]);
        Refusal::of(ffi::read(key, arm, last, file, &mut state.bytes))?;
        Ok(state)
    }

    /// A state stored earlier by [`State::as_bytes`]. The caller's own copy of
    /// the bytes is the caller's to wipe.
    pub fn from_bytes(bytes: StateBytes) -> State {
        State { bytes }
    }

    /// The state's bytes, to store. They hold the key: keep them as secret.
    pub fn as_bytes(&self) -> &StateBytes {
        &self.bytes
    }

    /// The byte length of the file. No state is refused this, nor the four that
    /// follow.
    pub fn length(&self) -> u64 {
        ffi::length(&self.bytes)
    }

    /// The arm number.
    pub fn arm(&self) -> u32 {
        ffi::arm(&self.bytes)
    }

    /// The last used seal number.
    pub fn last(&self) -> u64 {
        ffi::last(&self.bytes)
    }

    /// The running sum of the file, GHASH without its length block: with
    /// [`State::length`] it makes the file a [`Part`]. It is a secret, since who
    /// knows the file too can work the hash key out.
    pub fn sum(&self) -> [u8; BLOCK_BYTES] {
        let mut sum = [0; BLOCK_BYTES];
        ffi::sum(&self.bytes, &mut sum);
        sum
    }

    /// The hash key H, under which [`join()`] joins parts. **It is a secret as
    /// the key is**: who has it can turn a genuine slip of a file they know into
    /// one of any other file. The caller's copy is the caller's to wipe.
    pub fn hash_key(&self) -> [u8; BLOCK_BYTES] {
        let mut h = [0; BLOCK_BYTES];
        ffi::hash_key(&self.bytes, &mut h);
        h
    }

    /// The bytes from `p` on, until now `old`, become `new`. `old` must be
    /// what the file holds there; the controller can't tell, but the slips
    /// sealed after an untrue edit fit no file that anyone has. Returns the
    /// count of multiplications. Refusals, in this order: 4, 3.
    pub fn change(&mut self, p: u64, old: &[u8], new: &[u8]) -> Result<u64, Refusal> {
        let mut count = 0;
        Refusal::of(ffi::change(&mut self.bytes, p, old, new, &mut count))?;
        Ok(count)
    }

    /// The bytes go after the file's last. Returns the count of
    /// multiplications. Refusal: 2.
    pub fn append(&mut self, bytes: &[u8]) -> Result<u64, Refusal> {
        let mut count = 0;
        Refusal::of(ffi::append(&mut self.bytes, bytes, &mut count))?;
        Ok(count)
    }

    /// The bytes, whole blocks of 16, go before the file's first. Returns the
    /// count of multiplications. Refusals, in this order: 5, 2.
    pub fn prepend(&mut self, bytes: &[u8]) -> Result<u64, Refusal> {
        let mut count = 0;
        Refusal::of(ffi::prepend(&mut self.bytes, bytes, &mut count))?;
        Ok(count)
    }

    /// The bytes, whole blocks of 16, leave the file's front, where they must
    /// stand. Returns the count of multiplications. Refusals, in this order:
    /// 5, 3.
    pub fn drop_front(&mut self, bytes: &[u8]) -> Result<u64, Refusal> {
        let mut count = 0;
        Refusal::of(ffi::drop_front(&mut self.bytes, bytes, &mut count))?;
        Ok(count)
    }

    /// The bytes leave the file's end, where they must stand. Returns the
    /// count of multiplications. Refusal: 3.
    pub fn cut_tail(&mut self, bytes: &[u8]) -> Result<u64, Refusal> {
        let mut count = 0;
        Refusal::of(ffi::cut_tail(&mut self.bytes, bytes, &mut count))?;
        Ok(count)
    }

    /// Applies a journal's records in turn, each as the edit of its kind, and
    /// stops at the first that is refused. Unlike every other call it keeps
    /// what was done until then: the state is that of the records before the
    /// refused one.
    ///
    /// A record is a head of 12 bytes, packed most significant bit first, and
    /// the edit's bytes: kind (3 bits: 1 change, 2 append, 3 prepend, 4 drop
    /// front, 5 cut tail), place p (61 bits, 0 but in a change), length l (32
    /// bits), then l bytes, or for a change l old and l new.
    ///
    /// Refusals, in this order: 10 where the journal passes 2^40 bytes; then of
    /// each record 10 where the journal ends inside it, 11 where its kind is
    /// none of the five, 12 where p is not 0 and it is no change, and then
    /// those of the edit.
    ///
    /// A caller who wants all or nothing keeps a copy of the bytes. To go back
    /// to it repeats no seal number, since no record seals:
    ///
    /// ```
    /// use armfile::{Refusal, State};
    ///
    /// # fn main() -> Result<(), armfile::Refusal> {
    /// let mut journal = [0; 12 + 5 + 12];
    /// journal[0] = 2 << 5; // an append
    /// journal[11] = 5; // of five bytes
    /// journal[12..17].copy_from_slice(b"GRIP\n");
    /// journal[17] = 7 << 5; // a record of no known kind
    ///
    /// let (mut state, _) = State::start(&[7; 16], 3, 0, 0, 0)?;
    /// let before = *state.as_bytes(); // it holds the key, and is the caller's to wipe
    /// let replayed = state.replay(&journal);
    /// assert_eq!((replayed.count, replayed.offset), (3, 17));
    /// assert_eq!(replayed.refusal, Some(Refusal::RecordKind));
    /// assert_eq!(state.length(), 5); // the append was applied
    /// state = State::from_bytes(before);
    /// assert_eq!(state.length(), 0);
    /// # Ok(())
    /// # }
    /// ```
    pub fn replay(&mut self, journal: &[u8]) -> Replayed {
        let (mut count, mut offset) = (0, 0);
        let answer = ffi::replay(&mut self.bytes, journal, &mut count, &mut offset);
        Replayed {
            count,
            offset,
            refusal: Refusal::of(answer).err(),
        }
    }

    /// What [`State::replay`] of this journal will come to: [`forecast()`] for
    /// the state's own length. The state stays as it is.
    pub fn forecast(&self, journal: &[u8]) -> Forecast {
        forecast(self.length(), journal)
    }

    /// Seals the file: the last used number rises by one, and the 36 bytes of
    /// `slip` become the slip with that number. Store the state before the
    /// slip leaves the controller, or a number may be used twice. Refusals, in
    /// this order: 7, 6.
    pub fn seal(&mut self, slip: &mut [u8]) -> Result<(), Refusal> {
        Refusal::of(ffi::seal(&mut self.bytes, slip))
    }

    /// Whether a slip is genuine, and if it is, whether its number is the last
    /// used one, a smaller or a larger. Refusals, in this order: 7, 8.
    ///
    /// A caller who used to take what is genuine takes [`Verdict::Current`]:
    ///
    /// ```
    /// use armfile::{State, Verdict, SLIP_BYTES};
    ///
    /// # fn main() -> Result<(), armfile::Refusal> {
    /// let key = [7; 16]; // from the key store
    /// let mut state = State::read(&key, 3, 0, b"GRIP 4")?;
    /// let (mut old, mut new) = ([0; SLIP_BYTES], [0; SLIP_BYTES]);
    /// state.seal(&mut old)?;
    /// state.change(5, b"4", b"5")?;
    /// state.change(5, b"5", b"4")?; // and the bytes are those of before
    /// state.seal(&mut new)?;
    /// assert_eq!(state.check(&new)?, Verdict::Current);
    /// assert_eq!(state.check(&old)?, Verdict::Stale);
    /// assert!(state.check(&old)?.is_genuine()); // which is not enough
    /// # Ok(())
    /// # }
    /// ```
    pub fn check(&self, slip: &[u8]) -> Result<Verdict, Refusal> {
        let mut verdict = 0;
        Refusal::of(ffi::check(&self.bytes, slip, &mut verdict))?;
        Verdict::of(verdict)
    }
}

/// The key is in the state, so nothing of it is left.
impl Drop for State {
    fn drop(&mut self) {
        wipe::wipe(&mut self.bytes);
    }
}

/// Shows what is no secret.
impl fmt::Debug for State {
    fn fmt(&self, f: &mut fmt::Formatter) -> fmt::Result {
        f.debug_struct("State")
            .field("length", &self.length())
            .field("arm", &self.arm())
            .field("last", &self.last())
            .finish_non_exhaustive()
    }
}

#[cfg(test)]
mod tests {
    use std::format;
    use std::string::ToString;

    use super::*;

    #[test]
    fn numbers_of_refusals() {
        for number in 0..20 {
            let back = Refusal::of(number).map_or_else(Refusal::number, |()| 0);
            assert_eq!(back, number);
        }
        assert_eq!(Refusal::of(13), Err(Refusal::TextTooLong));
        assert_eq!(Refusal::of(16), Err(Refusal::Unknown(16)));
        let shown = Refusal::BrokenBlock.to_string();
        assert_eq!(shown, "refused 5: length no multiple of 16");
    }

    #[test]
    fn numbers_and_words_of_verdicts() {
        let words = ["not genuine", "current", "stale", "ahead"];
        for (number, word) in (0..4).zip(words) {
            let verdict = Verdict::of(number).unwrap();
            assert_eq!(verdict.number(), number);
            assert_eq!(verdict.to_string(), word);
            assert_eq!(verdict.is_genuine(), number != 0);
        }
        for number in 4..=u8::MAX {
            let unknown = Refusal::Unknown(number.into());
            assert_eq!(Verdict::of(number), Err(unknown));
        }
    }

    /// Each verdict, brought about, has its name: a card is sealed, changed and
    /// sealed, changed back and sealed, and the state of before is behind.
    #[test]
    fn names_of_verdicts() {
        let mut state = State::read(&[1; 16], 2, 3, b"GRIP A").unwrap();
        let behind = State::from_bytes(*state.as_bytes());
        let [mut old, mut other, mut new] = [[0; SLIP_BYTES]; 3];
        state.seal(&mut old).unwrap();
        state.change(5, b"A", b"B").unwrap();
        state.seal(&mut other).unwrap();
        state.change(5, b"B", b"A").unwrap();
        state.seal(&mut new).unwrap();
        assert_eq!(state.check(&old), Ok(Verdict::Stale));
        assert_eq!(state.check(&other), Ok(Verdict::NotGenuine));
        assert_eq!(state.check(&new), Ok(Verdict::Current));
        assert_eq!(behind.check(&new), Ok(Verdict::Ahead));
    }

    /// Each cause, brought about, has its name; but for 13, for which no test
    /// has the memory.
    #[test]
    fn names_of_refusals() {
        let key = [1; 16];
        let mut out = [0; 16];
        let short = encrypt(&key[1..], &key, &mut out);
        assert_eq!(short, Err(Refusal::KeyOrBlockLength));
        let no_nonce = gmac(&key, &[], &key, &mut out);
        assert_eq!(no_nonce, Err(Refusal::EmptyNonce));
        let long = State::start(&key, 2, 3, MAX_BYTES + 1, 0xff).map(|_| ());
        assert_eq!(long, Err(Refusal::TooLong));
        let (mut state, _) = State::start(&key, 2, u64::MAX, 40, 0xff).unwrap();
        assert_eq!(state.change(40, b"a", b"b"), Err(Refusal::OutOfFile));
        assert_eq!(state.change(0, b"a", b""), Err(Refusal::UnequalPair));
        assert_eq!(state.prepend(b"a"), Err(Refusal::BrokenBlock));
        assert_eq!(state.seal(&mut [0; 35]), Err(Refusal::OutputLength));
        assert_eq!(state.seal(&mut [0; 36]), Err(Refusal::NumbersUsed));
        assert_eq!(state.check(&[0; 36]), Err(Refusal::SlipVersion));
        let mut of = |record: &[u8]| state.replay(record).refusal;
        assert_eq!(of(&[0; 11]), Some(Refusal::JournalLength));
        assert_eq!(of(&[0; 12]), Some(Refusal::RecordKind));
        assert_eq!(
            of(b"\x40\0\0\0\0\0\0\x01\0\0\0\0"),
            Some(Refusal::RecordPlace)
        );
        let wrong_tag = gcm_decrypt(&key, &key, &[], &key, &mut out, &[0; 16]);
        assert_eq!(wrong_tag, Err(Refusal::WrongTag));
        let short = ffi::join(&key, &key[1..], &[16], &mut out, &mut 0);
        assert_eq!(Refusal::of(short), Err(Refusal::SumsLength));
    }

    /// Only under the right tag comes the text back.
    #[test]
    fn a_text_is_released_where_its_tag_fits() {
        let (key, nonce, text) = ([1; 16], [2; 12], b"MOVE 10 20 30; GRIP");
        let (mut carried, mut tag) = ([0; 19], [0; 16]);
        assert_eq!(
            gcm_encrypt(&key, &nonce, b"cell 3", text, &mut carried, &mut tag),
            Ok(())
        );
        assert_ne!(&carried, text);
        let decrypt = |aad: &[u8], tag: &[u8]| {
            let mut out = [0xee; 19];
            (gcm_decrypt(&key, &nonce, aad, &carried, &mut out, tag), out)
        };
        assert_eq!(decrypt(b"cell 3", &tag), (Ok(()), *text));
        let refused = (Err(Refusal::WrongTag), [0xee; 19]);
        assert_eq!(decrypt(b"cell 4", &tag), refused);
        assert_eq!(decrypt(b"cell 3", &[0; 16]), refused);
        let short = (Err(Refusal::OutputLength), [0xee; 19]);
        assert_eq!(decrypt(b"cell 3", &tag[..12]), short);
    }

    /// The state is that of the bytes, read. With two blocks before the last,
    /// 10 in binary, its sum counts 2 and 3.
    #[test]
    fn a_blank_file_is_its_fill() {
        for (fill, expected) in [(0, 0), (1, 5), (0xff, 5)] {
            let (started, count) = State::start(&[1; 16], 2, 3, 40, fill).unwrap();
            let read = State::read(&[1; 16], 2, 3, &[fill; 40]).unwrap();
            assert_eq!(started.as_bytes(), read.as_bytes(), "fill {fill}");
            assert_eq!(count, expected, "fill {fill}");
        }
        let (empty, count) = State::start(&[1; 16], 2, 3, 0, 0xff).unwrap();
        assert_eq!((empty.length(), count), (0, 0));
    }

    /// A replay keeps what was done before the refused record.
    #[test]
    fn a_replay_stops_at_a_refused_record() {
        let [mut replayed, mut single] =
            [(); 2].map(|()| State::read(&[1; 16], 2, 3, &[0xff; 40]).unwrap());
        let append = b"\x40\0\0\0\0\0\0\0\0\0\0\x03abc";
        let change = b"\x20\0\0\0\0\0\0\x28\0\0\0\x02abAB";
        let prepend = b"\x60\0\0\0\0\0\0\0\0\0\0\x01a";
        let journal = [&append[..], change, prepend, append].concat();
        let expected = Replayed {
            count: single.append(b"abc").unwrap() + single.change(40, b"ab", b"AB").unwrap(),
            offset: (append.len() + change.len()) as u64,
            refusal: single.prepend(b"a").err(),
        };
        assert_eq!(replayed.replay(&journal), expected);
        assert_eq!(replayed.as_bytes(), single.as_bytes());
    }

    /// The hash key is the zero block encrypted, and the sum of one block is that
    /// block times it.
    #[test]
    fn sum_and_hash_key_of_one_block() {
        let (key, block) = ([1; 16], [5; 16]);
        let state = State::read(&key, 2, 3, &block).unwrap();
        let [mut h, mut sum] = [[0; 16]; 2];
        assert_eq!(encrypt(&key, &[0; 16], &mut h), Ok(()));
        assert_eq!(multiply(&block, &h, &mut sum), Ok(()));
        assert_eq!((state.hash_key(), state.sum()), (h, sum));
    }

    #[test]
    fn public_fields_are_shown_and_secret_ones_are_not() {
        let state = State::read(&[0x77; 16], 5, 6, &[0xff; 40]).unwrap();
        let shown = format!("{state:?}");
        assert_eq!(shown, "State { length: 40, arm: 5, last: 6, .. }");
    }

    #[test]
    fn empty_slices() {
        let empty: &[u8] = &[];
        let mut state = State::read(&[1; 16], 2, 3, empty).unwrap();
        assert_eq!(state.change(0, empty, empty), Ok(0));
        assert_eq!(state.append(empty), Ok(0));
        assert_eq!(state.prepend(empty), Ok(0));
        assert_eq!(state.drop_front(empty), Ok(0));
        assert_eq!(state.cut_tail(empty), Ok(0));
        let nothing = Replayed {
            count: 0,
            offset: 0,
            refusal: None,
        };
        assert_eq!(state.replay(empty), nothing);
        assert_eq!(state.seal(&mut []), Err(Refusal::OutputLength));
        assert_eq!(state.check(empty), Err(Refusal::OutputLength));
        let (mut tag, mut mac) = ([0; 16], [0; 16]);
        assert_eq!(
            gcm_encrypt(&[1; 16], &[2], empty, empty, &mut [], &mut tag),
            Ok(())
        );
        assert_eq!(gmac(&[1; 16], &[2], empty, &mut mac), Ok(()));
        assert_eq!(tag, mac, "GMAC is GCM with no text");
        assert_eq!(
            gcm_decrypt(&[1; 16], &[2], empty, empty, &mut [], &tag),
            Ok(())
        );
    }
}
