//! The forecast of a replay.

use crate::{ffi, Refusal};

/// What a replay of a journal will come to: [`forecast()`].
#[must_use = "all that a forecast does is to answer"]
#[derive(Clone, Copy, Debug, PartialEq, Eq)]
pub struct Forecast {
    /// The multiplications of all the records that will be applied: no more than
    /// these.
    pub bound: u64,
    /// The greatest length that the file will have, its present one among them.
    pub greatest: u64,
    /// How many bytes of the journal the records are that will be applied: where
    /// the refused one begins, or the journal's length where none is refused.
    pub offset: u64,
    /// Why the record at `offset` will be refused, or, with `offset` 0, the
    /// file's length or the whole journal; `None` where all will be applied.
    pub refusal: Option<Refusal>,
}

/// What [`State::replay`] of this journal will do to a file of `length` bytes:
/// the refusal at which it will stop and where, the most multiplications that it
/// will take until then, for whoever is to wait, and the greatest length that
/// the file will have, for a card that may be too small.
/// [`State::forecast`] is this for a state's own length.
///
/// It reads the heads of the records alone, 12 bytes of each, so that its time
/// goes by their number; what the bytes of an edit are has no part in it. It
/// needs no key, and alters nothing.
///
/// The bound is the sum of q + 2b over the edits of at least one byte: q the
/// blocks that the edit's bytes touch, b the binary digits of the file's block
/// count before the edit or after it, whichever is larger.
///
/// Refusals, in this order: 2 where `length` passes 2^61 - 1, and then those of
/// the replay. Whatever is refused, the other numbers are those of the records
/// before it.
///
/// ```
/// use armfile::{forecast, Refusal, State};
///
/// # fn main() -> Result<(), armfile::Refusal> {
/// let mut journal = [0; 12 + 5 + 12];
/// journal[0] = 2 << 5; // an append
/// journal[11] = 5; // of five bytes
/// journal[12..17].copy_from_slice(b"GRIP\n");
/// journal[17] = 7 << 5; // a record of no known kind
///
/// let told = forecast(40, &journal);
/// assert_eq!((told.bound, told.greatest), (5, 45)); // 1 block, and 2 digits twice
/// assert_eq!((told.offset, told.refusal), (17, Some(Refusal::RecordKind)));
///
/// let (mut state, _) = State::start(&[7; 16], 3, 0, 40, 0xff)?;
/// let replayed = state.replay(&journal);
/// assert_eq!((replayed.offset, replayed.refusal), (told.offset, told.refusal));
/// assert!(replayed.count <= told.bound);
/// # Ok(())
/// # }
/// ```
///
/// [`State::replay`]: crate::State::replay
/// [`State::forecast`]: crate::State::forecast
pub fn forecast(length: u64, journal: &[u8]) -> Forecast {
    let (mut bound, mut greatest, mut offset) = (0, 0, 0);
    let answer = ffi::forecast(length, journal, &mut bound, &mut greatest, &mut offset);
    Forecast {
        bound,
        greatest,
        offset,
        refusal: Refusal::of(answer).err(),
    }
}

#[cfg(test)]
mod tests {
    use super::*;
    use crate::{State, MAX_BYTES};

    /// On 40 bytes: a change of one that they have, an append to a fourth block,
    /// a cut of it, and a prepend that is refused.
    const JOURNAL: &[u8] = b"\x20\0\0\0\0\0\0\x11\0\0\0\x01aA\
        \x40\0\0\0\0\0\0\0\0\0\0\x09gripper A\
        \xa0\0\0\0\0\0\0\0\0\0\0\x09gripper A\
        \x60\0\0\0\0\0\0\0\0\0\0\x01a";

    /// One block of three; two, of four afterwards; and two, of four before.
    #[test]
    fn bounds_and_lengths() {
        let told = Forecast {
            bound: (1 + 4) + (2 + 6) + (2 + 6),
            greatest: 49,
            offset: 14 + 21 + 21,
            refusal: Some(Refusal::BrokenBlock),
        };
        assert_eq!(forecast(40, JOURNAL), told);
        let without = Forecast {
            refusal: None,
            ..told
        };
        assert_eq!(forecast(40, &JOURNAL[..56]), without);
    }

    /// A state's own forecast is that of its length, and leaves the state; the
    /// replay then keeps to it.
    #[test]
    fn a_forecast_by_a_state() {
        let mut state = State::read(&[1; 16], 2, 3, &[0xff; 40]).unwrap();
        let before = *state.as_bytes();
        let told = state.forecast(JOURNAL);
        assert_eq!(told, forecast(40, JOURNAL));
        assert_eq!(state.as_bytes(), &before);
        let replayed = state.replay(JOURNAL);
        assert!((1..=told.bound).contains(&replayed.count));
        assert_eq!(
            (replayed.offset, replayed.refusal),
            (told.offset, told.refusal)
        );
    }

    #[test]
    fn nothing_to_replay() {
        for length in [0, 40, MAX_BYTES] {
            let nothing = Forecast {
                bound: 0,
                greatest: length,
                offset: 0,
                refusal: None,
            };
            assert_eq!(forecast(length, &[]), nothing);
        }
        for length in [MAX_BYTES + 1, u64::MAX] {
            let too_long = Forecast {
                bound: 0,
                greatest: length,
                offset: 0,
                refusal: Some(Refusal::TooLong),
            };
            assert_eq!(forecast(length, JOURNAL), too_long);
        }
    }
}
