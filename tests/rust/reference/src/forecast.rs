//! The forecast of a replay, document 02, Q-7: what a replay will do, from the
//! file's length, the journal's and the heads of its records alone.

use std::iter::{once, successors};

use crate::ghash::block_count;
use crate::journal::{
    replay_refusal, Head, APPEND, CHANGE, CUT_TAIL, DROP_FRONT, HEAD_BYTES, PREPEND,
};
use crate::refusal::{refuse, too_long, whole_sum, BAD_JOURNAL, NOT_WHOLE, OUTSIDE, TOO_LONG};

/// What a forecast answers: an upper bound on the multiplications of the
/// replay, the greatest length that the file will reach, and where and with
/// what number the replay will stop, as `Replayed` has them.
#[derive(Clone, Copy, Debug, PartialEq, Eq)]
pub struct Forecast {
    pub bound: u64,
    pub greatest: u64,
    pub offset: u64,
    pub refusal: Option<u64>,
}

/// The forecast of a journal for a file of n bytes.
pub fn forecast(n: u64, journal: &[u8]) -> Forecast {
    let head_at = |at: u64| Head::open(&journal[at as usize..][..HEAD_BYTES]);
    from_heads(n, journal.len() as u64, head_at)
}

/// The forecast of a journal of which only the length and the heads are there:
/// `head_at` gives the head that begins at an offset, and is asked for none that
/// a replay would not open.
pub fn from_heads(n: u64, journal: u64, head_at: impl FnMut(u64) -> Head) -> Forecast {
    let mut accepted = Vec::new();
    let refusal = gather(n, journal, head_at, &mut accepted).err();
    let lengths = once(n).chain(accepted.iter().map(|record| record.after));
    Forecast {
        bound: accepted.iter().map(Accepted::bound).sum(),
        greatest: lengths.max().expect("the first length"),
        offset: accepted.iter().map(|record| record.head.record()).sum(),
        refusal,
    }
}

/// Gathers the records that a replay would accept. The refusal is that of the
/// one behind them.
fn gather(
    n: u64,
    journal: u64,
    mut head_at: impl FnMut(u64) -> Head,
    accepted: &mut Vec<Accepted>,
) -> Result<(), u64> {
    replay_refusal(n, journal)?;
    let (mut before, mut remain) = (n, journal);
    while remain > 0 {
        refuse(&[(remain < HEAD_BYTES as u64, BAD_JOURNAL)])?;
        let head = head_at(journal - remain);
        head.refusal(remain - HEAD_BYTES as u64)?;
        head.edit_refusal(before)?;
        let after = head.length_after(before);
        accepted.push(Accepted {
            head,
            before,
            after,
        });
        remain -= head.record();
        before = after;
    }
    Ok(())
}

/// A record that a replay would accept, and the file's lengths around it.
struct Accepted {
    head: Head,
    before: u64,
    after: u64,
}

impl Accepted {
    /// q + 2b: the blocks that the edit's bytes touch, and twice the width of
    /// the larger of the two block counts. Nothing for no bytes.
    fn bound(&self) -> u64 {
        if self.head.l == 0 {
            return 0;
        }
        let first = self.first_byte();
        let last = first + (self.head.l - 1);
        let touched = last / 16 - first / 16 + 1;
        let [m, m_after] = [self.before, self.after].map(block_count);
        touched + 2 * width(m.max(m_after))
    }

    /// Where in the file the edit's bytes begin: those that leave stand there
    /// before it, and all others afterwards.
    fn first_byte(&self) -> u64 {
        match self.head.kind {
            CHANGE => self.head.p,
            APPEND => self.before,
            CUT_TAIL => self.after,
            _ => 0,
        }
    }
}

impl Head {
    /// How many bytes the record has.
    pub fn record(&self) -> u64 {
        HEAD_BYTES as u64 + self.body()
    }

    /// The refusal of the edit to a file of n bytes, once its record has opened.
    pub fn edit_refusal(&self, n: u64) -> Result<(), u64> {
        let past = (too_long(n.into()), TOO_LONG);
        let grown = (too_long(whole_sum(n, self.l)), TOO_LONG);
        let broken = (!self.l.is_multiple_of(16), NOT_WHOLE);
        let outside = (whole_sum(self.p, self.l) > n.into(), OUTSIDE);
        match self.kind {
            APPEND => refuse(&[past, grown]),
            PREPEND => refuse(&[past, broken, grown]),
            DROP_FRONT => refuse(&[past, broken, outside]),
            CHANGE | CUT_TAIL => refuse(&[past, outside]),
            kind => panic!("{kind} is no edit's kind"),
        }
    }

    /// The length of a file of n bytes after the edit, which is not refused.
    pub fn length_after(&self, n: u64) -> u64 {
        match self.kind {
            APPEND | PREPEND => n + self.l,
            DROP_FRONT | CUT_TAIL => n - self.l,
            _ => n,
        }
    }
}

/// The width of a number, how many binary digits it has: how often it can be
/// halved until nothing is left.
fn width(number: u64) -> u64 {
    let halves = successors(Some(number), |rest| Some(rest / 2));
    halves.take_while(|&rest| rest > 0).count() as u64
}

#[cfg(test)]
mod tests {
    use super::*;

    #[test]
    fn widths() {
        for (number, digits) in [
            (0, 0),
            (1, 1),
            (2, 2),
            (3, 2),
            (4, 3),
            (255, 8),
            (256, 9),
            ((1 << 57) - 1, 57),
            (1 << 57, 58),
            (u64::MAX, 64),
        ] {
            assert_eq!(width(number), digits, "{number}");
        }
    }
}
