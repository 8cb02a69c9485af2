//! Forecasts of journals, and the replays that they foretell.

use armfile::State;
use reference::forecast::Forecast;
use reference::journal::Head;

use crate::call::{Call, Lent};
use crate::case::Case;

impl Case {
    /// Forecasts a journal for a file of n bytes. All three numbers are written,
    /// whatever is answered, so they are lent with values that no forecast gives.
    pub fn forecast(&mut self, n: u64, journal: &[u8]) -> Forecast {
        let mut lent = Lent::new();
        lent.greatest = !n;
        let journal = journal.to_vec();
        let answer = self.compared(&Call::Forecast { n, journal }, &mut lent);
        Forecast {
            bound: lent.bound,
            greatest: lent.greatest,
            offset: lent.offset,
            refusal: (answer != 0).then_some(answer),
        }
    }

    /// Forecasts a journal and replays it. The replay stops with the same number
    /// at the same record, counts no more than the bound, and comes to just the
    /// greatest length that was told.
    pub(crate) fn foretold(&mut self, replay: &Call, journal: &[u8], lent: &mut Lent) -> u64 {
        let before = lent.clone();
        let told = self.forecast(before.fields().n, journal);
        let answer = self.compared(replay, lent);
        let stop = (told.refusal.unwrap_or(0), told.offset);
        assert_eq!(stop, (answer, lent.offset), "the stop that was foretold");
        let (count, bound) = (lent.count, told.bound);
        assert!(count <= bound, "{count} products, and {bound} foretold");
        let greatest = greatest(&before, &journal[..lent.offset as usize]);
        assert_eq!(told.greatest, greatest, "the greatest length");
        answer
    }
}

/// The greatest length of the file while these records, none of them refused,
/// are replayed by the library one by one.
fn greatest(before: &Lent, mut records: &[u8]) -> u64 {
    let mut state = State::from_bytes(before.state);
    let mut greatest = state.length();
    while !records.is_empty() {
        let (record, rest) = records.split_at(Head::open(records).record() as usize);
        assert_eq!(state.replay(record).refusal, None, "a record by itself");
        greatest = greatest.max(state.length());
        records = rest;
    }
    greatest
}
