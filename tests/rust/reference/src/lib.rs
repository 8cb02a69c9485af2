//! A plain second implementation of the arm file seal of document 01, and of
//! document 02's edit journal, Q-1, GCM, Q-2, fill bytes, Q-4, verdicts, Q-5,
//! joins of parts, Q-6, and forecasts, Q-7.
//!
//! FIPS 197 decides for AES, NIST SP 800-38D for the field, GHASH, GMAC and
//! GCM, and the two documents for everything else. Clear code is preferred to
//! fast code.
//!
//! - `aes`: the cipher.
//! - `field`: blocks and their arithmetic.
//! - `ghash`: the running sum, GHASH and GMAC.
//! - `tables`: hashing of very long inputs.
//! - `blank`: the running sum of a blank file, and what it counts.
//! - `join`: the join of parts on slices, with its refusals.
//! - `gcm`: encryption and decryption of a text, over `aes` and `ghash`.
//! - `bits`: numbers in bytes, packed most significant bit first.
//! - `slip`: the 36 bytes of a slip, and the verdicts on it.
//! - `state`: the controller, by document 01's formulas.
//! - `journal`: the records of a journal, and their replay.
//! - `forecast`: what a replay will do, from the heads of the records alone.
//! - `machine`: the plain machine, from the bytes alone.
//! - `calls`: the other calls without a state on slices, with their refusals.
//! - `refusal`: the causes and their numbers.
//! - `random`: a small repeatable random generator for tests, and what tests of
//!   edits, of forecasts and of joins choose with it.

pub mod aes;
pub mod bits;
pub mod blank;
pub mod calls;
pub mod field;
pub mod forecast;
pub mod gcm;
pub mod ghash;
pub mod join;
pub mod journal;
pub mod machine;
pub mod random;
pub mod refusal;
pub mod slip;
pub mod state;
pub mod tables;

pub use machine::Machine;
pub use slip::{Slip, Verdict};
pub use state::State;
