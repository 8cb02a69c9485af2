//! The library against the second implementation, `reference`: one call made
//! by both, with all that it is lent compared afterwards.
//!
//! - `call`: the calls, as wrapper and second implementation make them.
//! - `library`: the calls, as the library makes them.
//! - `guarded`: lent buffers, with canaries or a forbidden page behind them.
//! - `edge`: memory that ends at a forbidden page, and whether a call touches it.
//! - `hidden`: journals of which only heads can be read.
//! - `case`: seeds, counts and the report of a failing case.
//! - `foretold`: forecasts of journals, and what they foretell.
//!
//! The inputs are chosen in `tests/compare`. `tests/vectors.rs` puts the
//! published vectors through the library, `tests/claimed.rs` lengths that only
//! C can claim, `tests/heads_alone.rs` journals whose bodies no forecast reads,
//! `tests/counts.rs` inputs too long for `reference`, and `tests/strength.rs`
//! hash keys under which files collide.

#![deny(unsafe_code)]

pub mod call;
pub mod case;
pub mod edge;
pub mod foretold;
pub mod guarded;
pub mod hidden;
pub mod library;

pub use call::{Call, Lent, Message};
pub use case::Case;

/// Bytes in hexadecimal.
pub fn hex(bytes: &[u8]) -> String {
    bytes.iter().map(|byte| format!("{byte:02x}")).collect()
}

/// Prints a line that the test harness does not keep back.
pub fn say(line: &str) {
    use std::io::Write;
    writeln!(std::io::stderr(), "{line}").expect("standard error");
}
