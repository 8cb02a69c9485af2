//! The numbers of armfile.h are those of its wrapper and of the second
//! implementation.

#![forbid(unsafe_code)]

use std::collections::BTreeMap;

use armfile::Refusal::{self, *};
use reference::{refusal, slip, state};

/// The header's numbers by their names, without `ARMFILE_`.
fn numbers() -> BTreeMap<&'static str, u64> {
    let header = include_str!("../../../../include/armfile.h");
    let defined = header
        .lines()
        .filter_map(|line| line.strip_prefix("#define ARMFILE_"));
    let pair = |line: &'static str| {
        line.split_once(' ')
            .map(|(name, text)| (name, number(text)))
    };
    defined.filter_map(pair).collect()
}

fn number(text: &str) -> u64 {
    let text = text.trim();
    let inner = text.strip_prefix("UINT64_C(").unwrap_or(text);
    let digits = inner.trim_end_matches(')');
    let value = match digits.strip_prefix("0x") {
        Some(hexadecimal) => u64::from_str_radix(hexadecimal, 16),
        None => digits.parse(),
    };
    value.unwrap_or_else(|_| panic!("'{text}' in armfile.h is no number"))
}

/// The refusals, as the header, its wrapper and the second implementation have
/// them.
const REFUSALS: [(&str, Refusal, u64); 15] = [
    (
        "KEY_OR_BLOCK_LENGTH",
        KeyOrBlockLength,
        refusal::NOT_SIXTEEN,
    ),
    ("TOO_LONG", TooLong, refusal::TOO_LONG),
    ("OUT_OF_FILE", OutOfFile, refusal::OUTSIDE),
    ("UNEQUAL_PAIR", UnequalPair, refusal::UNEQUAL),
    ("BROKEN_BLOCK", BrokenBlock, refusal::NOT_WHOLE),
    ("NUMBERS_USED", NumbersUsed, refusal::USED_UP),
    ("OUTPUT_LENGTH", OutputLength, refusal::BAD_BUFFER),
    ("SLIP_VERSION", SlipVersion, refusal::BAD_VERSION),
    ("EMPTY_NONCE", EmptyNonce, refusal::EMPTY_NONCE),
    ("JOURNAL_LENGTH", JournalLength, refusal::BAD_JOURNAL),
    ("RECORD_KIND", RecordKind, refusal::BAD_KIND),
    ("RECORD_PLACE", RecordPlace, refusal::BAD_PLACE),
    ("TEXT_TOO_LONG", TextTooLong, refusal::TEXT_TOO_LONG),
    ("WRONG_TAG", WrongTag, refusal::WRONG_TAG),
    ("SUMS_LENGTH", SumsLength, refusal::BAD_SUMS),
];

/// So are these the verdicts.
const VERDICTS: [(&str, armfile::Verdict, reference::Verdict); 4] = [
    (
        "NOT_GENUINE",
        armfile::Verdict::NotGenuine,
        reference::Verdict::NotGenuine,
    ),
    (
        "CURRENT",
        armfile::Verdict::Current,
        reference::Verdict::Current,
    ),
    ("STALE", armfile::Verdict::Stale, reference::Verdict::Stale),
    ("AHEAD", armfile::Verdict::Ahead, reference::Verdict::Ahead),
];

/// All of the header's numbers, and no other.
#[test]
fn names_and_numbers() {
    let mut expected = BTreeMap::from([
        ("OK", 0),
        ("STATE_BYTES", armfile::STATE_BYTES as u64),
        ("SLIP_BYTES", armfile::SLIP_BYTES as u64),
        ("BLOCK_BYTES", armfile::BLOCK_BYTES as u64),
        ("MAX_BYTES", armfile::MAX_BYTES),
        ("MAX_JOURNAL_BYTES", armfile::MAX_JOURNAL_BYTES),
        ("MAX_TEXT_BYTES", armfile::MAX_TEXT_BYTES),
        ("SLIP_FORMAT", armfile::SLIP_FORMAT.into()),
    ]);
    for (name, refusal, number) in REFUSALS {
        assert_eq!(refusal.number(), number, "{refusal}");
        expected.insert(name, number);
    }
    for (name, verdict, other) in VERDICTS {
        assert_eq!(verdict.number(), other.number(), "{verdict}");
        expected.insert(name, verdict.number().into());
    }
    assert_eq!(numbers(), expected);
    assert_eq!(armfile::STATE_BYTES, state::STATE_BYTES);
    assert_eq!(armfile::SLIP_BYTES, slip::SLIP_BYTES);
    assert_eq!(armfile::MAX_BYTES, refusal::MAX_BYTES);
    assert_eq!(armfile::MAX_JOURNAL_BYTES, refusal::MAX_JOURNAL_BYTES);
    assert_eq!(armfile::MAX_TEXT_BYTES, refusal::MAX_TEXT_BYTES);
    assert_eq!(u64::from(armfile::SLIP_FORMAT), slip::VERSION);
}
