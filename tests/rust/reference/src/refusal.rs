//! Document 01, "Causes and their numbers", and those of document 02, Q-1, Q-2
//! and Q-6.

/// Key, hash key or block not 16 bytes.
pub const NOT_SIXTEEN: u64 = 1;
/// File, A, C or nonce would pass 2^61 - 1 bytes.
pub const TOO_LONG: u64 = 2;
/// p + l > n, or l > n when removing.
pub const OUTSIDE: u64 = 3;
/// Old and new differ in length.
pub const UNEQUAL: u64 = 4;
/// Prepend or drop-front length no multiple of 16, or that of a part which is
/// not the last.
pub const NOT_WHOLE: u64 = 5;
/// Last used number is 2^64 - 1.
pub const USED_UP: u64 = 6;
/// Slip not 36 bytes, tag or block output not 16, or text and output of
/// different lengths.
pub const BAD_BUFFER: u64 = 7;
/// Slip version not 1.
pub const BAD_VERSION: u64 = 8;
/// Empty nonce.
pub const EMPTY_NONCE: u64 = 9;
/// Journal over 2^40 bytes, or fewer bytes remain than a record needs.
pub const BAD_JOURNAL: u64 = 10;
/// Record's kind 0, 6 or 7.
pub const BAD_KIND: u64 = 11;
/// Record's p not zero outside a change.
pub const BAD_PLACE: u64 = 12;
/// Text over 2^36 - 32 bytes.
pub const TEXT_TOO_LONG: u64 = 13;
/// Tag doesn't fit.
pub const WRONG_TAG: u64 = 14;
/// Sums' byte length not 16 times the number of lengths.
pub const BAD_SUMS: u64 = 15;

/// The largest byte length of a file, of A, of C and of a nonce.
pub const MAX_BYTES: u64 = (1 << 61) - 1;

/// The largest byte length of a journal.
pub const MAX_JOURNAL_BYTES: u64 = 1 << 40;

/// The largest byte length of a text to encrypt or to decrypt.
pub const MAX_TEXT_BYTES: u64 = (1 << 36) - 32;

/// Refuses with the number of the first cause that holds, if one does.
pub fn refuse(causes: &[(bool, u64)]) -> Result<(), u64> {
    for &(holds, number) in causes {
        if holds {
            return Err(number);
        }
    }
    Ok(())
}

/// The sum of two lengths as a whole number, which never wraps.
pub fn whole_sum(a: u64, b: u64) -> u128 {
    u128::from(a) + u128::from(b)
}

/// Whether a length passes 2^61 - 1 bytes.
pub fn too_long(length: u128) -> bool {
    length > u128::from(MAX_BYTES)
}
