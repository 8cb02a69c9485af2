//! The calls without a state on slices, but for a join and a forecast, with the
//! refusals of document 01, and of document 02, Q-2, in their order. A refused
//! call leaves its outputs as before.

use crate::aes;
use crate::field::{self, Block};
use crate::gcm;
use crate::ghash;
use crate::refusal::{
    refuse, too_long, BAD_BUFFER, EMPTY_NONCE, MAX_TEXT_BYTES, NOT_SIXTEEN, TEXT_TOO_LONG,
    TOO_LONG, WRONG_TAG,
};

/// The refusal of a block call, from the lengths alone: 1, 7.
pub fn block_refusal(first: u64, second: u64, out: u64) -> Result<(), u64> {
    refuse(&[
        (first != 16 || second != 16, NOT_SIXTEEN),
        (out != 16, BAD_BUFFER),
    ])
}

/// The refusal of GHASH, from the lengths alone: 1, 7, 2.
pub fn ghash_refusal(h: u64, a: u64, c: u64, out: u64) -> Result<(), u64> {
    refuse(&[
        (h != 16, NOT_SIXTEEN),
        (out != 16, BAD_BUFFER),
        (too_long(a.into()) || too_long(c.into()), TOO_LONG),
    ])
}

/// The refusal of GMAC, from the lengths alone: 1, 9, 7, 2.
pub fn gmac_refusal(key: u64, nonce: u64, a: u64, out: u64) -> Result<(), u64> {
    refuse(&[
        (key != 16, NOT_SIXTEEN),
        (nonce == 0, EMPTY_NONCE),
        (out != 16, BAD_BUFFER),
        (too_long(nonce.into()) || too_long(a.into()), TOO_LONG),
    ])
}

/// The refusal of GCM, from the lengths of its six arguments alone: 1, 9, 7,
/// 2, 13.
pub fn gcm_refusal([key, nonce, a, text, out, tag]: [u64; 6]) -> Result<(), u64> {
    refuse(&[
        (key != 16, NOT_SIXTEEN),
        (nonce == 0, EMPTY_NONCE),
        (tag != 16 || text != out, BAD_BUFFER),
        (too_long(nonce.into()) || too_long(a.into()), TOO_LONG),
        (text > MAX_TEXT_BYTES, TEXT_TOO_LONG),
    ])
}

/// AES(key, block).
pub fn encrypt(key: &[u8], block: &[u8], out: &mut [u8]) -> Result<(), u64> {
    block_refusal(size(key), size(block), size(out))?;
    out.copy_from_slice(&aes::encrypt(&sixteen(key), &sixteen(block)));
    Ok(())
}

/// The product of two blocks.
pub fn multiply(a: &[u8], b: &[u8], out: &mut [u8]) -> Result<(), u64> {
    block_refusal(size(a), size(b), size(out))?;
    out.copy_from_slice(&field::multiply(&sixteen(a), &sixteen(b)));
    Ok(())
}

/// GHASH(H, A, C).
pub fn ghash(h: &[u8], a: &[u8], c: &[u8], out: &mut [u8]) -> Result<(), u64> {
    ghash_refusal(size(h), size(a), size(c), size(out))?;
    out.copy_from_slice(&ghash::ghash(&sixteen(h), a, c));
    Ok(())
}

/// GMAC(key, nonce, A).
pub fn gmac(key: &[u8], nonce: &[u8], a: &[u8], out: &mut [u8]) -> Result<(), u64> {
    gmac_refusal(size(key), size(nonce), size(a), size(out))?;
    out.copy_from_slice(&ghash::gmac(&sixteen(key), nonce, a));
    Ok(())
}

/// The text encrypted, and its tag.
pub fn gcm_encrypt(
    key: &[u8],
    nonce: &[u8],
    a: &[u8],
    text: &[u8],
    out: &mut [u8],
    tag: &mut [u8],
) -> Result<(), u64> {
    gcm_refusal([key, nonce, a, text, out, tag].map(size))?;
    let (encrypted, computed) = gcm::encrypt(&sixteen(key), nonce, a, text);
    out.copy_from_slice(&encrypted);
    tag.copy_from_slice(&computed);
    Ok(())
}

/// The text decrypted, where the tag fits; 14, after the other refusals, where
/// it doesn't.
pub fn gcm_decrypt(
    key: &[u8],
    nonce: &[u8],
    a: &[u8],
    text: &[u8],
    out: &mut [u8],
    tag: &[u8],
) -> Result<(), u64> {
    gcm_refusal([key, nonce, a, text, out, tag].map(size))?;
    let decrypted = gcm::decrypt(&sixteen(key), nonce, a, text, &sixteen(tag)).ok_or(WRONG_TAG)?;
    out.copy_from_slice(&decrypted);
    Ok(())
}

fn size(bytes: &[u8]) -> u64 {
    bytes.len() as u64
}

/// A slice already known to hold 16 bytes.
fn sixteen(bytes: &[u8]) -> Block {
    bytes.try_into().expect("16 bytes")
}
