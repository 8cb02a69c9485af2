//! The published vectors through the library: AES-128, and NIST's for GCM with a
//! key of 128 bits and nonces of 8, 96 and 1024 bits.

#![forbid(unsafe_code)]

use std::collections::BTreeMap;

use armfile::{encrypt, ffi, ghash, gmac};
use compare::say;
use vectors::{aes_128_blocks, records, Gcm, Record};

const GCM: Gcm = Gcm {
    encrypt: ffi::gcm_encrypt,
    decrypt: ffi::gcm_decrypt,
};

type Block = [u8; 16];

fn encrypted(key: &[u8], block: &[u8]) -> Block {
    let mut out = [0; 16];
    encrypt(key, block, &mut out).expect("a block");
    out
}

fn hashed(h: &[u8], a: &[u8], c: &[u8]) -> Block {
    let mut out = [0; 16];
    ghash(h, a, c, &mut out).expect("a hash");
    out
}

/// J, SP 800-38D section 7.1, step 2: the nonce and the number 1, or the
/// nonce's GHASH.
fn first_counter(h: &[u8], nonce: &[u8]) -> Block {
    if nonce.len() != 12 {
        return hashed(h, &[], nonce);
    }
    let mut block = [0; 16];
    block[..12].copy_from_slice(nonce);
    block[15] = 1;
    block
}

/// The tag as GHASH(H, A, C) + AES(key, J).
fn tag_by_parts(key: &[u8], nonce: &[u8], a: &[u8], c: &[u8]) -> Block {
    let h = encrypted(key, &[0; 16]);
    let hash = hashed(&h, a, c);
    let mask = encrypted(key, &first_counter(&h, nonce));
    std::array::from_fn(|i| hash[i] ^ mask[i])
}

#[test]
fn aes_128() {
    let blocks = aes_128_blocks(|key, block| encrypted(key, block));
    say(&format!("AES-128: {blocks} blocks encrypted"));
    assert_eq!(blocks, 170);
}

/// Whether the record's tag is the one computed. With no plaintext it is
/// computed twice: by the GMAC call, and by its parts.
fn tag_fits(record: &Record) -> bool {
    let [iv, a, c] = record.nonce_a_c();
    let computed = tag_by_parts(&record.key(), &iv, &a, &c);
    if c.is_empty() {
        let mut tag = [0; 16];
        gmac(&record.key(), &iv, &a, &mut tag).expect("a tag");
        assert_eq!(tag, computed, "{:?}", record.values);
    }
    let tag = record.bytes("tag");
    assert_eq!(tag.len(), 16);
    computed[..] == tag
}

/// The cases of a file, each of which goes through encryption and decryption:
/// for each nonce length in bits how many have no text, so that their tag is
/// GMAC's, and how many have one; and how many of all must not fit.
fn gcm(file: &str) -> (BTreeMap<usize, (usize, usize)>, usize) {
    let mut counts = BTreeMap::new();
    let mut fails = 0;
    for record in &records(file) {
        assert_eq!(tag_fits(record), !record.fails, "{:?}", record.values);
        GCM.hold(record);
        let count: &mut (usize, usize) = counts.entry(record.number("ivlen")).or_default();
        if record.number("ptlen") == 0 {
            count.0 += 1;
        } else {
            count.1 += 1;
        }
        fails += usize::from(record.fails);
    }
    for (ivlen, (gmacs, others)) in &counts {
        say(&format!(
            "{file}, nonce of {ivlen} bits: {gmacs} cases with no text, {others} with one"
        ));
    }
    say(&format!("{file}: {fails} cases that must not fit"));
    (counts, fails)
}

/// Each nonce length has 45 cases with no plaintext and 180 with one.
fn nonce_lengths() -> BTreeMap<usize, (usize, usize)> {
    BTreeMap::from([8, 96, 1024].map(|ivlen| (ivlen, (45, 180))))
}

#[test]
fn gcm_encrypt_128() {
    assert_eq!(gcm("gcm-encrypt-128.rsp"), (nonce_lengths(), 0));
}

#[test]
fn gcm_decrypt_128() {
    assert_eq!(gcm("gcm-decrypt-128.rsp"), (nonce_lengths(), 334));
}
