//! The published vectors for AES-128 and for GCM with a key of 128 bits.

use reference::{aes, calls, ghash};
use vectors::{aes_128_blocks, records, Gcm, Record};

const GCM: Gcm = Gcm {
    encrypt: |key, nonce, a, text, out, tag| {
        number(calls::gcm_encrypt(key, nonce, a, text, out, tag))
    },
    decrypt: |key, nonce, a, text, out, tag| {
        number(calls::gcm_decrypt(key, nonce, a, text, out, tag))
    },
};

fn number(answer: Result<(), u64>) -> u64 {
    answer.err().unwrap_or(0)
}

#[test]
fn aes_128() {
    let blocks = aes_128_blocks(aes::encrypt);
    assert_eq!(blocks, 170);
}

/// Whether the record's tag fits its key, nonce, A and C, as far as the
/// tag's published length goes. With C empty the tag is GMAC's.
fn tag_fits(record: &Record) -> bool {
    let [iv, a, c] = record.nonce_a_c();
    let computed = if c.is_empty() {
        ghash::gmac(&record.key(), &iv, &a)
    } else {
        ghash::tag(&record.key(), &iv, &a, &c)
    };
    let tag = record.bytes("tag");
    assert_eq!(8 * tag.len(), record.number("taglen"));
    computed[..tag.len()] == tag
}

/// How many records have C empty, for each nonce length in bits.
fn gmac_records(records: &[Record], ivlen: usize) -> usize {
    let matching = |r: &&Record| r.number("ivlen") == ivlen && r.number("ptlen") == 0;
    records.iter().filter(matching).count()
}

#[test]
fn gcm_encrypt_128() {
    let records = records("gcm-encrypt-128.rsp");
    assert_eq!(records.len(), 675);
    for ivlen in [8, 96, 1024] {
        assert_eq!(gmac_records(&records, ivlen), 45);
    }
    for record in &records {
        assert!(!record.fails);
        assert!(tag_fits(record), "{:?}", record.values);
        GCM.hold(record);
    }
}

#[test]
fn gcm_decrypt_128() {
    let records = records("gcm-decrypt-128.rsp");
    assert_eq!(records.len(), 675);
    assert_eq!(records.iter().filter(|r| r.fails).count(), 334);
    for ivlen in [8, 96, 1024] {
        assert_eq!(gmac_records(&records, ivlen), 45);
    }
    for record in &records {
        assert_eq!(tag_fits(record), !record.fails, "{:?}", record.values);
        GCM.hold(record);
    }
}
