//! Reads the published vectors and holds calls to them: those of FIPS 197 and
//! NIST for AES-128, which are the input of the program crates/cipher_vectors,
//! and NIST's for GCM with a key of 128 bits, which stand beside this crate's
//! source.

use std::collections::HashMap;

/// One record of a file of vectors: its named values, with the names in
/// lower case, the bracketed settings above it among them.
pub struct Record {
    pub values: HashMap<String, String>,
    /// Whether the record is one whose tag must not fit.
    pub fails: bool,
}

impl Record {
    fn text(&self, name: &str) -> &str {
        self.values
            .get(name)
            .unwrap_or_else(|| panic!("no {name} in {:?}", self.values))
    }

    /// A value in hexadecimal.
    pub fn bytes(&self, name: &str) -> Vec<u8> {
        let text = self.text(name);
        assert!(text.len().is_multiple_of(2), "half a byte in {name}");
        let pairs = (0..text.len()).step_by(2).map(|i| &text[i..i + 2]);
        pairs
            .map(|pair| u8::from_str_radix(pair, 16).expect("hexadecimal"))
            .collect()
    }

    /// A decimal number.
    pub fn number(&self, name: &str) -> usize {
        self.text(name).parse().expect("a number")
    }

    pub fn key(&self) -> [u8; 16] {
        self.bytes("key").try_into().expect("a key of 16 bytes")
    }

    /// Nonce, associated data and ciphertext of a GCM case, of the lengths
    /// that it states.
    pub fn nonce_a_c(&self) -> [Vec<u8>; 3] {
        [("iv", "ivlen"), ("aad", "aadlen"), ("ct", "ptlen")].map(|(name, bits)| {
            let bytes = self.bytes(name);
            assert_eq!(8 * bytes.len(), self.number(bits), "{name}");
            bytes
        })
    }
}

/// Encrypts every block of the AES-128 vectors, compares it with the published
/// one, and says how many there were.
pub fn aes_128_blocks(encrypt: impl Fn(&[u8; 16], &[u8; 16]) -> [u8; 16]) -> usize {
    let records = records("../../../crates/cipher_vectors/stdin");
    assert_eq!(records.len(), 150);
    let mut blocks = 0;
    for record in &records {
        let plain = record.bytes("plaintext");
        let cipher = record.bytes("ciphertext");
        assert_eq!(plain.len(), cipher.len());
        assert!(!plain.is_empty() && plain.len().is_multiple_of(16));
        for (block, expected) in plain.chunks(16).zip(cipher.chunks(16)) {
            let answer = encrypt(&record.key(), block.try_into().expect("16 bytes"));
            assert_eq!(answer, expected, "{:?}", record.values);
            blocks += 1;
        }
    }
    blocks
}

/// GCM encryption on slices: key, nonce, associated data, text, output and tag.
/// The answer is 0 or a refusal's number.
pub type Encrypt = fn(&[u8], &[u8], &[u8], &[u8], &mut [u8], &mut [u8]) -> u64;

/// GCM decryption, which only reads the tag.
pub type Decrypt = fn(&[u8], &[u8], &[u8], &[u8], &mut [u8], &[u8]) -> u64;

/// The two calls of GCM, to be held to the published cases.
pub struct Gcm {
    pub encrypt: Encrypt,
    pub decrypt: Decrypt,
}

/// Lengths of tags that the standard has besides 16 bytes, and none.
const SHORTER_TAGS: [usize; 7] = [0, 4, 8, 12, 13, 14, 15];

/// What an output holds before the call.
const UNTOUCHED: u8 = 0xee;

impl Gcm {
    /// Holds both calls to a case. The ciphertext's own tag is accepted and
    /// gives the plaintext; a published tag that must not fit is refused with
    /// 14, and one cut short with 7, and the output is then untouched.
    pub fn hold(&self, record: &Record) {
        let shown = &record.values;
        let [_, _, c] = record.nonce_a_c();
        // To encrypt twice adds the key stream twice, which is nothing: so the
        // plaintext is found where none is published, too.
        let (plain, _) = self.encrypted(record, &c);
        let (again, tag) = self.encrypted(record, &plain);
        assert_eq!(again, c, "{shown:?}");
        if !record.fails {
            assert_eq!(plain, record.bytes("pt"), "{shown:?}");
        }
        let given = record.bytes("tag");
        assert_eq!(tag == given, !record.fails, "{shown:?}");

        let untouched = vec![UNTOUCHED; c.len()];
        if record.fails {
            let refused = (14, untouched.clone());
            assert_eq!(self.decrypted(record, &given), refused, "{shown:?}");
        }
        for size in SHORTER_TAGS {
            let answer = self.decrypted(record, &tag[..size]);
            assert_eq!(answer, (7, untouched.clone()), "{shown:?}");
        }
        assert_eq!(self.decrypted(record, &tag), (0, plain), "{shown:?}");
    }

    /// A text encrypted, and its tag.
    fn encrypted(&self, record: &Record, text: &[u8]) -> (Vec<u8>, Vec<u8>) {
        let [nonce, a, _] = record.nonce_a_c();
        let (mut out, mut tag) = (vec![0; text.len()], vec![0; 16]);
        let answer = (self.encrypt)(&record.key(), &nonce, &a, text, &mut out, &mut tag);
        assert_eq!(answer, 0, "{:?}", record.values);
        (out, tag)
    }

    /// The answer to the decryption of the ciphertext under a tag, and the
    /// output.
    fn decrypted(&self, record: &Record, tag: &[u8]) -> (u64, Vec<u8>) {
        let [nonce, a, c] = record.nonce_a_c();
        let mut out = vec![UNTOUCHED; c.len()];
        let answer = (self.decrypt)(&record.key(), &nonce, &a, &c, &mut out, tag);
        (answer, out)
    }
}

/// The records of a file, by its path from this crate's directory. An empty
/// line ends a record.
pub fn records(file: &str) -> Vec<Record> {
    let path = format!("{}/{file}", env!("CARGO_MANIFEST_DIR"));
    let text = std::fs::read_to_string(&path).unwrap_or_else(|e| panic!("{path}: {e}"));
    let mut settings = HashMap::new();
    let mut found: Vec<Record> = Vec::new();
    let mut within = false;
    for line in text.lines().map(str::trim) {
        if line.is_empty() || line.starts_with('#') {
            within = false;
            continue;
        }
        if let Some(setting) = line.strip_prefix('[') {
            settings.extend([split(setting.trim_end_matches(']'))]);
        } else if line == "FAIL" {
            found.last_mut().expect("a record").fails = true;
        } else {
            let (name, value) = split(line);
            if !within {
                found.push(Record {
                    values: settings.clone(),
                    fails: false,
                });
                within = true;
            }
            let record = found.last_mut().expect("a record");
            record.values.insert(name, value);
        }
    }
    found
}

fn split(line: &str) -> (String, String) {
    let (name, value) = line.split_once('=').expect("a name and a value");
    (name.trim().to_lowercase(), value.trim().to_string())
}
