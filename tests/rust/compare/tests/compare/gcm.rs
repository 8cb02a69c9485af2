//! GCM, document 02, Q-2.

use compare::{Call, Case, Lent, Message};
use reference::gcm::nonce_of;
use reference::ghash::hash_key;

use crate::choose::{block, one_of, output, plain, PLAIN, SIZES, TEXTS};

/// A message with parts of these lengths.
pub fn some_message(case: &mut Case, nonce: usize, aad: usize, text: usize) -> Message {
    let random = &mut case.random;
    Message {
        key: block(random),
        nonce: random.bytes(nonce),
        aad: random.bytes(aad),
        text: random.bytes(text),
    }
}

/// The answer to an encryption with an output and a tag of these sizes, and
/// what they are afterwards.
fn encrypt(case: &mut Case, message: &Message, out: usize, tag: usize) -> (u64, Lent) {
    let mut lent = Lent::new();
    lent.out = output(&mut case.random, out);
    lent.tag = output(&mut case.random, tag);
    let message = message.clone();
    let answer = case.call(&Call::GcmEncrypt { message }, &mut lent);
    (answer, lent)
}

/// The answer to a decryption with an output of this size, and the output
/// afterwards. No tag is lent to it for writing.
fn decrypt(case: &mut Case, message: &Message, tag: &[u8], out: usize) -> (u64, Vec<u8>) {
    let mut lent = Lent::new();
    lent.out = output(&mut case.random, out);
    let call = Call::GcmDecrypt {
        message: message.clone(),
        tag: tag.to_vec(),
    };
    let answer = case.call(&call, &mut lent);
    (answer, lent.out)
}

/// The message with its text encrypted, and the tag.
fn sent(case: &mut Case, message: &Message) -> (Message, Vec<u8>) {
    let (answer, lent) = encrypt(case, message, message.text.len(), 16);
    assert_eq!(answer, 0);
    let sent = Message {
        text: lent.out,
        ..message.clone()
    };
    (sent, lent.tag)
}

/// What is encrypted comes back.
pub fn carried(case: &mut Case, message: &Message) {
    let (sent, tag) = sent(case, message);
    let back = decrypt(case, &sent, &tag, sent.text.len());
    assert!(back == (0, message.text.clone()), "another text comes back");
}

/// What was altered on the way is refused.
fn refused(case: &mut Case, message: &Message, tag: &[u8]) {
    let (answer, _) = decrypt(case, message, tag, message.text.len());
    assert_eq!(answer, 14);
}

/// A text of as many bytes as the case's index.
pub fn every_text(case: &mut Case) {
    let length = case.index() as usize;
    let message = some_message(case, 12, length % 40, length);
    carried(case, &message);
}

/// A text of the case's length, with associated data of several.
pub fn edge_lengths(case: &mut Case) {
    let text = TEXTS[case.index() as usize];
    for aad in [0, 1, 15, 16, 17, 255, 256, 257] {
        let nonce = one_of(&mut case.random, &[1, 11, 12, 13, 16, 60]);
        let message = some_message(case, nonce, aad, text);
        carried(case, &message);
    }
}

/// Nonces of every length up to 40, then longer ones.
pub fn every_nonce(case: &mut Case) {
    const LONGER: [usize; 10] = [47, 48, 49, 64, 100, 128, 255, 256, 257, 1_000];
    let nonce = match case.index() as usize {
        index @ 0..40 => index + 1,
        index => LONGER[index - 40],
    };
    for text in [0, 5, 16, 100, 300] {
        let message = some_message(case, nonce, 20, text);
        carried(case, &message);
    }
}

pub fn random_lengths(case: &mut Case) {
    let most = one_of(&mut case.random, &[40, 40, 300, 300, 1_000, 10_300]);
    let more = one_of(&mut case.random, &[50, 100, 100, 1_100]);
    let [nonce, aad, text] = [50, more, most].map(|most| case.random.below(most) as usize);
    let message = some_message(case, 1 + nonce, aad, text);
    carried(case, &message);
}

/// GMAC is GCM with no text.
pub fn no_text(case: &mut Case) {
    let [nonce, aad] = [50, 1_100].map(|most| case.random.below(most) as usize);
    let message = some_message(case, 1 + nonce, aad, 0);
    let (_, tag) = sent(case, &message);
    let mut lent = Lent::new();
    lent.out = output(&mut case.random, 16);
    let gmac = Call::Gmac {
        key: message.key,
        nonce: message.nonce,
        a: message.aad,
    };
    assert_eq!(case.call(&gmac, &mut lent), 0);
    assert_eq!(lent.out, tag);
}

/// With any one bit of key, nonce, associated data, ciphertext or tag turned
/// no text comes.
pub fn one_bit_turned(case: &mut Case) {
    let text = [0, 1, 15, 16, 17, 40][case.index() as usize % 6];
    let nonce = one_of(&mut case.random, &[1, 12, 16, 20]);
    let message = some_message(case, nonce, 18, text);
    let (message, tag) = sent(case, &message);
    let arguments = [message.key, message.nonce, message.aad, message.text, tag];
    for argument in 0..arguments.len() {
        for bit in 0..8 * arguments[argument].len() {
            let mut turned = arguments.clone();
            turned[argument][bit / 8] ^= 0x80 >> (bit % 8);
            let [key, nonce, aad, text, tag] = turned;
            let message = Message {
                key,
                nonce,
                aad,
                text,
            };
            refused(case, &message, &tag);
        }
    }
}

/// One bit of each byte of a long text, and of long associated data, turned.
pub fn one_bit_of_many(case: &mut Case) {
    let message = some_message(case, 12, 300, 1_030);
    let (message, tag) = sent(case, &message);
    for place in 0..message.text.len() {
        let mut turned = message.clone();
        turned.text[place] ^= 1 << case.random.below(8);
        refused(case, &turned, &tag);
    }
    for place in 0..message.aad.len() {
        let mut turned = message.clone();
        turned.aad[place] ^= 1 << case.random.below(8);
        refused(case, &turned, &tag);
    }
}

/// Bytes that fill the same blocks, but with the border between associated data
/// and ciphertext elsewhere, or with a zero byte more at an end.
pub fn borders_moved(case: &mut Case) {
    let blocks = 1 + case.random.below(20) as usize;
    let message = some_message(case, 1 + blocks, 16 * blocks, 16 * blocks);
    let (message, tag) = sent(case, &message);
    let all = [&message.aad[..], &message.text].concat();
    for border in (0..=2 * blocks).filter(|&border| border != blocks) {
        let (aad, text) = all.split_at(16 * border);
        let moved = Message {
            aad: aad.to_vec(),
            text: text.to_vec(),
            ..message.clone()
        };
        refused(case, &moved, &tag);
    }
    let ends: [fn(&mut Message); 3] = [
        |message| message.nonce.push(0),
        |message| message.aad.push(0),
        |message| message.text.push(0),
    ];
    for longer in ends {
        let [aad, text] = [(); 2].map(|()| case.random.below(40) as usize);
        let message = some_message(case, 16, aad, text);
        let (mut message, tag) = sent(case, &message);
        longer(&mut message);
        refused(case, &message, &tag);
    }
}

/// Keys of the case's size, with nonces, outputs and tags of several.
pub fn wrong_lengths(case: &mut Case) {
    let size = SIZES[case.index() as usize];
    for nonce in [0, 1, 12] {
        for text in [0, 16, 40] {
            let mut message = some_message(case, nonce, 20, text);
            message.key = case.random.bytes(size);
            for out in [0, text.saturating_sub(1), text, text + 1, text + 16] {
                for tag in SIZES {
                    encrypt(case, &message, out, tag);
                    let tag = case.random.bytes(tag);
                    decrypt(case, &message, &tag, out);
                }
            }
        }
    }
}

/// The causes that a slice can bring about, in their order: the case's index
/// says which do, and the first of them decides.
pub fn sets_of_causes(case: &mut Case) {
    const NUMBERS: [u64; 5] = [1, 9, 7, 7, 14];
    let set = case.index() as u32;
    let has = |cause: u32| (set >> cause) & 1 == 1;
    let first = NUMBERS.get(set.trailing_zeros() as usize);
    let expected = first.copied().unwrap_or(0);
    for text in [0, 16, 40] {
        let message = some_message(case, 12, 20, text);
        let (mut message, mut tag) = sent(case, &message);
        if has(0) {
            message.key.pop();
        }
        if has(1) {
            message.nonce.clear();
        }
        if has(2) {
            tag.push(0);
        }
        if has(4) {
            tag[0] ^= 1;
        }
        let out = text + usize::from(has(3));
        assert_eq!(decrypt(case, &message, &tag, out).0, expected);
        let (answer, _) = encrypt(case, &message, out, tag.len());
        assert_eq!(answer, if expected == 14 { 0 } else { expected });
    }
}

/// Texts around as many whole batches of sixteen blocks as the case's index
/// and one more, with up to 32 bytes behind them, and with more than that.
pub fn around_batches(case: &mut Case) {
    let whole = 256 * (case.index() as usize + 1);
    for text in [whole - 1, whole, whole + 1, whole + 32, whole + 33] {
        let message = some_message(case, 12, 5, text);
        carried(case, &message);
    }
}

/// A message of this many bytes under a nonce that becomes the block j.
fn message_from(case: &mut Case, key: &[u8], j: &[u8], text: usize) -> Message {
    let key: [u8; 16] = key.try_into().expect("16 bytes");
    let j = j.try_into().expect("16 bytes");
    Message {
        key: key.to_vec(),
        nonce: nonce_of(&hash_key(&key), &j).to_vec(),
        ..some_message(case, 0, 20, text)
    }
}

/// Keys and blocks j of one bit, of zeros and of ones, by the case's index, in
/// both ways of making blocks: sixteen at once, and one by one.
pub fn plain_counters(case: &mut Case) {
    let one = plain(case.index() as usize);
    let any = plain(case.random.below(PLAIN as u64) as usize);
    let random = case.random.bytes(16);
    for (key, j) in [(&one, &one), (&one, &any), (&any, &one), (&random, &one)] {
        let message = message_from(case, key, j, 256 + 32);
        carried(case, &message);
    }
}

/// Counters whose last 32 bits pass 2^32 - 1 within the text, after as many
/// blocks as the case's index; the first 96 bits are random, all ones or all
/// zeros.
pub fn counters_wrap(case: &mut Case) {
    let before = case.index() as u32;
    for first in [case.random.block(), [0xff; 16], [0; 16]] {
        let key = case.random.block();
        let mut j = first;
        j[12..].copy_from_slice(&(u32::MAX - before).to_be_bytes());
        for text in [16 * before as usize + 1, 16 * 55 + 5] {
            let message = message_from(case, &key, &j, text);
            carried(case, &message);
        }
    }
}
