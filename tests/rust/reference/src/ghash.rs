//! The running sum, GHASH and GMAC: SP 800-38D sections 6.4 and 7, and
//! document 01, "Sum, hash, tag".

use crate::aes;
use crate::field::{add, multiply, Block, ZERO};
use crate::tables;

/// H, the hash key: the zero block encrypted.
pub fn hash_key(key: &[u8; 16]) -> Block {
    aes::encrypt(key, &ZERO)
}

/// The block count of a file of n bytes: n / 16 rounded up.
pub fn block_count(n: u64) -> u64 {
    n.div_ceil(16)
}

/// The blocks of a list of bytes, the last one padded with zero bytes.
pub fn blocks_of(bytes: &[u8]) -> Vec<Block> {
    bytes.chunks(16).map(pad).collect()
}

fn pad(bytes: &[u8]) -> Block {
    let mut block = ZERO;
    block[..bytes.len()].copy_from_slice(bytes);
    block
}

/// The sum of block i times H^(m - i), m the number of blocks: taken from
/// the last block, which weighs H, to the first, which weighs H^m. Of many
/// blocks it is taken by tables.
pub fn sum(h: &Block, blocks: &[Block]) -> Block {
    if blocks.len() >= tables::LONG {
        return tables::hash_blocks(h, blocks);
    }
    let mut total = ZERO;
    let mut weight = *h;
    for block in blocks.iter().rev() {
        total = add(&total, &multiply(block, &weight));
        weight = multiply(&weight, h);
    }
    total
}

/// Two 64-bit numbers as one block.
pub fn pair_block(left: u64, right: u64) -> Block {
    ((u128::from(left) << 64) | u128::from(right)).to_be_bytes()
}

fn bit_length(bytes: &[u8]) -> u64 {
    8 * bytes.len() as u64
}

/// The standard's Algorithm 2 over whole blocks, by tables if they are many.
fn hash_blocks(h: &Block, blocks: &[Block]) -> Block {
    if blocks.len() >= tables::LONG {
        return tables::hash_blocks(h, blocks);
    }
    let mut y = ZERO;
    for block in blocks {
        y = multiply(&add(&y, block), h);
    }
    y
}

/// GHASH(H, A, C): over A padded, C padded and the two 64-bit bit lengths.
pub fn ghash(h: &Block, a: &[u8], c: &[u8]) -> Block {
    let mut blocks = blocks_of(a);
    blocks.extend(blocks_of(c));
    blocks.push(pair_block(bit_length(a), bit_length(c)));
    hash_blocks(h, &blocks)
}

/// J0, SP 800-38D section 7.1, step 2.
pub fn first_counter(h: &Block, nonce: &[u8]) -> Block {
    if nonce.len() == 12 {
        let mut block = pad(nonce);
        block[15] = 1;
        return block;
    }
    let mut blocks = blocks_of(nonce);
    blocks.push(pair_block(0, bit_length(nonce)));
    hash_blocks(h, &blocks)
}

/// The tag of GCM over A and C already encrypted, SP 800-38D section 7.1.
pub fn tag(key: &[u8; 16], nonce: &[u8], a: &[u8], c: &[u8]) -> Block {
    let h = hash_key(key);
    let mask = aes::encrypt(key, &first_counter(&h, nonce));
    add(&ghash(&h, a, c), &mask)
}

/// GMAC(key, nonce, A), for a nonce of one byte or more.
pub fn gmac(key: &[u8; 16], nonce: &[u8], a: &[u8]) -> Block {
    tag(key, nonce, a, &[])
}

#[cfg(test)]
mod tests {
    use super::*;
    use crate::random::Random;

    /// Document 01: with C empty GHASH is (S + L) times H.
    #[test]
    fn ghash_is_the_sum_and_the_length_times_h() {
        let mut random = Random::for_test(5);
        for n in 0..200 {
            let h = random.block();
            let file = random.bytes(n);
            let s = sum(&h, &blocks_of(&file));
            let length = pair_block(8 * n as u64, 0);
            let expected = multiply(&add(&s, &length), &h);
            assert_eq!(ghash(&h, &file, &[]), expected);
        }
    }

    /// Document 01: for any other nonce J is GHASH(H, nothing, nonce).
    #[test]
    fn long_and_short_nonces_go_through_ghash() {
        let mut random = Random::for_test(6);
        for n in (1..100).filter(|&n| n != 12) {
            let h = random.block();
            let nonce = random.bytes(n);
            assert_eq!(first_counter(&h, &nonce), ghash(&h, &[], &nonce));
        }
    }

    #[test]
    fn block_counts() {
        let cases = [(0, 0), (1, 1), (15, 1), (16, 1), (17, 2), (40, 3)];
        for (n, m) in cases {
            assert_eq!(block_count(n), m);
            assert_eq!(blocks_of(&vec![0; n as usize]).len() as u64, m);
        }
        assert_eq!(block_count((1 << 61) - 1), 1 << 57);
    }
}
