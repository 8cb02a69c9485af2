//! AES-128 encryption, FIPS 197.

use std::sync::OnceLock;

/// The number of rounds for a key of four words.
const ROUNDS: usize = 10;

/// The state of FIPS 197, section 3.4: `state[row][column]`.
type Rows = [[u8; 4]; 4];

/// A byte times x, section 4.2: modulo x^8 + x^4 + x^3 + x + 1.
fn times_x(a: u8) -> u8 {
    if a & 0x80 == 0 {
        a << 1
    } else {
        (a << 1) ^ 0x1b
    }
}

/// The product of two bytes in the byte field, section 4.2, bit by bit.
pub fn byte_product(a: u8, b: u8) -> u8 {
    let mut sum = 0;
    let mut term = a;
    for i in 0..8 {
        if (b >> i) & 1 == 1 {
            sum ^= term;
        }
        term = times_x(term);
    }
    sum
}

/// The inverse of a byte, found by search; 0 goes to 0 (section 5.1.1).
pub fn byte_inverse(a: u8) -> u8 {
    (1..=255).find(|&b| byte_product(a, b) == 1).unwrap_or(0)
}

/// The affine step of section 5.1.1, bit by bit, with the constant 63.
pub fn affine(b: u8) -> u8 {
    let bit = |value: u8, i: usize| (value >> (i % 8)) & 1;
    let mut result = 0;
    for i in 0..8 {
        let sum = bit(b, i) ^ bit(b, i + 4) ^ bit(b, i + 5) ^ bit(b, i + 6) ^ bit(b, i + 7);
        result |= (sum ^ bit(0x63, i)) << i;
    }
    result
}

/// The substitution box, computed from its definition at first use.
pub fn s_box() -> &'static [u8; 256] {
    static S_BOX: OnceLock<[u8; 256]> = OnceLock::new();
    S_BOX.get_or_init(|| std::array::from_fn(|a| affine(byte_inverse(a as u8))))
}

fn substitute_word(word: [u8; 4]) -> [u8; 4] {
    word.map(|byte| s_box()[usize::from(byte)])
}

fn rotate_word(word: [u8; 4]) -> [u8; 4] {
    [word[1], word[2], word[3], word[0]]
}

fn add_words(a: [u8; 4], b: [u8; 4]) -> [u8; 4] {
    std::array::from_fn(|i| a[i] ^ b[i])
}

/// The words of a key's schedule.
pub type Schedule = [[u8; 4]; 4 * (ROUNDS + 1)];

/// The key schedule, section 5.2: 44 words of four bytes.
pub fn schedule(key: &[u8; 16]) -> Schedule {
    let mut words = [[0; 4]; 4 * (ROUNDS + 1)];
    let mut round_constant = 1;
    for i in 0..words.len() {
        if i < 4 {
            words[i] = std::array::from_fn(|j| key[4 * i + j]);
            continue;
        }
        let mut word = words[i - 1];
        if i % 4 == 0 {
            word = substitute_word(rotate_word(word));
            word[0] ^= round_constant;
            round_constant = times_x(round_constant);
        }
        words[i] = add_words(words[i - 4], word);
    }
    words
}

/// Section 5.1.4: one word of the round key is added to each column.
fn add_round_key(state: &mut Rows, words: &[[u8; 4]]) {
    for column in 0..4 {
        for row in 0..4 {
            state[row][column] ^= words[column][row];
        }
    }
}

/// Section 5.1.1.
fn sub_bytes(state: &mut Rows) {
    for row in state {
        *row = substitute_word(*row);
    }
}

/// Section 5.1.2: row r moves r places to the left.
fn shift_rows(state: &mut Rows) {
    for (r, row) in state.iter_mut().enumerate() {
        row.rotate_left(r);
    }
}

/// Section 5.1.3: each new byte is 2a + 3b + c + d down its column.
fn mix_columns(state: &mut Rows) {
    let old = *state;
    for column in 0..4 {
        for row in 0..4 {
            let a = old[row][column];
            let b = old[(row + 1) % 4][column];
            let c = old[(row + 2) % 4][column];
            let d = old[(row + 3) % 4][column];
            state[row][column] = times_x(a) ^ times_x(b) ^ b ^ c ^ d;
        }
    }
}

/// The cipher of one block under a key.
pub fn encrypt(key: &[u8; 16], block: &[u8; 16]) -> [u8; 16] {
    cipher(&schedule(key), block)
}

/// The cipher, section 5.1.
pub fn cipher(words: &Schedule, block: &[u8; 16]) -> [u8; 16] {
    let mut state: Rows = std::array::from_fn(|r| std::array::from_fn(|c| block[r + 4 * c]));
    add_round_key(&mut state, &words[0..4]);
    for round in 1..=ROUNDS {
        sub_bytes(&mut state);
        shift_rows(&mut state);
        if round < ROUNDS {
            mix_columns(&mut state);
        }
        add_round_key(&mut state, &words[4 * round..4 * round + 4]);
    }
    std::array::from_fn(|i| state[i % 4][i / 4])
}

#[cfg(test)]
mod tests {
    use super::*;

    #[test]
    fn s_box_has_the_published_entries() {
        assert_eq!(s_box()[0x00], 0x63);
        assert_eq!(s_box()[0x01], 0x7c);
        assert_eq!(s_box()[0x53], 0xed);
        assert_eq!(s_box()[0xff], 0x16);
    }

    #[test]
    fn s_box_holds_every_byte_once() {
        let mut sorted = *s_box();
        sorted.sort_unstable();
        assert!(sorted.iter().enumerate().all(|(i, &b)| i == usize::from(b)));
    }

    #[test]
    fn inverse_is_the_power_254() {
        for a in 0..=255 {
            let power = (0..254).fold(1, |product, _| byte_product(product, a));
            assert_eq!(byte_inverse(a), power);
        }
    }

    #[test]
    fn byte_products_of_section_4_2() {
        assert_eq!(byte_product(0x57, 0x83), 0xc1);
        assert_eq!(byte_product(0x57, 0x13), 0xfe);
    }

    /// FIPS 197, appendix A.1.
    #[test]
    fn schedule_of_appendix_a() {
        let key = 0x2b7e1516_28aed2a6_abf71588_09cf4f3c_u128.to_be_bytes();
        let words = schedule(&key);
        assert_eq!(words[4], [0xa0, 0xfa, 0xfe, 0x17]);
        assert_eq!(words[43], [0xb6, 0x63, 0x0c, 0xa6]);
    }
}
