//! Blocks and their arithmetic, SP 800-38D section 6.3 and document 01, "Field".

/// 16 bytes, 128 bits, leftmost bit first; the leftmost bit is the
/// coefficient of x^0.
pub type Block = [u8; 16];

/// The field's zero.
pub const ZERO: Block = [0; 16];

/// The field's one: byte 80 (hexadecimal), then fifteen zero bytes.
pub const ONE: Block = [0x80, 0, 0, 0, 0, 0, 0, 0, 0, 0, 0, 0, 0, 0, 0, 0];

/// The first byte of R, 11100001; its other 120 bits are zero.
const R_FIRST: u8 = 0xe1;

/// Bit i of a block, counted from the left.
pub fn bit(block: &Block, i: usize) -> bool {
    (block[i / 8] >> (7 - i % 8)) & 1 == 1
}

/// The sum of two blocks: exclusive or.
pub fn add(a: &Block, b: &Block) -> Block {
    std::array::from_fn(|i| a[i] ^ b[i])
}

/// A block moved one bit to the right, a zero bit entering on the left.
fn shift_right(block: &Block) -> Block {
    std::array::from_fn(|i| {
        let from_left = if i == 0 { 0 } else { block[i - 1] << 7 };
        from_left | (block[i] >> 1)
    })
}

/// The product of two blocks, Algorithm 1.
pub fn multiply(x: &Block, y: &Block) -> Block {
    let mut z = ZERO;
    let mut v = *y;
    for i in 0..128 {
        if bit(x, i) {
            z = add(&z, &v);
        }
        let last_bit = bit(&v, 127);
        v = shift_right(&v);
        if last_bit {
            v[0] ^= R_FIRST;
        }
    }
    z
}

/// The power of a block by document 01's seek: from the lowest bit of k up to
/// its highest one. A zero power is one.
pub fn power(base: &Block, k: u128) -> Block {
    let mut y = ONE;
    let mut x = *base;
    let mut rest = k;
    while rest != 0 {
        if rest & 1 == 1 {
            y = multiply(&y, &x);
        }
        rest >>= 1;
        if rest != 0 {
            x = multiply(&x, &x);
        }
    }
    y
}

/// The companion of a block: its power 2^128 - 2.
pub fn companion(h: &Block) -> Block {
    power(h, u128::MAX - 1)
}

/// The steps of seek: the ones among the bits of k plus its width less one;
/// none for 0.
pub fn seek_steps(k: u64) -> u64 {
    if k == 0 {
        return 0;
    }
    let ones = u64::from(k.count_ones());
    let width = u64::from(u64::BITS - k.leading_zeros());
    ones + width - 1
}

#[cfg(test)]
mod tests {
    use super::*;
    use crate::random::Random;

    #[test]
    fn one_times_any_block_is_that_block() {
        let mut random = Random::for_test(1);
        for _ in 0..500 {
            let block = random.block();
            assert_eq!(multiply(&ONE, &block), block);
            assert_eq!(multiply(&block, &ONE), block);
        }
    }

    #[test]
    fn products_commute_associate_and_distribute() {
        let mut random = Random::for_test(2);
        for _ in 0..500 {
            let [a, b, c] = [random.block(), random.block(), random.block()];
            assert_eq!(multiply(&a, &b), multiply(&b, &a));
            let left = multiply(&multiply(&a, &b), &c);
            assert_eq!(left, multiply(&a, &multiply(&b, &c)));
            let apart = add(&multiply(&a, &c), &multiply(&b, &c));
            assert_eq!(multiply(&add(&a, &b), &c), apart);
        }
    }

    #[test]
    fn power_is_repeated_product() {
        let mut random = Random::for_test(3);
        let base = random.block();
        let mut expected = ONE;
        for k in 0..300 {
            assert_eq!(power(&base, k), expected);
            expected = multiply(&expected, &base);
        }
    }

    #[test]
    fn companion_is_the_inverse() {
        let mut random = Random::for_test(4);
        for _ in 0..50 {
            let h = random.block();
            assert_eq!(multiply(&h, &companion(&h)), ONE);
        }
        assert_eq!(companion(&ZERO), ZERO);
        assert_eq!(power(&ZERO, 0), ONE);
    }
}
