//! A blank file, document 02, Q-4: n copies of a fill byte. Its sum is found
//! without the bytes, so that n may be any length.

use crate::field::{add, multiply, Block};
use crate::ghash::{self, block_count, blocks_of};

/// The sum of n fill bytes, from the file's end to its front: before the last
/// block, which is padded, go runs of one, two, four and more whole blocks, by
/// the binary digits of their number from the lowest up.
pub fn sum(h: &Block, fill: u8, n: u64) -> Block {
    let mut before = block_count(n).saturating_sub(1);
    let last = vec![fill; (n - 16 * before) as usize];
    let mut total = ghash::sum(h, &blocks_of(&last));
    let mut run = ghash::sum(h, &[[fill; 16]]);
    // H to the number of blocks that each of the two sums has.
    let (mut total_weight, mut run_weight) = (*h, *h);
    while before != 0 {
        if before & 1 == 1 {
            total = add(&total, &multiply(&run, &total_weight));
            total_weight = multiply(&total_weight, &run_weight);
        }
        run = add(&run, &multiply(&run, &run_weight));
        run_weight = multiply(&run_weight, &run_weight);
        before >>= 1;
    }
    total
}

/// The multiplications that start reports: with m - 1 in binary, two for each
/// digit after the highest, two more for each one among those, and three. None
/// for n = 0 and for fill 0.
pub fn count(fill: u8, n: u64) -> u64 {
    if n == 0 || fill == 0 {
        return 0;
    }
    let digits = format!("{:b}", block_count(n) - 1);
    let after_the_highest = &digits[1..];
    let ones = after_the_highest.matches('1').count();
    2 * (after_the_highest.len() + ones) as u64 + 3
}
