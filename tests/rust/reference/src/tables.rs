//! Products with one block over and over, as hashing takes them with H, looked
//! up in tables: for inputs so long that `field::multiply` would take hours.

use crate::field::{add, multiply, Block, ZERO};

/// The products of a block with every byte at every place, as `multiply` gives
/// them.
struct Products(Vec<[Block; 256]>);

impl Products {
    fn of(h: &Block) -> Products {
        let product = |place: usize, byte: usize| {
            let mut block = ZERO;
            block[place] = byte as u8;
            multiply(&block, h)
        };
        let places = 0..16;
        let table = places.map(|place| std::array::from_fn(|byte| product(place, byte)));
        Products(table.collect())
    }

    /// The product with a block, which is the sum of its sixteen bytes at their
    /// places.
    fn with(&self, block: &Block) -> Block {
        let bytes = self.0.iter().zip(block);
        bytes.fold(ZERO, |sum, (products, &byte)| {
            add(&sum, &products[usize::from(byte)])
        })
    }
}

/// From so many blocks on the tables are used, which is past all that tests in
/// the gate hash: these are held to the standard's own steps.
pub const LONG: usize = 1 << 21;

/// The standard's Algorithm 2 over whole blocks.
pub fn hash_blocks(h: &Block, blocks: &[Block]) -> Block {
    let products = Products::of(h);
    let step = |y: Block, block: &Block| products.with(&add(&y, block));
    blocks.iter().fold(ZERO, step)
}

#[cfg(test)]
mod tests {
    use super::*;
    use crate::ghash::sum;
    use crate::random::Random;

    #[test]
    fn products_looked_up_are_products() {
        let mut random = Random::for_test(21);
        for _ in 0..5 {
            let h = random.block();
            let products = Products::of(&h);
            for _ in 0..200 {
                let block = random.block();
                assert_eq!(products.with(&block), multiply(&block, &h));
            }
        }
    }

    /// The last block weighs H in both, the first a power with as many factors
    /// as there are blocks.
    #[test]
    fn hashing_by_tables_is_the_sum() {
        let mut random = Random::for_test(22);
        for count in 0..50 {
            let h = random.block();
            let blocks: Vec<Block> = (0..count).map(|_| random.block()).collect();
            assert_eq!(hash_blocks(&h, &blocks), sum(&h, &blocks));
        }
    }
}
