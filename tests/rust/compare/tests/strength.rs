//! What the theorems on the hash's strength say, tried with the library: files
//! of one block collide under two hash keys that can be worked out, and two
//! slips with one seal number give the hash key away.

#![forbid(unsafe_code)]

use armfile::{encrypt, ghash, State, Verdict, SLIP_BYTES};
use reference::field::{add, companion, multiply, power, Block, ONE, ZERO};
use reference::ghash::{blocks_of, pair_block};
use reference::random::Random;

fn hashed(h: &Block, file: &[u8]) -> Block {
    let mut out = ZERO;
    ghash(h, file, &[], &mut out).expect("a hash");
    out
}

fn same_hash(h: &Block, a: &[u8], b: &[u8]) -> bool {
    hashed(h, a) == hashed(h, b)
}

fn only_block(file: &[u8]) -> Block {
    blocks_of(file).first().copied().unwrap_or(ZERO)
}

/// c·H² + l·H = 0, c the sum of the blocks and l that of the length blocks: H
/// is zero or l / c. Of one length l is zero, and H too.
#[test]
fn files_of_one_block_collide_under_the_roots_alone() {
    let mut random = Random::for_test(31);
    let mut lengths_differed = 0;
    for _ in 0..500 {
        let [a, b] = [random.some_bytes(17), random.some_bytes(17)];
        let c = add(&only_block(&a), &only_block(&b));
        if c == ZERO {
            continue;
        }
        let bits = |file: &[u8]| pair_block(8 * file.len() as u64, 0);
        let root = multiply(&add(&bits(&a), &bits(&b)), &companion(&c));
        lengths_differed += usize::from(root != ZERO);
        assert!(same_hash(&ZERO, &a, &b) && same_hash(&root, &a, &b));
        for other in [random.block(), add(&root, &ONE), multiply(&root, &root)] {
            let collides = other == ZERO || other == root;
            assert_eq!(same_hash(&other, &a, &b), collides, "{a:?} {b:?}");
        }
    }
    assert!(lengths_differed > 100, "{lengths_differed}");
}

/// Of two blocks with the first bit a one and a zero, the hashes differ by H³.
#[test]
fn three_hash_keys_give_hashes_that_differ_by_one() {
    let third = power(
        &[0x40, 0, 0, 0, 0, 0, 0, 0, 0, 0, 0, 0, 0, 0, 0, 0],
        u128::MAX / 3,
    );
    let mut file = [0; 32];
    let zeros = file;
    file[0] = 0x80;
    for h in [ONE, third, multiply(&third, &third)] {
        assert_eq!(add(&hashed(&h, &file), &hashed(&h, &zeros)), ONE);
    }
    assert_ne!(third, ONE);
}

/// An older copy of the state is put back, and its number serves twice. Two
/// slips of one block each are enough to work out H, and with it a slip of a
/// file that was never sealed.
#[test]
fn a_seal_number_used_twice_gives_the_hash_key_away() {
    let mut random = Random::for_test(32);
    for _ in 0..50 {
        let [key, first, second, forged] = std::array::from_fn(|_| random.block());
        let sealed = |file: &Block| {
            let mut state = State::read(&key, 7, 41, file).expect("a file");
            let mut slip = [0; SLIP_BYTES];
            state.seal(&mut slip).expect("a slip");
            slip
        };
        // seen by an onlooker: two files and their slips
        let [slip, other] = [sealed(&first), sealed(&second)];
        let tag = |slip: &[u8; SLIP_BYTES]| -> Block { slip[20..].try_into().expect("a tag") };
        let difference = add(&tag(&slip), &tag(&other));
        let square = multiply(&difference, &companion(&add(&first, &second)));
        let h = power(&square, 1 << 127);
        let mut expected = ZERO;
        encrypt(&key, &ZERO, &mut expected).expect("a block");
        assert_eq!(h, expected);

        let mut made = slip;
        let moved = add(&hashed(&h, &first), &hashed(&h, &forged));
        made[20..].copy_from_slice(&add(&tag(&slip), &moved));
        let holds = State::read(&key, 7, 42, &forged).expect("a file");
        assert_eq!(holds.check(&made), Ok(Verdict::Current));
    }
}
