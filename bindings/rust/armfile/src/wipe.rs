//! Wiping of secrets.

#![allow(unsafe_code)]

use core::sync::atomic::{compiler_fence, Ordering};

/// Sets every byte to 0. The writes are volatile, so that the compiler keeps
/// them although nothing reads the bytes again, and the fence keeps them
/// before all that follows.
pub fn wipe(bytes: &mut [u8]) {
    for byte in bytes {
        // SAFETY: the pointer comes from a reference that nothing else has.
        unsafe { core::ptr::write_volatile(byte, 0) };
    }
    compiler_fence(Ordering::SeqCst);
}

/// Whether a dropped state is gone from the stack, in every build: an optimised
/// one leaves out stores that nothing reads again, so these tests are of use with
/// `--release` above all.
#[cfg(test)]
mod tests {
    use core::hint::black_box;
    use core::mem::ManuallyDrop;
    use std::vec;
    use std::vec::Vec;

    use crate::{State, STATE_BYTES};

    /// More than the frames take of whoever looks at the dead stack.
    const GAP: usize = 16 << 10;

    /// More than making a state takes of the stack.
    const BELOW: usize = 64 << 10;

    fn begun() -> State {
        State::read(b"looked for later", 5, 6, b"MOVE 10 20 30; GRIP").unwrap()
    }

    /// A state for a place of the caller's. What the library and moves of the
    /// state leave is below the caller's frame.
    #[inline(never)]
    fn put(place: &mut Option<State>) {
        *place = Some(begun());
    }

    /// The same of a state that nobody drops.
    #[inline(never)]
    fn put_undropped(place: &mut Option<ManuallyDrop<State>>) {
        *place = Some(ManuallyDrop::new(begun()));
    }

    /// Overwrites the stack below the caller's frame.
    #[inline(never)]
    fn overwrite_below() {
        black_box(&mut [0x11_u8; BELOW]);
    }

    /// Has a value put in a frame, which ends with it. Answers where it was.
    #[inline(never)]
    fn held<T>(put: fn(&mut Option<T>)) -> usize {
        let mut held = None;
        put(&mut held);
        overwrite_below();
        core::ptr::from_ref(black_box(held.as_ref().unwrap())) as usize
    }

    /// The same, far below the caller's frame.
    #[inline(never)]
    fn held_far_below<T>(put: fn(&mut Option<T>)) -> usize {
        let mut gap = [0x22_u8; GAP];
        black_box(&mut gap);
        let place = held(put);
        black_box(&mut gap);
        place
    }

    /// The place of a value that is no longer held, and the dead stack below and
    /// above it.
    fn left<T>(put: fn(&mut Option<T>)) -> (Vec<u8>, Vec<u8>) {
        let (mut place, mut around) = (vec![0; STATE_BYTES], vec![0; BELOW + GAP / 2]);
        let at = held_far_below(put);
        for (from, copy) in [(at, &mut place), (at - BELOW, &mut around)] {
            for (i, byte) in copy.iter_mut().enumerate() {
                // SAFETY: the stack was there just now, and nothing is on it.
                *byte = unsafe { ((from + i) as *const u8).read_volatile() };
            }
        }
        (place, around)
    }

    /// How many pieces of key, H, I and S are among the bytes.
    fn pieces_in(bytes: &[u8]) -> usize {
        let state = begun();
        let pieces = state.as_bytes()[..64].chunks(4);
        let found = |piece: &&[u8]| bytes.windows(4).any(|window| window == *piece);
        pieces.filter(found).count()
    }

    #[test]
    fn a_dropped_state_is_gone_from_the_stack() {
        let (place, around) = left(put);
        assert_eq!(place, [0; STATE_BYTES]);
        assert_eq!(pieces_in(&around), 0);
    }

    /// What is not wiped is found.
    #[test]
    fn an_undropped_state_is_left_on_the_stack() {
        let (place, around) = left(put_undropped);
        assert_eq!(place, begun().as_bytes());
        assert_eq!(pieces_in(&around), 16);
    }
}
