//! The library's functions one for one, in the order and with the parameters
//! of armfile.h, as safe functions: a slice stands for a pointer and a length,
//! and the answer is the refusal number, or 0 for work done. A refused call
//! leaves every lent buffer as it was, but for a replay, which always writes
//! state, count and offset, and a forecast, which always writes bound, greatest
//! and offset. The five that read a field of a state refuse none: they answer
//! the field, or write it to `out`.
//!
//! Each call is sound for the same reason: every pointer comes from a
//! reference that lives through the call, with the length of what it refers
//! to, so it is aligned, valid for that many bytes or numbers and, where it is
//! `*mut`, for writes that nothing else sees. The library keeps no pointer,
//! holds no data of its own and does not unwind.

#![allow(unsafe_code)]

/// The bytes of a key, of the hash key, of a block, of a sum and of a tag.
pub const BLOCK_BYTES: usize = 16;

/// The bytes of a lent state.
pub const STATE_BYTES: usize = 84;

/// A lent state: key 16, H 16, I 16, S 16, n 8, arm 4, last used number 8,
/// each most significant byte first.
pub type StateBytes = [u8; STATE_BYTES];

/// armfile.h as it is, function for function. What it says that callers must
/// guarantee holds here too.
pub mod c {
    extern "C" {
        pub fn armfile_encrypt(
            key: *const u8,
            key_len: usize,
            block: *const u8,
            block_len: usize,
            out: *mut u8,
            out_len: usize,
        ) -> u64;
        pub fn armfile_multiply(
            a: *const u8,
            a_len: usize,
            b: *const u8,
            b_len: usize,
            out: *mut u8,
            out_len: usize,
        ) -> u64;
        pub fn armfile_ghash(
            h: *const u8,
            h_len: usize,
            a: *const u8,
            a_len: usize,
            c: *const u8,
            c_len: usize,
            out: *mut u8,
            out_len: usize,
        ) -> u64;
        pub fn armfile_join(
            h: *const u8,
            h_len: usize,
            sums: *const u8,
            sums_len: usize,
            lengths: *const u64,
            lengths_len: usize,
            sum: *mut u8,
            n: *mut u64,
        ) -> u64;
        pub fn armfile_gmac(
            key: *const u8,
            key_len: usize,
            nonce: *const u8,
            nonce_len: usize,
            a: *const u8,
            a_len: usize,
            out: *mut u8,
            out_len: usize,
        ) -> u64;
        pub fn armfile_gcm_encrypt(
            key: *const u8,
            key_len: usize,
            nonce: *const u8,
            nonce_len: usize,
            aad: *const u8,
            aad_len: usize,
            text: *const u8,
            text_len: usize,
            out: *mut u8,
            out_len: usize,
            tag: *mut u8,
            tag_len: usize,
        ) -> u64;
        pub fn armfile_gcm_decrypt(
            key: *const u8,
            key_len: usize,
            nonce: *const u8,
            nonce_len: usize,
            aad: *const u8,
            aad_len: usize,
            text: *const u8,
            text_len: usize,
            out: *mut u8,
            out_len: usize,
            tag: *const u8,
            tag_len: usize,
        ) -> u64;
        pub fn armfile_start(
            key: *const u8,
            key_len: usize,
            arm: u32,
            last: u64,
            n: u64,
            fill: u8,
            state: *mut u8,
            count: *mut u64,
        ) -> u64;
        pub fn armfile_read(
            key: *const u8,
            key_len: usize,
            arm: u32,
            last: u64,
            file: *const u8,
            file_len: usize,
            state: *mut u8,
        ) -> u64;
        pub fn armfile_length(state: *const u8) -> u64;
        pub fn armfile_arm(state: *const u8) -> u32;
        pub fn armfile_last(state: *const u8) -> u64;
        pub fn armfile_sum(state: *const u8, out: *mut u8);
        pub fn armfile_hash_key(state: *const u8, out: *mut u8);
        pub fn armfile_change(
            state: *mut u8,
            p: u64,
            old: *const u8,
            old_len: usize,
            new: *const u8,
            new_len: usize,
            count: *mut u64,
        ) -> u64;
        pub fn armfile_append(
            state: *mut u8,
            bytes: *const u8,
            bytes_len: usize,
            count: *mut u64,
        ) -> u64;
        pub fn armfile_prepend(
            state: *mut u8,
            bytes: *const u8,
            bytes_len: usize,
            count: *mut u64,
        ) -> u64;
        pub fn armfile_drop_front(
            state: *mut u8,
            bytes: *const u8,
            bytes_len: usize,
            count: *mut u64,
        ) -> u64;
        pub fn armfile_cut_tail(
            state: *mut u8,
            bytes: *const u8,
            bytes_len: usize,
            count: *mut u64,
        ) -> u64;
        pub fn armfile_replay(
            state: *mut u8,
            journal: *const u8,
            journal_len: usize,
            count: *mut u64,
            offset: *mut u64,
        ) -> u64;
        pub fn armfile_forecast(
            n: u64,
            journal: *const u8,
            journal_len: usize,
            bound: *mut u64,
            greatest: *mut u64,
            offset: *mut u64,
        ) -> u64;
        pub fn armfile_seal(state: *mut u8, slip: *mut u8, slip_len: usize) -> u64;
        pub fn armfile_check(
            state: *const u8,
            slip: *const u8,
            slip_len: usize,
            verdict: *mut u8,
        ) -> u64;
    }
}

/// Lent where a slice is empty. Such a slice's own pointer is not null, but
/// armfile.h asks for that of an object. Nothing is read or written there. It is
/// aligned for bytes and for numbers.
static NOTHING: u64 = 0;

fn pointer<T>(lent: &[T]) -> *const T {
    if lent.is_empty() {
        return core::ptr::from_ref(&NOTHING).cast();
    }
    lent.as_ptr()
}

fn pointer_mut(bytes: &mut [u8]) -> *mut u8 {
    if bytes.is_empty() {
        return core::ptr::from_ref(&NOTHING).cast_mut().cast();
    }
    bytes.as_mut_ptr()
}

/// `armfile_encrypt`: [`crate::encrypt`].
pub fn encrypt(key: &[u8], block: &[u8], out: &mut [u8]) -> u64 {
    // SAFETY: as said at the module's head.
    unsafe {
        c::armfile_encrypt(
            pointer(key),
            key.len(),
            pointer(block),
            block.len(),
            pointer_mut(out),
            out.len(),
        )
    }
}

/// `armfile_multiply`: [`crate::multiply`].
pub fn multiply(a: &[u8], b: &[u8], out: &mut [u8]) -> u64 {
    // SAFETY: as said at the module's head.
    unsafe {
        c::armfile_multiply(
            pointer(a),
            a.len(),
            pointer(b),
            b.len(),
            pointer_mut(out),
            out.len(),
        )
    }
}

/// `armfile_ghash`: [`crate::ghash`].
pub fn ghash(h: &[u8], a: &[u8], c: &[u8], out: &mut [u8]) -> u64 {
    // SAFETY: as said at the module's head.
    unsafe {
        c::armfile_ghash(
            pointer(h),
            h.len(),
            pointer(a),
            a.len(),
            pointer(c),
            c.len(),
            pointer_mut(out),
            out.len(),
        )
    }
}

/// `armfile_join`, which [`crate::join()`] makes for a few parts at a time.
pub fn join(
    h: &[u8],
    sums: &[u8],
    lengths: &[u64],
    sum: &mut [u8; BLOCK_BYTES],
    n: &mut u64,
) -> u64 {
    // SAFETY: as said at the module's head.
    unsafe {
        c::armfile_join(
            pointer(h),
            h.len(),
            pointer(sums),
            sums.len(),
            pointer(lengths),
            lengths.len(),
            sum.as_mut_ptr(),
            n,
        )
    }
}

/// `armfile_gmac`: [`crate::gmac`].
pub fn gmac(key: &[u8], nonce: &[u8], a: &[u8], out: &mut [u8]) -> u64 {
    // SAFETY: as said at the module's head.
    unsafe {
        c::armfile_gmac(
            pointer(key),
            key.len(),
            pointer(nonce),
            nonce.len(),
            pointer(a),
            a.len(),
            pointer_mut(out),
            out.len(),
        )
    }
}

/// `armfile_gcm_encrypt`: [`crate::gcm_encrypt`].
pub fn gcm_encrypt(
    key: &[u8],
    nonce: &[u8],
    aad: &[u8],
    text: &[u8],
    out: &mut [u8],
    tag: &mut [u8],
) -> u64 {
    // SAFETY: as said at the module's head.
    unsafe {
        c::armfile_gcm_encrypt(
            pointer(key),
            key.len(),
            pointer(nonce),
            nonce.len(),
            pointer(aad),
            aad.len(),
            pointer(text),
            text.len(),
            pointer_mut(out),
            out.len(),
            pointer_mut(tag),
            tag.len(),
        )
    }
}

/// `armfile_gcm_decrypt`: [`crate::gcm_decrypt`].
pub fn gcm_decrypt(
    key: &[u8],
    nonce: &[u8],
    aad: &[u8],
    text: &[u8],
    out: &mut [u8],
    tag: &[u8],
) -> u64 {
    // SAFETY: as said at the module's head.
    unsafe {
        c::armfile_gcm_decrypt(
            pointer(key),
            key.len(),
            pointer(nonce),
            nonce.len(),
            pointer(aad),
            aad.len(),
            pointer(text),
            text.len(),
            pointer_mut(out),
            out.len(),
            pointer(tag),
            tag.len(),
        )
    }
}

/// `armfile_start`: [`crate::State::start`].
pub fn start(
    key: &[u8],
    arm: u32,
    last: u64,
    n: u64,
    fill: u8,
    state: &mut StateBytes,
    count: &mut u64,
) -> u64 {
    // SAFETY: as said at the module's head.
    unsafe {
        c::armfile_start(
            pointer(key),
            key.len(),
            arm,
            last,
            n,
            fill,
            state.as_mut_ptr(),
            count,
        )
    }
}

/// `armfile_read`: [`crate::State::read`].
pub fn read(key: &[u8], arm: u32, last: u64, file: &[u8], state: &mut StateBytes) -> u64 {
    // SAFETY: as said at the module's head.
    unsafe {
        c::armfile_read(
            pointer(key),
            key.len(),
            arm,
            last,
            pointer(file),
            file.len(),
            state.as_mut_ptr(),
        )
    }
}

/// `armfile_length`: [`crate::State::length`].
pub fn length(state: &StateBytes) -> u64 {
    // SAFETY: as said at the module's head.
    unsafe { c::armfile_length(state.as_ptr()) }
}

/// `armfile_arm`: [`crate::State::arm`].
pub fn arm(state: &StateBytes) -> u32 {
    // SAFETY: as said at the module's head.
    unsafe { c::armfile_arm(state.as_ptr()) }
}

/// `armfile_last`: [`crate::State::last`].
pub fn last(state: &StateBytes) -> u64 {
    // SAFETY: as said at the module's head.
    unsafe { c::armfile_last(state.as_ptr()) }
}

/// `armfile_sum`: [`crate::State::sum`].
pub fn sum(state: &StateBytes, out: &mut [u8; BLOCK_BYTES]) {
    // SAFETY: as said at the module's head.
    unsafe { c::armfile_sum(state.as_ptr(), out.as_mut_ptr()) }
}

/// `armfile_hash_key`: [`crate::State::hash_key`].
pub fn hash_key(state: &StateBytes, out: &mut [u8; BLOCK_BYTES]) {
    // SAFETY: as said at the module's head.
    unsafe { c::armfile_hash_key(state.as_ptr(), out.as_mut_ptr()) }
}

/// `armfile_change`: [`crate::State::change`].
pub fn change(state: &mut StateBytes, p: u64, old: &[u8], new: &[u8], count: &mut u64) -> u64 {
    // SAFETY: as said at the module's head.
    unsafe {
        c::armfile_change(
            state.as_mut_ptr(),
            p,
            pointer(old),
            old.len(),
            pointer(new),
            new.len(),
            count,
        )
    }
}

/// `armfile_append`: [`crate::State::append`].
pub fn append(state: &mut StateBytes, bytes: &[u8], count: &mut u64) -> u64 {
    // SAFETY: as said at the module's head.
    unsafe { c::armfile_append(state.as_mut_ptr(), pointer(bytes), bytes.len(), count) }
}

/// `armfile_prepend`: [`crate::State::prepend`].
pub fn prepend(state: &mut StateBytes, bytes: &[u8], count: &mut u64) -> u64 {
    // SAFETY: as said at the module's head.
    unsafe { c::armfile_prepend(state.as_mut_ptr(), pointer(bytes), bytes.len(), count) }
}

/// `armfile_drop_front`: [`crate::State::drop_front`].
pub fn drop_front(state: &mut StateBytes, bytes: &[u8], count: &mut u64) -> u64 {
    // SAFETY: as said at the module's head.
    unsafe { c::armfile_drop_front(state.as_mut_ptr(), pointer(bytes), bytes.len(), count) }
}

/// `armfile_cut_tail`: [`crate::State::cut_tail`].
pub fn cut_tail(state: &mut StateBytes, bytes: &[u8], count: &mut u64) -> u64 {
    // SAFETY: as said at the module's head.
    unsafe { c::armfile_cut_tail(state.as_mut_ptr(), pointer(bytes), bytes.len(), count) }
}

/// `armfile_replay`: [`crate::State::replay`].
pub fn replay(state: &mut StateBytes, journal: &[u8], count: &mut u64, offset: &mut u64) -> u64 {
    // SAFETY: as said at the module's head.
    unsafe {
        c::armfile_replay(
            state.as_mut_ptr(),
            pointer(journal),
            journal.len(),
            count,
            offset,
        )
    }
}

/// `armfile_forecast`: [`crate::forecast()`].
pub fn forecast(
    n: u64,
    journal: &[u8],
    bound: &mut u64,
    greatest: &mut u64,
    offset: &mut u64,
) -> u64 {
    // SAFETY: as said at the module's head.
    unsafe { c::armfile_forecast(n, pointer(journal), journal.len(), bound, greatest, offset) }
}

/// `armfile_seal`: [`crate::State::seal`].
pub fn seal(state: &mut StateBytes, slip: &mut [u8]) -> u64 {
    // SAFETY: as said at the module's head.
    unsafe { c::armfile_seal(state.as_mut_ptr(), pointer_mut(slip), slip.len()) }
}

/// `armfile_check`: [`crate::State::check`].
pub fn check(state: &StateBytes, slip: &[u8], verdict: &mut u8) -> u64 {
    // SAFETY: as said at the module's head.
    unsafe { c::armfile_check(state.as_ptr(), pointer(slip), slip.len(), verdict) }
}
