//! Memory that ends at a page which may be neither read nor written. A call that
//! goes past the end of what stands there ends the process by a signal, or one
//! that was made for it. For Linux.

#![allow(unsafe_code)]

use std::sync::OnceLock;

use crate::say;

/// The C library's own, which the standard library links.
mod system {
    use std::ffi::{c_int, c_void};

    extern "C" {
        pub fn mmap(
            place: *mut c_void,
            length: usize,
            protection: c_int,
            flags: c_int,
            file: c_int,
            offset: i64,
        ) -> *mut c_void;
        pub fn mprotect(place: *mut c_void, length: usize, protection: c_int) -> c_int;
        pub fn munmap(place: *mut c_void, length: usize) -> c_int;
        pub fn signal(number: c_int, handler: usize) -> usize;
        pub fn fork() -> c_int;
        pub fn waitpid(process: c_int, status: *mut c_int, options: c_int) -> c_int;
        pub fn _exit(status: c_int) -> !;
    }

    pub const PROT_NONE: c_int = 0;
    pub const PROT_READ_WRITE: c_int = 3;
    pub const MAP_PRIVATE_ANONYMOUS_NORESERVE: c_int = 0x4022;
    pub const SIGSEGV: c_int = 11;
    pub const SIG_DFL: usize = 0;
}

/// The bytes of a page.
pub const PAGE: usize = 4096;

/// Whole pages that may be neither read nor written, but for those that were
/// opened. Pages that are never touched take no memory.
pub(crate) struct Pages {
    first: *mut u8,
    bytes: usize,
}

impl Pages {
    pub(crate) fn new(bytes: usize) -> Pages {
        let (null, flags) = (
            std::ptr::null_mut(),
            system::MAP_PRIVATE_ANONYMOUS_NORESERVE,
        );
        // SAFETY: a new mapping takes nothing away.
        let first = unsafe { system::mmap(null, bytes, system::PROT_NONE, flags, -1, 0) };
        assert_ne!(first as isize, -1, "no memory for {bytes} bytes");
        Pages {
            first: first.cast(),
            bytes,
        }
    }

    /// The byte with this number, or the end.
    pub(crate) fn at(&self, place: usize) -> *mut u8 {
        assert!(place <= self.bytes, "{place} of {} bytes", self.bytes);
        self.first.wrapping_add(place)
    }

    /// Lets these bytes, whole pages, be read and written. They are zero at first.
    pub(crate) fn open(&mut self, place: usize, bytes: usize) -> &mut [u8] {
        assert!(place + bytes <= self.bytes, "{bytes} bytes at {place}");
        let first = self.at(place);
        // SAFETY: they are in the mapping, which is this value's alone.
        unsafe {
            let denied = system::mprotect(first.cast(), bytes, system::PROT_READ_WRITE);
            assert_eq!(denied, 0, "no memory to write for {bytes} bytes");
            std::slice::from_raw_parts_mut(first, bytes)
        }
    }
}

impl Drop for Pages {
    fn drop(&mut self) {
        // SAFETY: nothing refers to the mapping any more.
        unsafe { system::munmap(self.first.cast(), self.bytes) };
    }
}

// SAFETY: the memory is the value's own, as that of a Box is.
unsafe impl Send for Pages {}
// SAFETY: what is shared only tells where the pages are.
unsafe impl Sync for Pages {}

/// Bytes that may be read and written, and behind them a page that may not.
pub struct Edge {
    pages: Pages,
    room: usize,
}

impl Edge {
    /// Room for so many bytes or more, all zero.
    pub fn new(least: usize) -> Edge {
        let room = least.next_multiple_of(PAGE);
        let mut pages = Pages::new(room + PAGE);
        pages.open(0, room);
        Edge { pages, room }
    }

    /// The page's first byte, which is nobody's.
    pub fn end(&self) -> *mut u8 {
        self.pages.at(self.room)
    }

    /// The last so many bytes before the page. Where there are fewer the memory
    /// is changed for a larger one.
    pub fn last(&mut self, count: usize) -> &mut [u8] {
        if count > self.room {
            *self = Edge::new(count.next_power_of_two());
        }
        // SAFETY: they are in the mapping, which is this value's alone.
        unsafe { std::slice::from_raw_parts_mut(self.end().sub(count), count) }
    }
}

/// Whether a call touches what it may not, in a process of its own.
pub fn faults(call: impl FnOnce()) -> bool {
    let mut status = 0;
    // SAFETY: the new process makes the call, which allocates nothing and takes
    // no lock, and ends.
    unsafe {
        let process = system::fork();
        if process == 0 {
            call();
            system::_exit(0);
        }
        assert_eq!(system::waitpid(process, &mut status, 0), process);
    }
    status & 0x7f == system::SIGSEGV
}

/// What is told of a fault before it ends the process.
static REPORT: OnceLock<fn()> = OnceLock::new();

/// Has a fault reported. The library holds no lock and allocates nothing, so
/// that after its fault the report may do both.
pub fn report_faults(report: fn()) {
    REPORT.get_or_init(|| report);
    // SAFETY: the handler is a function of one number, as is asked.
    unsafe { system::signal(system::SIGSEGV, fault as *const () as usize) };
}

/// Reports a fault. What made it is then tried again, and ends the process.
extern "C" fn fault(number: std::ffi::c_int) {
    // SAFETY: the signal's usual action takes nothing away.
    unsafe { system::signal(number, system::SIG_DFL) };
    say("memory was touched behind the end of what was lent");
    if let Some(report) = REPORT.get() {
        report();
    }
}
