//! A journal of which only some heads are there. Nothing else may be read, but
//! for what is in one page with a head. For Linux.

use std::collections::BTreeSet;

use reference::journal::{Head, HEAD_BYTES};

use crate::edge::{Pages, PAGE};

/// Address space for a journal, all of it hidden at first.
pub struct Hidden {
    pages: Pages,
    first: usize,
    opened: BTreeSet<usize>,
    fill: u8,
}

impl Hidden {
    /// A journal of so many bytes, of which the one with this number begins a
    /// page. What can be read beside the heads will be this byte.
    pub fn new(length: usize, begins_a_page: usize, fill: u8) -> Hidden {
        let first = (PAGE - begins_a_page % PAGE) % PAGE;
        Hidden {
            pages: Pages::new((first + length + 1).next_multiple_of(PAGE)),
            first,
            opened: BTreeSet::new(),
            fill,
        }
    }

    /// The journal's byte with this number.
    pub fn at(&self, offset: usize) -> *const u8 {
        self.pages.at(self.first + offset)
    }

    /// Puts a head at an offset, with which its page, or two, can be read.
    pub fn put(&mut self, offset: usize, head: Head) {
        let place = self.first + offset;
        let from = place / PAGE * PAGE;
        let to = (place + HEAD_BYTES).next_multiple_of(PAGE);
        let bytes = self.pages.open(from, to - from);
        for (page, bytes) in (from / PAGE..).zip(bytes.chunks_mut(PAGE)) {
            if self.opened.insert(page) {
                bytes.fill(self.fill);
            }
        }
        bytes[place - from..][..HEAD_BYTES].copy_from_slice(&head.pack());
    }
}
