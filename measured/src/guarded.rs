//! Memory with a page on either side that nobody may touch: a read or write beyond the bytes ends the program.

use std::ffi::c_void;
use std::ptr;

use host::reference::Record;

const PAGE: usize = 4096;

/// As <sys/mman.h> of Linux has them.
const NONE: i32 = 0;
const READ: i32 = 1;
const READ_WRITE: i32 = 3;
const PRIVATE_ANONYMOUS: i32 = 0x22;

extern "C" {
    fn mmap(at: *mut c_void, length: usize, protection: i32, flags: i32, file: i32, offset: i64) -> *mut c_void;
    fn mprotect(at: *mut c_void, length: usize, protection: i32) -> i32;
}

/// Which guard the bytes lie against.
#[derive(Clone, Copy, Debug, PartialEq, Eq)]
pub enum Against {
    Start,
    End,
}

/// Whole pages between two guards. They are never given back.
pub struct Guarded {
    start: *mut u8,
    room: usize,
}

impl Guarded {
    /// Room for so many bytes at least.
    pub fn new(room: usize) -> Guarded {
        let room = room.next_multiple_of(PAGE);
        let all = unsafe { mmap(ptr::null_mut(), room + 2 * PAGE, NONE, PRIVATE_ANONYMOUS, -1, 0) };
        assert!(all as isize != -1, "no memory to be had");
        let guarded = Guarded { start: unsafe { all.cast::<u8>().add(PAGE) }, room };
        guarded.protect(READ_WRITE);
        guarded
    }

    fn protect(&self, protection: i32) {
        let done = unsafe { mprotect(self.start.cast(), self.room, protection) };
        assert!(done == 0, "the pages cannot be protected");
    }

    /// The bytes against a guard, to read and write. Not for pages that were shown.
    pub fn lend(&mut self, bytes: &[u8], against: Against) -> &mut [u8] {
        assert!(bytes.len() <= self.room, "{} bytes are more than fit", bytes.len());
        let at = match against {
            Against::Start => 0,
            Against::End => self.room - bytes.len(),
        };
        let place = unsafe { std::slice::from_raw_parts_mut(self.start.add(at), bytes.len()) };
        place.copy_from_slice(bytes);
        place
    }

    /// The bytes against a guard, in pages that can only be read until the next use.
    pub fn show(&mut self, bytes: &[u8], against: Against) -> &[u8] {
        self.protect(READ_WRITE);
        let place: *const [u8] = self.lend(bytes, against);
        self.protect(READ);
        unsafe { &*place }
    }

    /// Entries of 16 bits against a guard, to read and write. Pages are aligned for them at both ends.
    pub fn lend_entries(&mut self, entries: &[u16], against: Against) -> &mut [u16] {
        let bytes: Vec<u8> = entries.iter().flat_map(|entry| entry.to_ne_bytes()).collect();
        let place = self.lend(&bytes, against);
        unsafe { std::slice::from_raw_parts_mut(place.as_mut_ptr().cast(), entries.len()) }
    }

    /// Records against a guard, to read and write. They have no bytes between their fields, and pages are aligned for them
    /// at both ends.
    pub fn lend_records(&mut self, records: &[Record], against: Against) -> &mut [Record] {
        let bytes =
            unsafe { std::slice::from_raw_parts(records.as_ptr().cast::<u8>(), std::mem::size_of_val(records)) };
        let place = self.lend(bytes, against);
        unsafe { std::slice::from_raw_parts_mut(place.as_mut_ptr().cast(), records.len()) }
    }
}
