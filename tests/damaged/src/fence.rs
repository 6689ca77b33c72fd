//! Memory between two pages that can't be touched: a read or a write outside stops the program.

use core::ffi::{c_int, c_void};

unsafe extern "C" {
    fn mmap(at: *mut c_void, len: usize, allow: c_int, flags: c_int, file: c_int, offset: i64) -> *mut c_void;
    fn mprotect(at: *mut c_void, len: usize, allow: c_int) -> c_int;
}

const PAGE: usize = 4_096;
/// Linux's numbers: PROT_NONE; PROT_READ and PROT_WRITE; MAP_PRIVATE and MAP_ANONYMOUS.
const NOTHING: c_int = 0;
const BOTH: c_int = 3;
const OWN: c_int = 0x22;

pub struct Fence {
    first: *mut u64,
    words: usize,
}

impl Fence {
    /// Room for at least so many words, in whole pages.
    pub fn new(words: usize) -> Fence {
        let room = (words * 8).div_ceil(PAGE) * PAGE;
        let all = unsafe { mmap(core::ptr::null_mut(), room + 2 * PAGE, NOTHING, OWN, -1, 0) };
        assert_ne!(all as isize, -1, "memory between two pages");
        let first = unsafe { all.byte_add(PAGE) };
        assert_eq!(unsafe { mprotect(first, room, BOTH) }, 0, "the pages between can be used");
        Fence { first: first.cast(), words: room / 8 }
    }

    /// All words between the two pages.
    pub fn room(&mut self) -> &mut [u64] {
        unsafe { core::slice::from_raw_parts_mut(self.first, self.words) }
    }
}
