// Lent memory with nothing mapped in front of it and behind it: who reads or writes past an end is stopped there.
use std::ffi::{c_int, c_void};

extern "C" {
    fn mmap(at: *mut c_void, length: usize, protection: c_int, flags: c_int, file: c_int, from: i64) -> *mut c_void;
    fn mprotect(at: *mut c_void, length: usize, protection: c_int) -> c_int;
}

const PAGE: usize = 4096;
const NOTHING: c_int = 0;
const READ_WRITE: c_int = 1 | 2;
const PRIVATE_ANONYMOUS: c_int = 2 | 32;

// Some pages, between two that are not mapped.
pub struct Fenced<T> {
    first: *mut u8,
    bytes: usize,
    // Where what was lent last begins.
    lent: *mut T,
}

impl<T: Copy + PartialEq> Fenced<T> {
    pub fn new(pages: usize) -> Fenced<T> {
        let bytes = pages * PAGE;
        unsafe {
            let at = mmap(std::ptr::null_mut(), bytes + 2 * PAGE, NOTHING, PRIVATE_ANONYMOUS, -1, 0);
            assert!(at as isize != -1, "no memory");
            let first = (at as *mut u8).add(PAGE);
            assert!(mprotect(first as *mut c_void, bytes, READ_WRITE) == 0, "no memory");
            Fenced { first, bytes, lent: first as *mut T }
        }
    }

    // A copy of the numbers that ends where the pages end, or else begins where they begin.
    pub fn lend(&mut self, numbers: &[T], at_end: bool) -> &mut [T] {
        let size = std::mem::size_of_val(numbers);
        assert!(size <= self.bytes, "more numbers than the pages hold");
        let from = if at_end { self.bytes - size } else { 0 };
        unsafe {
            self.lent = self.first.add(from) as *mut T;
            std::ptr::copy_nonoverlapping(numbers.as_ptr(), self.lent, numbers.len());
            std::slice::from_raw_parts_mut(self.lent, numbers.len())
        }
    }

    // Whether what was lent last is still these numbers.
    pub fn holds(&self, numbers: &[T]) -> bool {
        (0..numbers.len()).all(|at| unsafe { self.lent.add(at).read_volatile() } == numbers[at])
    }
}
