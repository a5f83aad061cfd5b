//! More samples than memory holds: those of one small file, mapped again and again.
use crate::lent::as_bytes;
use std::ffi::{c_char, c_int, c_uint, c_void};
use std::fs::File;
use std::io::{Error, Write};
use std::iter::repeat_with;
use std::os::fd::{AsRawFd, FromRawFd};
use std::ptr::null_mut;
use std::slice;

/// How many samples the file has, and how many can be written while one is put: whole pages, however large those are.
const PIECE: usize = 1 << 20;
const PAGE: usize = 1 << 14;

const NONE: c_int = 0;
const READ: c_int = 1;
const READ_AND_WRITE: c_int = 3;

const PRIVATE: c_int = 0x02;
const FIXED: c_int = 0x10;
const ANONYMOUS: c_int = 0x20;
const NOT_RESERVED: c_int = 0x4000;

// The C library's.
extern "C" {
    fn memfd_create(name: *const c_char, flags: c_uint) -> c_int;
    fn mmap(at: *mut c_void, length: usize, access: c_int, flags: c_int, file: c_int, from: i64) -> *mut c_void;
    fn mprotect(at: *mut c_void, length: usize, access: c_int) -> c_int;
}

/// Samples that are there until the program ends. Whoever else than `put` writes one crashes.
pub struct Large {
    start: *mut i32,
    count: usize,
}

impl Large {
    /// So many samples at least: a piece that is drawn, again and again.
    pub fn new(count: usize, draw: impl FnMut() -> i32) -> Self {
        let piece: Vec<i32> = repeat_with(draw).take(PIECE).collect();
        let file = in_memory(&as_bytes(&piece));
        let count = count.next_multiple_of(PIECE);
        // SAFETY: new memory, and then the file over each part of it.
        unsafe {
            let start: *mut i32 = mapped(null_mut(), count, NONE, PRIVATE | ANONYMOUS | NOT_RESERVED, -1);
            for from in (0..count).step_by(PIECE) {
                mapped(start.add(from), PIECE, READ, PRIVATE | FIXED, file.as_raw_fd());
            }
            Large { start, count }
        }
    }

    /// So many of them, from the first on.
    pub fn first(&self, count: usize) -> &[i32] {
        assert!(count <= self.count, "so many samples are not there");
        // SAFETY: they are there, and while they are borrowed none is put.
        unsafe { slice::from_raw_parts(self.start, count) }
    }

    /// Another sample in place of one, and of that one alone.
    pub fn put(&mut self, at: usize, sample: i32) {
        assert!(at < self.count, "there is no such sample");
        // SAFETY: it is there, and none is borrowed.
        unsafe {
            let page = self.start.add(at - at % PAGE).cast();
            assert!(mprotect(page, 4 * PAGE, READ_AND_WRITE) == 0, "a page can't be written");
            self.start.add(at).write(sample);
            assert!(mprotect(page, 4 * PAGE, READ) == 0, "a page can be written");
        }
    }
}

unsafe fn mapped(at: *mut i32, count: usize, access: c_int, flags: c_int, file: c_int) -> *mut i32 {
    let start = mmap(at.cast(), 4 * count, access, flags, file, 0);
    assert!(start as isize != -1, "{}", Error::last_os_error());
    start.cast()
}

/// A file that has no place in a folder.
fn in_memory(bytes: &[u8]) -> File {
    // SAFETY: the name ends with a zero, and nobody else has the new file.
    let mut file = unsafe {
        let number = memfd_create(c"samples".as_ptr(), 0);
        assert!(number != -1, "{}", Error::last_os_error());
        File::from_raw_fd(number)
    };
    file.write_all(bytes).expect("memory for a small file");
    file
}
