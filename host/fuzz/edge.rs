//! Memory that ends at an edge, with none after it.
use std::cell::RefCell;
use std::ffi::{c_int, c_void};
use std::ptr::null_mut;

/// The most bytes that are lent before an edge. Both are whole pages, however large those are.
const MOST: usize = 1 << 20;
const BEYOND: usize = 1 << 16;

const NONE: c_int = 0;
const READ_AND_WRITE: c_int = 3;
const PRIVATE_AND_ANONYMOUS: c_int = 0x22;

// The C library's.
extern "C" {
    fn mmap(at: *mut c_void, length: usize, access: c_int, flags: c_int, file: c_int, from: i64) -> *mut c_void;
    fn mprotect(at: *mut c_void, length: usize, access: c_int) -> c_int;
}

/// Where `MOST` bytes begin.
pub struct Edge(*mut u8);

thread_local! {
    static EDGES: RefCell<[Edge; 3]> = RefCell::new([Edge::new(), Edge::new(), Edge::new()]);
}

pub fn with(call: impl FnOnce(&mut [Edge; 3])) {
    EDGES.with_borrow_mut(call);
}

impl Edge {
    fn new() -> Self {
        // SAFETY: new memory, whose last pages nothing refers to.
        unsafe {
            let start = mmap(null_mut(), MOST + BEYOND, READ_AND_WRITE, PRIVATE_AND_ANONYMOUS, -1, 0);
            assert!(start as isize != -1, "no memory");
            assert!(mprotect(start.byte_add(MOST), BEYOND, NONE) == 0, "no edge");
            Edge(start.cast())
        }
    }

    /// So many bytes, or as many as there are.
    pub fn room(&mut self, length: usize) -> &mut [u8] {
        let length = length.min(MOST);
        // SAFETY: the last of the `MOST` bytes, which are there until the program ends; the borrow is of this edge.
        unsafe { std::slice::from_raw_parts_mut(self.0.add(MOST - length), length) }
    }

    /// These bytes, or as many as there is room for.
    pub fn of(&mut self, bytes: &[u8]) -> &[u8] {
        let room = self.room(bytes.len());
        room.copy_from_slice(&bytes[..room.len()]);
        room
    }
}
