//! Rows that end, or begin, at a page which no one may touch: a step outside is a fault.

use std::ffi::{c_int, c_long, c_void};

extern "C" {
    fn mmap(
        at: *mut c_void,
        len: usize,
        prot: c_int,
        flags: c_int,
        file: c_int,
        offset: c_long,
    ) -> *mut c_void;
    fn mprotect(at: *mut c_void, len: usize, prot: c_int) -> c_int;
}

const NONE: c_int = 0;
const READ_WRITE: c_int = 1 | 2;
const PRIVATE_ANONYMOUS: c_int = 0x02 | 0x20;
/// A multiple of every page size that the machines at hand have.
const GUARD: usize = 64 * 1024;
const ROOM: usize = 64 * 1024;

/// Where the page that no one may touch lies.
#[derive(Clone, Copy, PartialEq, Debug)]
pub enum Side {
    Behind,
    Before,
}

/// A room for one row, with a guard on both sides.
pub struct Guarded {
    room: *mut u8,
}

impl Guarded {
    pub fn new() -> Guarded {
        unsafe {
            let base = mmap(std::ptr::null_mut(), ROOM + 2 * GUARD, NONE, PRIVATE_ANONYMOUS, -1, 0);
            assert!(base as isize != -1, "no memory");
            let room = (base as *mut u8).add(GUARD);
            assert_eq!(mprotect(room as *mut c_void, ROOM, READ_WRITE), 0);
            Guarded { room }
        }
    }

    /// The row touches the guard also where it is empty.
    fn start(&self, bytes: usize, side: Side) -> *mut u8 {
        assert!(bytes <= ROOM);
        match side {
            Side::Behind => unsafe { self.room.add(ROOM - bytes) },
            Side::Before => self.room,
        }
    }

    /// A copy of the words that touches the guard.
    pub fn words(&mut self, words: &[u32], side: Side) -> &mut [u32] {
        let start = self.start(4 * words.len(), side) as *mut u32;
        let lent = unsafe { std::slice::from_raw_parts_mut(start, words.len()) };
        lent.copy_from_slice(words);
        lent
    }

    pub fn bytes(&mut self, bytes: &[u8], side: Side) -> &mut [u8] {
        let start = self.start(bytes.len(), side);
        let lent = unsafe { std::slice::from_raw_parts_mut(start, bytes.len()) };
        lent.copy_from_slice(bytes);
        lent
    }

    /// A copy of a value that touches the guard.
    pub fn value<T: Copy>(&mut self, value: &T, side: Side) -> &mut T {
        let start = self.start(std::mem::size_of::<T>(), side) as *mut T;
        unsafe {
            start.write(*value);
            &mut *start
        }
    }
}
