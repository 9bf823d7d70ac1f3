//! Slices that end at, or begin right after, a page that nobody may touch: a read or write beyond
//! them ends the program. This is the only module with `unsafe` in it.

use std::ffi::{c_int, c_void};

extern "C" {
    fn mmap(
        address: *mut c_void,
        length: usize,
        protection: c_int,
        flags: c_int,
        file: c_int,
        offset: i64,
    ) -> *mut c_void;
    fn mprotect(address: *mut c_void, length: usize, protection: c_int) -> c_int;
    fn munmap(address: *mut c_void, length: usize) -> c_int;
}

const PROT_NONE: c_int = 0;
const PROT_READ: c_int = 1;
const PROT_READ_WRITE: c_int = 3;
const MAP_PRIVATE_ANONYMOUS: c_int = 0x22;

/// A multiple of every page size that Linux uses on x86-64 and on arm64.
const PAGE: usize = 65_536;

/// Which side of a lent slice lies at a forbidden page.
#[derive(Clone, Copy, Debug, PartialEq, Eq)]
pub enum Side {
    /// The slice begins right after a forbidden page.
    Begins,
    /// The slice ends at a forbidden page.
    Ends,
}

/// Pages that may be used, between two that may not.
pub struct Guarded {
    start: *mut u8,
    room: usize,
    writable: bool,
}

impl Guarded {
    /// Pages with room for at least `room` bytes, all 0.
    pub fn new(room: usize) -> Guarded {
        let room = room.div_ceil(PAGE).max(1) * PAGE;
        // SAFETY: a new private mapping at an address of the kernel's choice; nothing else is
        // mapped there. Its middle is then made usable, inside the mapping's bounds.
        unsafe {
            let whole = mmap(
                std::ptr::null_mut(),
                room + 2 * PAGE,
                PROT_NONE,
                MAP_PRIVATE_ANONYMOUS,
                -1,
                0,
            );
            assert!(whole as isize != -1, "mmap of {room} bytes");
            let start = (whole as *mut u8).add(PAGE);
            let made = mprotect(start as *mut c_void, room, PROT_READ_WRITE);
            assert_eq!(made, 0, "mprotect of {room} bytes");
            Guarded {
                start,
                room,
                writable: true,
            }
        }
    }

    /// Pages that hold these bytes on the given side, and that can only be read.
    pub fn read_only(bytes: &[u8], side: Side) -> Guarded {
        let mut pages = Guarded::new(bytes.len());
        pages.slice(side, bytes.len()).copy_from_slice(bytes);
        // SAFETY: the range is the usable middle of this mapping, and no slice of it is borrowed.
        let made = unsafe { mprotect(pages.start as *mut c_void, pages.room, PROT_READ) };
        assert_eq!(made, 0, "mprotect for reading");
        pages.writable = false;
        pages
    }

    /// The slice of `len` bytes on the given side, to be read.
    pub fn bytes(&self, side: Side, len: usize) -> &[u8] {
        // SAFETY: the range lies in the usable middle of the mapping, which is initialised by the
        // kernel and lives as long as self; self is borrowed, so no writable slice of it exists.
        unsafe { std::slice::from_raw_parts(self.start.add(self.offset(side, len)), len) }
    }

    /// The slice of `len` bytes on the given side, to be read and written.
    pub fn slice(&mut self, side: Side, len: usize) -> &mut [u8] {
        assert!(self.writable, "the pages can only be read");
        // SAFETY: as for `bytes`; self is borrowed mutably, so no other slice of it exists.
        unsafe { std::slice::from_raw_parts_mut(self.start.add(self.offset(side, len)), len) }
    }

    fn offset(&self, side: Side, len: usize) -> usize {
        assert!(len <= self.room, "{len} bytes of {}", self.room);
        match side {
            Side::Begins => 0,
            Side::Ends => self.room - len,
        }
    }
}

impl Drop for Guarded {
    fn drop(&mut self) {
        // SAFETY: the range is the whole mapping that `new` made, and no slice of it is borrowed.
        unsafe { munmap(self.start.sub(PAGE) as *mut c_void, self.room + 2 * PAGE) };
    }
}

/// How a slice is lent.
#[derive(Clone, Copy, Debug, PartialEq, Eq)]
pub enum How {
    /// At a forbidden page.
    Guarded(Side),
    /// Among other bytes that have to stay, so many of them in front.
    Among(usize),
}

/// A slice that can be lent in each of these ways.
pub struct Lent {
    pages: Guarded,
    among: Vec<u8>,
    how: How,
    len: usize,
}

/// The byte that stands around a slice lent among others.
const AROUND: u8 = 0xC5;
/// How many such bytes stand behind it.
const BEHIND: usize = 64;

impl Lent {
    /// A slice of up to `room` bytes.
    pub fn new(room: usize) -> Lent {
        Lent {
            pages: Guarded::new(room),
            among: Vec::new(),
            how: How::Guarded(Side::Ends),
            len: 0,
        }
    }

    /// Puts the bytes where they are lent in this way.
    pub fn load(&mut self, how: How, bytes: &[u8]) {
        self.how = how;
        self.len = bytes.len();
        if let How::Among(front) = how {
            self.among.clear();
            self.among.resize(front + bytes.len() + BEHIND, AROUND);
        }
        self.slice().copy_from_slice(bytes);
    }

    /// The slice, to be lent.
    pub fn slice(&mut self) -> &mut [u8] {
        match self.how {
            How::Guarded(side) => self.pages.slice(side, self.len),
            How::Among(front) => &mut self.among[front..front + self.len],
        }
    }

    /// The slice, to be looked at.
    pub fn bytes(&self) -> &[u8] {
        match self.how {
            How::Guarded(side) => self.pages.bytes(side, self.len),
            How::Among(front) => &self.among[front..front + self.len],
        }
    }

    /// Whether the bytes around a slice lent among others are what they were.
    pub fn surroundings_are_kept(&self) -> bool {
        match self.how {
            How::Guarded(_) => true,
            How::Among(front) => {
                let behind = &self.among[front + self.len..];
                self.among[..front]
                    .iter()
                    .chain(behind)
                    .all(|&b| b == AROUND)
            }
        }
    }
}

#[cfg(test)]
mod tests {
    use super::*;

    #[test]
    fn sides_are_where_they_are_said_to_be() {
        let mut pages = Guarded::new(10);
        assert_eq!(
            pages.slice(Side::Begins, 10).as_ptr() as usize % PAGE % 4096,
            0
        );
        assert_eq!(
            (pages.slice(Side::Ends, 10).as_ptr() as usize + 10) % 4096,
            0
        );
        pages.slice(Side::Ends, 3).copy_from_slice(b"abc");
        assert_eq!(pages.bytes(Side::Ends, 2), b"bc");
        assert_eq!(
            Guarded::read_only(b"xyz", Side::Begins).bytes(Side::Begins, 3),
            b"xyz"
        );
        assert_eq!(pages.bytes(Side::Ends, 0), b"");
    }
}
