//! Memory that ends right before a page that no one may touch: one byte read or written past the end stops the program. And large pieces of zeros, of which
//! parts can be made such memory.

use std::ops::Range;
use std::ptr::NonNull;

extern "C" {
    fn mmap(addr: *mut u8, length: usize, protection: i32, flags: i32, file: i32, offset: i64) -> *mut u8;
    fn mprotect(addr: *mut u8, length: usize, protection: i32) -> i32;
    fn munmap(addr: *mut u8, length: usize) -> i32;
}

const NONE: i32 = 0;
const READ_WRITE: i32 = 3;
const PRIVATE_ANONYMOUS: i32 = 0x22;
const NO_RESERVE: i32 = 0x4000;
const PAGE: usize = 4096;
/// Bytes before the slice that are looked at too.
const BEFORE: usize = 64;
const MARK: u8 = 0x5c;

/// Room for one slice at a time. Under valgrind the room is a fresh piece of the heap of just the right length.
pub struct Guarded {
    start: NonNull<u8>,
    capacity: usize,
    heap: bool,
    pieces: Vec<Box<[u64]>>,
}

// SAFETY: the mapping belongs to this value alone.
unsafe impl Send for Guarded {}

impl Guarded {
    pub fn new(capacity: usize, heap: bool) -> Guarded {
        let capacity = if heap { PAGE } else { (capacity + BEFORE).next_multiple_of(PAGE) };
        // SAFETY: a new private mapping; its last page is made inaccessible.
        let start = unsafe {
            let start = mmap(std::ptr::null_mut(), capacity + PAGE, READ_WRITE, PRIVATE_ANONYMOUS, -1, 0);
            assert!(start as isize != -1, "mmap");
            assert_eq!(mprotect(start.add(capacity), PAGE, NONE), 0, "mprotect");
            start
        };
        Guarded { start: NonNull::new(start).expect("a mapping"), capacity, heap, pieces: Vec::new() }
    }

    /// Copies entries so that they end at the guard.
    pub fn place<T: Copy>(&mut self, entries: &[T]) -> &mut [T] {
        let bytes = std::mem::size_of_val(entries);
        if self.heap {
            // Entries are at most eight bytes wide; an odd tail is left out of the piece's front.
            let words = bytes.div_ceil(8);
            self.pieces.clear();
            self.pieces.push(vec![0u64; words].into_boxed_slice());
            let piece = self.pieces[0].as_mut_ptr().cast::<u8>();
            // SAFETY: the piece has room for the entries at its end, aligned since their size divides eight.
            unsafe {
                let at = piece.add(words * 8 - bytes).cast::<T>();
                std::ptr::copy_nonoverlapping(entries.as_ptr(), at, entries.len());
                return std::slice::from_raw_parts_mut(at, entries.len());
            }
        }
        assert!(bytes + BEFORE <= self.capacity, "room for {bytes} bytes");
        // SAFETY: the bytes lie in the mapping, before the guard; the end is aligned to a page.
        unsafe {
            let at = self.start.as_ptr().add(self.capacity - bytes);
            std::ptr::write_bytes(at.sub(BEFORE), MARK, BEFORE);
            std::ptr::copy_nonoverlapping(entries.as_ptr(), at.cast::<T>(), entries.len());
            std::slice::from_raw_parts_mut(at.cast::<T>(), entries.len())
        }
    }

    /// Whether the bytes before the slice of `bytes` bytes that was placed last are untouched.
    pub fn untouched_before(&self, bytes: usize) -> bool {
        if self.heap {
            return true;
        }
        // SAFETY: as in `place`.
        let before = unsafe { std::slice::from_raw_parts(self.start.as_ptr().add(self.capacity - bytes - BEFORE), BEFORE) };
        before.iter().all(|&byte| byte == MARK)
    }
}

impl Drop for Guarded {
    fn drop(&mut self) {
        // SAFETY: the mapping of `new`.
        unsafe { munmap(self.start.as_ptr(), self.capacity + PAGE) };
    }
}

/// Zeros at first, which take no memory where they are only read.
pub struct Mapped {
    start: NonNull<u8>,
    length: usize,
}

impl Mapped {
    pub fn new(length: usize) -> Mapped {
        // SAFETY: a new private mapping.
        let start = unsafe { mmap(std::ptr::null_mut(), length, READ_WRITE, PRIVATE_ANONYMOUS | NO_RESERVE, -1, 0) };
        assert!(start as isize != -1, "mmap");
        Mapped { start: NonNull::new(start).expect("a mapping"), length }
    }

    pub fn bytes(&self) -> &[u8] {
        // SAFETY: the mapping is this value's, and has that length.
        unsafe { std::slice::from_raw_parts(self.start.as_ptr(), self.length) }
    }

    pub fn bytes_mut(&mut self) -> &mut [u8] {
        // SAFETY: as in `bytes`.
        unsafe { std::slice::from_raw_parts_mut(self.start.as_ptr(), self.length) }
    }

    /// From now on no one may touch these bytes, which begin with a page of the memory, and end with one or with the last byte.
    pub fn forbid(&mut self, bytes: Range<usize>) {
        assert!(bytes.start % PAGE == 0 && bytes.end <= self.length && (bytes.end % PAGE == 0 || bytes.end == self.length), "{bytes:?}");
        // SAFETY: the bytes lie in the mapping.
        assert_eq!(unsafe { mprotect(self.start.as_ptr().add(bytes.start), bytes.len(), NONE) }, 0, "mprotect");
    }
}

/// Bytes of which only the first so many may be touched.
pub struct Beginning {
    mapped: Mapped,
    from: usize,
}

impl Beginning {
    pub fn new(bytes: &[u8], readable: usize) -> Beginning {
        let border = readable.next_multiple_of(PAGE);
        let from = border - readable;
        let mut mapped = Mapped::new(from + bytes.len());
        mapped.bytes_mut()[from..from + bytes.len()].copy_from_slice(bytes);
        if readable < bytes.len() {
            mapped.forbid(border..from + bytes.len());
        }
        Beginning { mapped, from }
    }

    pub fn bytes(&self) -> &[u8] {
        &self.mapped.bytes()[self.from..]
    }
}

impl Drop for Mapped {
    fn drop(&mut self) {
        // SAFETY: the mapping of `new`.
        unsafe { munmap(self.start.as_ptr(), self.length) };
    }
}
