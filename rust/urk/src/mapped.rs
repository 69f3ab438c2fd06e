//! Files too long to be read whole. The only unsafe code of the command.

use std::fs::File;
use std::os::fd::AsRawFd;

/// The first bytes of a file, in memory that the file stands for.
pub struct Mapped {
    at: *const u8,
    length: usize,
}

extern "C" {
    fn mmap(at: *mut u8, length: usize, access: i32, flags: i32, file: i32, offset: i64) -> *mut u8;
    fn munmap(at: *mut u8, length: usize) -> i32;
}

impl Mapped {
    pub fn new(file: &File, length: usize) -> std::io::Result<Mapped> {
        const READ: i32 = 1;
        const PRIVATE: i32 = 2;
        // SAFETY: a new mapping, of at least one byte, that is only read.
        let at = unsafe { mmap(std::ptr::null_mut(), length, READ, PRIVATE, file.as_raw_fd(), 0) };
        if at as usize == usize::MAX {
            return Err(std::io::Error::last_os_error());
        }
        Ok(Mapped { at, length })
    }

    pub fn bytes(&self) -> &[u8] {
        // SAFETY: the mapping has so many bytes for as long as it lives. A file that somebody cuts meanwhile ends the program.
        unsafe { std::slice::from_raw_parts(self.at, self.length) }
    }
}

impl Drop for Mapped {
    fn drop(&mut self) {
        // SAFETY: nothing borrows from it any more.
        unsafe { munmap(self.at as *mut u8, self.length) };
    }
}
