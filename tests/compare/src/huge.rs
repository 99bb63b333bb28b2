//! Schedules of 2^32 bytes and more without that much memory: one piece of a file is mapped again
//! and again behind itself (Linux). They lie between pages that cannot be read, and can themselves
//! only be read.

use std::fs::{self, File};
use std::io::{Error, Write};
use std::os::fd::AsRawFd;

extern "C" {
    fn mmap(
        address: *mut u8,
        length: usize,
        protection: i32,
        flags: i32,
        file: i32,
        offset: i64,
    ) -> *mut u8;
    fn munmap(address: *mut u8, length: usize) -> i32;
    fn mprotect(address: *mut u8, length: usize, protection: i32) -> i32;
}

const NONE: i32 = 0;
const READ: i32 = 1;
const WRITE: i32 = 2;
const PRIVATE: i32 = 2;
const FIXED: i32 = 0x10;
const ANONYMOUS: i32 = 0x20;
const NO_RESERVE: i32 = 0x4000;
const PIECE: usize = 1 << 24;
/// What lies before and behind and cannot be read.
const GUARD: usize = 1 << 16;

/// 2^32.
pub const LENGTH: usize = 1 << 32;

/// A schedule that is mapped.
pub struct Huge {
    reserved: *mut u8,
    pieces: usize,
    length: usize,
}

/// The last error, if a call gave none of an address or zero.
fn checked(good: bool) -> Result<(), Error> {
    if good {
        Ok(())
    } else {
        Err(Error::last_os_error())
    }
}

impl Huge {
    /// This many bytes of one value, with others at these indexes.
    pub fn new(length: usize, value: u8, others: &[(usize, u8)]) -> Result<Huge, Error> {
        let path = std::env::temp_dir().join(format!("compare-huge-{}", std::process::id()));
        let mut file = File::options()
            .read(true)
            .write(true)
            .create_new(true)
            .open(&path)?;
        fs::remove_file(&path)?;
        file.write_all(&vec![value; PIECE])?;
        let pieces = length.div_ceil(PIECE);
        let whole = pieces * PIECE + 2 * GUARD;
        let flags = PRIVATE | ANONYMOUS | NO_RESERVE;
        // SAFETY: asks for fresh address space.
        let reserved = unsafe { mmap(std::ptr::null_mut(), whole, NONE, flags, -1, 0) };
        checked(reserved as isize != -1)?;
        let huge = Huge {
            reserved,
            pieces,
            length,
        };
        for piece in 0..pieces {
            // SAFETY: the piece lies inside the address space just reserved.
            let mapped = unsafe {
                let to = huge.mapped().add(piece * PIECE);
                let flags = PRIVATE | FIXED | NO_RESERVE;
                mmap(to, PIECE, READ | WRITE, flags, file.as_raw_fd(), 0)
            };
            checked(mapped as isize != -1)?;
        }
        for (index, other) in others {
            assert!(*index < length);
            // SAFETY: the index is below the length, all of which is mapped for writing.
            unsafe { *huge.first().add(*index) = *other };
        }
        // SAFETY: the pieces just mapped.
        checked(unsafe { mprotect(huge.mapped(), pieces * PIECE, READ) } == 0)?;
        Ok(huge)
    }

    /// Where the pieces begin.
    fn mapped(&self) -> *mut u8 {
        // SAFETY: inside the reserved address space.
        unsafe { self.reserved.add(GUARD) }
    }

    /// Where the bytes begin: they end where the pages that cannot be read begin.
    fn first(&self) -> *mut u8 {
        // SAFETY: inside the pieces.
        unsafe { self.mapped().add(self.pieces * PIECE - self.length) }
    }

    pub fn bytes(&self) -> &[u8] {
        // SAFETY: all of it is mapped for reading until it is dropped, and nothing writes to it.
        unsafe { std::slice::from_raw_parts(self.first(), self.length) }
    }
}

impl Drop for Huge {
    fn drop(&mut self) {
        // SAFETY: the address space that `new` reserved.
        unsafe { munmap(self.reserved, self.pieces * PIECE + 2 * GUARD) };
    }
}
