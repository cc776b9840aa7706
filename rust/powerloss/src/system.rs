//! What the standard library has not: a file mapped into memory, and a signal to oneself. For Linux.

use std::ffi::{c_int, c_void};
use std::fs::File;
use std::io;
use std::os::fd::AsRawFd;
use std::ptr::null_mut;
use std::slice;

const PROT_READ_WRITE: c_int = 3;
const MAP_SHARED: c_int = 1;
const SIGKILL: c_int = 9;

extern "C" {
    fn mmap(at: *mut c_void, len: usize, prot: c_int, flags: c_int, file: c_int, offset: i64) -> *mut c_void;
    fn raise(signal: c_int) -> c_int;
}

/// The first `len` bytes of a file, until the process ends: what is written there is in the file at once, whatever
/// becomes of the process.
pub fn map(file: &File, len: usize) -> io::Result<&'static mut [u8]> {
    if file.metadata()?.len() < len as u64 {
        return Err(io::Error::other("the file is too short"));
    }
    // A new mapping of the whole length, never taken back.
    unsafe {
        let at = mmap(null_mut(), len, PROT_READ_WRITE, MAP_SHARED, file.as_raw_fd(), 0);
        if at as isize == -1 {
            return Err(io::Error::last_os_error());
        }
        Ok(slice::from_raw_parts_mut(at.cast(), len))
    }
}

/// Power is lost: nothing is closed, written or told.
pub fn die() -> ! {
    // The signal cannot be caught, so that it does not return.
    unsafe { raise(SIGKILL) };
    unreachable!("killed");
}

/// Did a process end so?
pub fn was_killed(signal: Option<i32>) -> bool {
    signal == Some(SIGKILL)
}
