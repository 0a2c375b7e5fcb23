//! A file or standard input as the C library reads it, since libpcap takes no other.

use crate::failure::{is_standard, name_of, Failure, Outcome};
use std::fs::File;
use std::io::{self, Seek};
use std::os::fd::{AsFd, IntoRawFd};
use std::os::raw::{c_char, c_int, c_void};
use std::path::Path;

/// The C library's own file.
#[repr(C)]
pub struct CFile {
    _opaque: [u8; 0],
}

const FULLY_BUFFERED: c_int = 0;
const END: c_int = -1;
/// Large enough that the system is asked seldom, small enough to stay in a core's cache.
const BUFFER: usize = 128 * 1024;

extern "C" {
    fn fdopen(descriptor: c_int, mode: *const c_char) -> *mut CFile;
    fn setvbuf(file: *mut CFile, buffer: *mut c_char, mode: c_int, size: usize) -> c_int;
    fn getc(file: *mut CFile) -> c_int;
    fn ungetc(byte: c_int, file: *mut CFile) -> c_int;
    fn fread(to: *mut c_void, size: usize, count: usize, file: *mut CFile) -> usize;
    fn ferror(file: *mut CFile) -> c_int;
    fn fclose(file: *mut CFile) -> c_int;
}

/// An open file to read from.
pub struct Stream {
    file: *mut CFile,
    name: String,
    /// How long it is, where that can be told.
    size: Option<u64>,
    /// A file that isn't a pipe, and where in it the reading begins.
    place: Option<(File, u64)>,
    /// What the C library reads into: it takes no size without a buffer of that size. It is dropped
    /// behind the file.
    _buffer: Box<[u8]>,
}

impl Stream {
    /// Opens a file, or standard input for `-`.
    pub fn open(path: &Path) -> Outcome<Self> {
        let name = name_of(path);
        let failed = |error: io::Error| Failure::system(&name, &error);
        let file = if is_standard(path) {
            File::from(io::stdin().as_fd().try_clone_to_owned().map_err(failed)?)
        } else {
            File::open(path).map_err(failed)?
        };
        let data = file.metadata().map_err(failed)?;
        if data.is_dir() {
            return Err(Failure::of(&name, "is a directory, and a file was expected"));
        }
        let size = data.is_file().then_some(data.len());
        let place = if data.is_file() { place_of(&file) } else { None };
        // SAFETY: the descriptor is open and is handed over; the mode is a C string.
        let file = unsafe { fdopen(file.into_raw_fd(), c"rb".as_ptr()) };
        if file.is_null() {
            return Err(failed(io::Error::last_os_error()));
        }
        let mut buffer = vec![0; BUFFER].into_boxed_slice();
        // SAFETY: the file was opened above, nothing was read from it yet, and the buffer stays for
        // longer. Where it refuses, the smaller one that it has will do.
        unsafe { setvbuf(file, buffer.as_mut_ptr().cast(), FULLY_BUFFERED, BUFFER) };
        Ok(Stream { file, name, size, place, _buffer: buffer })
    }

    pub fn name(&self) -> &str {
        &self.name
    }

    pub fn size(&self) -> Option<u64> {
        self.size
    }

    /// The file itself, to be read at any place, and where it begins here; none of a pipe.
    pub fn take_place(&mut self) -> Option<(File, u64)> {
        self.place.take()
    }

    /// The first byte, which stays to be read; none of an empty file.
    pub fn peek(&mut self) -> Outcome<Option<u8>> {
        // SAFETY: the file is open, and one byte can always be put back.
        let byte = unsafe { getc(self.file) };
        if byte == END {
            self.check()?;
            return Ok(None);
        }
        // SAFETY: as above.
        unsafe { ungetc(byte, self.file) };
        Ok(u8::try_from(byte).ok())
    }

    /// Reads until the bytes are full or the file is at its end, and says how many were read.
    pub fn read(&mut self, bytes: &mut [u8]) -> Outcome<usize> {
        // SAFETY: the file is open, and so many bytes may be written there.
        let read = unsafe { fread(bytes.as_mut_ptr().cast(), 1, bytes.len(), self.file) };
        if read < bytes.len() {
            self.check()?;
        }
        Ok(read)
    }

    /// Tells the end of a file from a read that failed.
    fn check(&self) -> Outcome<()> {
        let error = io::Error::last_os_error();
        // SAFETY: the file is open.
        match unsafe { ferror(self.file) } {
            0 => Ok(()),
            _ => Err(Failure::system(&self.name, &error)),
        }
    }

    /// The C library's file, for one who closes it before this is dropped.
    pub fn file(&self) -> *mut CFile {
        self.file
    }

    /// The file was closed by another, and isn't closed again.
    pub fn forget(&mut self) {
        self.file = std::ptr::null_mut();
    }
}

fn place_of(file: &File) -> Option<(File, u64)> {
    let mut same = file.try_clone().ok()?;
    let begins = same.stream_position().ok()?;
    Some((same, begins))
}

impl Drop for Stream {
    fn drop(&mut self) {
        if !self.file.is_null() {
            // SAFETY: the file is open, and isn't used again.
            unsafe { fclose(self.file) };
        }
    }
}
