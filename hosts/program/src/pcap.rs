//! pcap and pcapng files, by libpcap: the few of its functions that are needed, declared here.
//!
//! Of the plainest kind of file libpcap judges the header alone, and [`plain`] reads the frames.

mod plain;

use crate::failure::{Failure, Outcome};
use crate::stream::{CFile, Stream};
use plain::{Clock, Plain};
use std::ffi::CStr;
use std::fs::File;
use std::os::raw::{c_char, c_int, c_long, c_uint};
use std::ptr;

#[repr(C)]
struct Handle {
    _opaque: [u8; 0],
}

#[repr(C)]
struct PacketHeader {
    seconds: c_long,
    /// Billionths of a second, as the file is opened for them.
    fraction: c_long,
    captured: c_uint,
    on_wire: c_uint,
}

const ERROR_SIZE: usize = 256;
const NANOSECONDS: c_uint = 1;
const READ: c_int = 1;
const AT_END: c_int = -2;

#[link(name = "pcap")]
extern "C" {
    fn pcap_fopen_offline_with_tstamp_precision(
        file: *mut CFile,
        precision: c_uint,
        error: *mut c_char,
    ) -> *mut Handle;
    fn pcap_next_ex(
        pcap: *mut Handle,
        header: *mut *mut PacketHeader,
        bytes: *mut *const u8,
    ) -> c_int;
    fn pcap_datalink(pcap: *mut Handle) -> c_int;
    fn pcap_snapshot(pcap: *mut Handle) -> c_int;
    fn pcap_major_version(pcap: *mut Handle) -> c_int;
    fn pcap_minor_version(pcap: *mut Handle) -> c_int;
    fn pcap_datalink_val_to_name(link: c_int) -> *const c_char;
    fn pcap_geterr(pcap: *mut Handle) -> *mut c_char;
    fn pcap_close(pcap: *mut Handle);
}

/// The bytes with which a pcap or pcapng file can begin, in either byte order.
const FIRST_BYTES: [u8; 6] = [0xA1, 0xD4, 0x4D, 0x34, 0xCD, 0x0A];

/// Whether a file that begins with this byte can be a pcap. No capture begins so.
pub fn may_begin_with(byte: u8) -> bool {
    FIRST_BYTES.contains(&byte)
}

/// An open pcap.
pub struct Pcap {
    handle: *mut Handle,
    /// The file that libpcap reads, and closes.
    stream: Stream,
    /// Frames read so far.
    frames: u64,
    /// How the frames are read, where libpcap doesn't.
    plain: Option<Plain>,
}

/// A frame, as much of it as was captured.
pub struct Captured<'a> {
    pub bytes: &'a [u8],
    /// Whether the snap length cut it.
    pub is_cut: bool,
    /// Its place in the file, from 1.
    pub number: u64,
    pub seconds: f64,
}

impl Pcap {
    pub fn open(mut stream: Stream) -> Outcome<Self> {
        let first = stream.peek()?;
        let place = stream.take_place();
        let mut error = [0; ERROR_SIZE];
        // SAFETY: the file is open, and the error's room has the size that libpcap names.
        let handle = unsafe {
            pcap_fopen_offline_with_tstamp_precision(stream.file(), NANOSECONDS, error.as_mut_ptr())
        };
        if handle.is_null() {
            // SAFETY: libpcap wrote a C string there.
            let why = unsafe { text(error.as_ptr()) };
            let expected = format!("a pcap or pcapng file was expected: {why}");
            return Err(Failure::of(stream.name(), expected));
        }
        let mut pcap = Pcap { handle, stream, frames: 0, plain: None };
        pcap.plain = place.zip(first).and_then(|(place, first)| pcap.as_plain(place, first));
        Ok(pcap)
    }

    pub fn name(&self) -> &str {
        self.stream.name()
    }

    /// A reader of the plainest kind of file, where this is one.
    fn as_plain(&self, (file, begins): (File, u64), first: u8) -> Option<Plain> {
        // SAFETY: the handle is open.
        let (version, most) = unsafe {
            let version = (pcap_major_version(self.handle), pcap_minor_version(self.handle));
            (version, pcap_snapshot(self.handle))
        };
        let clock = Clock::of(first).filter(|_| version == (2, 4))?;
        Some(Plain::new(file, begins, clock, usize::try_from(most).ok()?))
    }

    /// The kind of its frames, by libpcap's number, and by its name for a person.
    pub fn link(&self) -> (i32, String) {
        // SAFETY: the handle is open; the name is a static C string, or null for a kind without one.
        unsafe {
            let kind = pcap_datalink(self.handle);
            let name = pcap_datalink_val_to_name(kind);
            (kind, if name.is_null() { kind.to_string() } else { text(name) })
        }
    }

    /// The next frame; none at the file's end.
    #[inline]
    pub fn next(&mut self) -> Outcome<Option<Captured<'_>>> {
        let number = self.frames + 1;
        let next = match &mut self.plain {
            Some(plain) => plain.next(),
            None => next(&mut self.handle),
        };
        match next {
            Ok(frame) => {
                self.frames += u64::from(frame.is_some());
                Ok(frame.map(|frame| Captured { number, ..frame }))
            }
            Err(why) => {
                Err(Failure::of(self.stream.name(), format!("frame {number} can't be read: {why}")))
            }
        }
    }
}

/// The next frame, by libpcap, which keeps it until it is asked for another.
fn next(handle: &mut *mut Handle) -> Result<Option<Captured<'_>>, String> {
    let (mut header, mut bytes) = (ptr::null_mut(), ptr::null());
    // SAFETY: the handle is open, and both places may be written.
    match unsafe { pcap_next_ex(*handle, &mut header, &mut bytes) } {
        READ => {}
        AT_END => return Ok(None),
        // SAFETY: the handle is open, and its text is a C string until the next call.
        _ => return Err(unsafe { text(pcap_geterr(*handle)) }),
    }
    // SAFETY: libpcap answered that a frame is there; header and bytes stay until the next call,
    // which the borrow of the handle keeps off.
    let (header, bytes) = unsafe {
        let header = &*header;
        (header, std::slice::from_raw_parts(bytes, header.captured as usize))
    };
    Ok(Some(Captured {
        bytes,
        is_cut: header.captured < header.on_wire,
        number: 0,
        seconds: header.seconds as f64 + header.fraction as f64 / 1e9,
    }))
}

impl Drop for Pcap {
    fn drop(&mut self) {
        // SAFETY: the handle is open, and isn't used again.
        unsafe { pcap_close(self.handle) };
        // libpcap has closed the file with it
        self.stream.forget();
    }
}

/// A text of libpcap's.
///
/// # Safety
/// It is a C string.
unsafe fn text(words: *const c_char) -> String {
    // SAFETY: as asked for.
    unsafe { CStr::from_ptr(words) }.to_string_lossy().into_owned()
}
