//! The three lines in front of a capture's records.

use crate::mold::BLANK;
use crate::receiver::Receiver;

/// So many bytes hold all three lines, with a session of ten bytes and the longest numbers.
pub const LARGEST: usize = 57;

/// The receiver that they start, and how many bytes they are.
pub fn read(bytes: &[u8]) -> Option<(Receiver, usize)> {
    let (session, rest) = bytes.strip_prefix(b"session=")?.split_first_chunk()?;
    let (next, rest) = number(rest.strip_prefix(b"\nnext=")?)?;
    let (limit, rest) = number(rest.strip_prefix(b"limit=")?)?;
    if !session.iter().all(|byte| matches!(byte, b' '..=b'~')) || session == BLANK {
        return None;
    }
    let limit = u16::try_from(limit).ok()?;
    let receiver = Receiver::start(*session, next, limit).ok()?;
    Some((receiver, bytes.len() - rest.len()))
}

/// A number without leading zeros, and what is left behind the line feed that ends it.
fn number(bytes: &[u8]) -> Option<(u64, &[u8])> {
    let end = bytes.iter().position(|&byte| byte == b'\n')?;
    let digits = &bytes[..end];
    let is_number = matches!(digits, [b'1'..=b'9', ..]) && digits.iter().all(u8::is_ascii_digit);
    let digits = std::str::from_utf8(digits).ok().filter(|_| is_number)?;
    Some((digits.parse().ok()?, &bytes[end + 1..]))
}
