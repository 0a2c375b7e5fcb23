//! Document 01, "MoldUDP64 bytes": datagrams and requests, read and written.

use super::{Name, Refusal};

pub const HEADER: usize = 20;
pub const LARGEST: usize = 65_507;
pub const MOST_MESSAGES: usize = 65_534;

/// The count that marks an end of session.
pub const END: u16 = 65_535;

#[derive(Clone, Copy, Debug, PartialEq, Eq)]
pub enum Kind {
    Data,
    Heartbeat,
    EndOfSession,
}

/// Where a message's data bytes stand in its datagram.
#[derive(Clone, Copy, Debug, PartialEq, Eq)]
pub struct Message {
    pub offset: usize,
    pub length: usize,
}

impl Message {
    /// The first byte behind the message, where the next block begins.
    pub fn end(&self) -> usize {
        self.offset + self.length
    }
}

#[derive(Clone, Debug, PartialEq, Eq)]
pub struct Datagram {
    pub session: Name,
    pub kind: Kind,
    pub number: u64,
    pub messages: Vec<Message>,
}

#[derive(Clone, Debug, PartialEq, Eq)]
pub struct Request {
    pub session: Name,
    pub first: u64,
    pub count: u16,
}

/// Reads a datagram: it is exactly its header and its blocks.
pub fn read(datagram: &[u8]) -> Result<Datagram, Refusal> {
    if datagram.len() < HEADER {
        return Err(11);
    }
    if datagram.len() > LARGEST {
        return Err(12);
    }
    let (session, number, count) = header(datagram);
    if number == 0 {
        return Err(13);
    }
    let kind = kind_of(count);
    let blocks = if kind == Kind::Data { count } else { 0 };
    if number.checked_add(u64::from(blocks)).is_none() {
        return Err(14);
    }
    let mut messages = Vec::new();
    let mut at = HEADER;
    for _ in 0..blocks {
        let message = block(datagram, at).ok_or(15u32)?;
        at = message.end();
        messages.push(message);
    }
    if at < datagram.len() {
        return Err(16);
    }
    Ok(Datagram {
        session,
        kind,
        number,
        messages,
    })
}

pub fn kind_of(count: u16) -> Kind {
    match count {
        0 => Kind::Heartbeat,
        END => Kind::EndOfSession,
        _ => Kind::Data,
    }
}

/// The three fields of the first 20 bytes, of a datagram or of a request.
pub fn header(bytes: &[u8]) -> (Name, u64, u16) {
    let session = bytes[..10].try_into().expect("ten bytes");
    let number = u64::from_be_bytes(bytes[10..18].try_into().expect("eight bytes"));
    let count = u16::from_be_bytes([bytes[18], bytes[19]]);
    (session, number, count)
}

/// The block that begins at `at`, if its length bytes and all its data bytes are there.
pub fn block(datagram: &[u8], at: usize) -> Option<Message> {
    let rest = datagram.get(at..)?;
    let length = u16::from_be_bytes([*rest.first()?, *rest.get(1)?]);
    let length = usize::from(length);
    let offset = at + 2;
    (rest.len() - 2 >= length).then_some(Message { offset, length })
}

/// One message by its place from 0; in a refused datagram there is none.
pub fn locate(datagram: &[u8], place: usize) -> Option<Message> {
    read(datagram).ok()?.messages.get(place).copied()
}

/// Writes messages from their lengths and their joined bytes; no lengths make a heartbeat.
pub fn write_data(
    session: &Name,
    first: u64,
    lengths: &[u16],
    data: &[u8],
) -> Result<Vec<u8>, Refusal> {
    if lengths.len() > MOST_MESSAGES {
        return Err(42);
    }
    let sum: usize = lengths.iter().map(|&length| usize::from(length)).sum();
    if sum != data.len() {
        return Err(44);
    }
    if first == 0 {
        return Err(13);
    }
    if first.checked_add(lengths.len() as u64).is_none() {
        return Err(14);
    }
    if HEADER + 2 * lengths.len() + data.len() > LARGEST {
        return Err(12);
    }
    let mut out = write_header(session, first, lengths.len() as u16);
    let mut rest = data;
    for &length in lengths {
        let (message, behind) = rest.split_at(usize::from(length));
        out.extend_from_slice(&length.to_be_bytes());
        out.extend_from_slice(message);
        rest = behind;
    }
    Ok(out)
}

pub fn write_heartbeat(session: &Name, next: u64) -> Result<Vec<u8>, Refusal> {
    if next == 0 {
        return Err(13);
    }
    Ok(write_header(session, next, 0))
}

pub fn write_end(session: &Name, next: u64) -> Result<Vec<u8>, Refusal> {
    if next == 0 {
        return Err(13);
    }
    Ok(write_header(session, next, END))
}

fn write_header(session: &Name, number: u64, count: u16) -> Vec<u8> {
    let mut out = session.to_vec();
    out.extend_from_slice(&number.to_be_bytes());
    out.extend_from_slice(&count.to_be_bytes());
    out
}

pub fn read_request(request: &[u8]) -> Result<Request, Refusal> {
    if request.len() != HEADER {
        return Err(47);
    }
    let (session, first, count) = header(request);
    check_request(first, count)?;
    Ok(Request {
        session,
        first,
        count,
    })
}

pub fn write_request(session: &Name, first: u64, count: u16) -> Result<Vec<u8>, Refusal> {
    check_request(first, count)?;
    Ok(write_header(session, first, count))
}

fn check_request(first: u64, count: u16) -> Result<(), Refusal> {
    if first == 0 {
        return Err(13);
    }
    if count == 0 || count == END {
        return Err(48);
    }
    Ok(())
}
