//! MoldUDP64 datagrams, read in ordinary Rust: the header, and the walk over the blocks.

pub type Session = [u8; 10];

/// No session's name: a login under it takes any, and a receiver that is started on it has to learn one.
pub const BLANK: &Session = b"          ";

pub const HEADER: usize = 20;
pub const LARGEST: usize = 65_507;

/// The count that marks an end of session.
pub const END: u16 = 65_535;

/// Why a start or a datagram is refused, by document 01's numbers.
#[derive(Clone, Copy, Debug, PartialEq, Eq)]
pub enum Refusal {
    DatagramShort = 11,
    DatagramLong = 12,
    NumberZero = 13,
    NumbersRunOut = 14,
    BlockPastEnd = 15,
    BytesAfterBlocks = 16,
    SessionDiffers = 17,
    SessionEnded = 18,
    BadSetting = 19,
    EndBelowExpected = 20,
    OutputShort = 41,
}

#[derive(Clone, Copy, Debug, PartialEq, Eq)]
pub enum Kind {
    Data { count: u16 },
    Heartbeat,
    EndOfSession,
}

/// A datagram that is exactly its header and its blocks.
#[derive(Clone, Copy, Debug, PartialEq, Eq)]
pub struct Datagram<'a> {
    pub session: &'a Session,
    pub number: u64,
    pub kind: Kind,
}

impl<'a> Datagram<'a> {
    #[inline]
    pub fn read(bytes: &'a [u8]) -> Result<Self, Refusal> {
        let (header, blocks) = bytes
            .split_first_chunk::<HEADER>()
            .ok_or(Refusal::DatagramShort)?;
        if bytes.len() > LARGEST {
            return Err(Refusal::DatagramLong);
        }
        let number = u64::from_be_bytes(header[10..18].try_into().unwrap());
        if number == 0 {
            return Err(Refusal::NumberZero);
        }
        let (kind, count) = match u16::from_be_bytes([header[18], header[19]]) {
            0 => (Kind::Heartbeat, 0),
            END => (Kind::EndOfSession, 0),
            count => (Kind::Data { count }, count),
        };
        if number.checked_add(count.into()).is_none() {
            return Err(Refusal::NumbersRunOut);
        }
        check_blocks(blocks, count)?;
        Ok(Datagram {
            session: header[..10].try_into().unwrap(),
            number,
            kind,
        })
    }
}

#[inline]
fn check_blocks(mut rest: &[u8], count: u16) -> Result<(), Refusal> {
    for _ in 0..count {
        (_, rest) = split_block(rest).ok_or(Refusal::BlockPastEnd)?;
    }
    if rest.is_empty() {
        Ok(())
    } else {
        Err(Refusal::BytesAfterBlocks)
    }
}

/// The first block's data, and what is left behind it. A capture's record has the same form.
#[inline]
pub fn split_block(bytes: &[u8]) -> Option<(&[u8], &[u8])> {
    let (length, rest) = bytes.split_first_chunk()?;
    rest.split_at_checked(u16::from_be_bytes(*length).into())
}

/// Where a message stands in its datagram.
#[derive(Clone, Copy, Debug, Default, PartialEq, Eq)]
pub struct Place {
    pub offset: usize,
    pub length: usize,
}

/// No datagram has more messages: each has at least its length.
pub const MOST_MESSAGES: usize = (LARGEST - HEADER) / 2;

/// Messages of a datagram, each a part of it.
#[derive(Clone, Debug)]
pub struct Messages<'a> {
    rest: &'a [u8],
    left: u16,
}

impl<'a> Messages<'a> {
    /// So many messages of a datagram that was read, behind so many that are skipped.
    #[inline]
    pub fn new(datagram: &'a [u8], count: u16, skipped: u16) -> Self {
        let mut rest = &datagram[HEADER..];
        for _ in 0..skipped {
            rest = split_block(rest).map_or(&[], |(_, behind)| behind);
        }
        Messages { rest, left: count }
    }

    /// The places of the messages in the datagram, which is the one that they are of.
    #[inline]
    pub fn places(self, datagram: &[u8]) -> impl Iterator<Item = Place> + 'a {
        let mut end = datagram.len() - self.rest.len();
        self.map(move |message| {
            let (offset, length) = (end + 2, message.len());
            end = offset + length;
            Place { offset, length }
        })
    }
}

impl<'a> Iterator for Messages<'a> {
    type Item = &'a [u8];

    #[inline]
    fn next(&mut self) -> Option<&'a [u8]> {
        if self.left == 0 {
            return None;
        }
        let (message, rest) = split_block(self.rest)?;
        self.rest = rest;
        self.left -= 1;
        Some(message)
    }
}
