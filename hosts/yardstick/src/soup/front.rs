//! The packet at the front of a stream.

use super::{Front, Refusal};

/// The largest length: a letter, and 4,096 bytes of payload.
pub const LARGEST: u16 = 4_097;

/// A packet of one end.
pub trait Packet<'a>: Sized {
    /// What the length of a letter's packets has to be; none for a letter that it never sends.
    fn length(letter: u8) -> Option<Length>;

    /// A packet of a letter that this end sends, whose length is good; none where a field is bad.
    fn read(letter: u8, payload: &'a [u8]) -> Option<Self>;
}

#[derive(Clone, Copy, Debug, PartialEq, Eq)]
pub enum Length {
    Any,
    Exactly(u16),
}

#[inline]
pub fn read<'a, P: Packet<'a>>(stream: &'a [u8]) -> Result<Front<P>, Refusal> {
    let Some((&length, rest)) = stream.split_first_chunk() else {
        return Ok(None);
    };
    let length = u16::from_be_bytes(length);
    if length == 0 {
        return Err(Refusal::LengthZero);
    }
    if length > LARGEST {
        return Err(Refusal::PayloadLong);
    }
    let Some(&letter) = rest.first() else {
        return Ok(None);
    };
    match P::length(letter) {
        None => return Err(Refusal::LetterNotSent),
        Some(Length::Exactly(exact)) if exact != length => return Err(Refusal::LengthWrong),
        Some(_) => {}
    }
    let Some(payload) = rest.get(1..length.into()) else {
        return Ok(None);
    };
    let packet = P::read(letter, payload).ok_or(Refusal::FieldBad)?;
    Ok(Some((packet, usize::from(length) + 2)))
}
