//! The MoldUDP64 functions, but for the receiver's.

use super::{name, Expected};
use crate::call::Call;
use crate::layout::{self, Cursor};
use crate::reference::mold::{self, Kind, Message};

pub fn answer(call: &Call, state: &[u8]) -> Option<Expected> {
    Some(match *call {
        Call::MoldRead { datagram } => read(datagram),
        Call::MoldLocate { datagram, place } => locate(datagram, place),
        Call::MoldWalk { datagram } => walk(datagram),
        Call::MoldNext { datagram } => next(layout::cursor(state), datagram),
        Call::MoldWriteData {
            session,
            first,
            lengths,
            data,
        } => {
            let mut written =
                Expected::writer(mold::write_data(&name(session), first, lengths, data));
            if written.code == 0 && lengths.is_empty() {
                written.outcome = "heartbeat";
            }
            written
        }
        Call::MoldWriteHeartbeat { session, next } => {
            Expected::writer(mold::write_heartbeat(&name(session), next))
        }
        Call::MoldWriteEnd { session, next } => {
            Expected::writer(mold::write_end(&name(session), next))
        }
        Call::MoldReadRequest { request } => read_request(request),
        Call::MoldWriteRequest {
            session,
            first,
            count,
        } => Expected::writer(mold::write_request(&name(session), first, count)),
        _ => return None,
    })
}

fn read(datagram: &[u8]) -> Expected {
    let datagram = match mold::read(datagram) {
        Ok(datagram) => datagram,
        Err(refusal) => return Expected::refusal(refusal),
    };
    let (outcome, kind) = match datagram.kind {
        Kind::Data => ("data", 1),
        Kind::Heartbeat => ("heartbeat", 2),
        Kind::EndOfSession => ("end of session", 3),
    };
    let count = datagram.messages.len() as u64;
    Expected::answer(outcome).words(&[kind, datagram.number, count])
}

fn read_request(request: &[u8]) -> Expected {
    match mold::read_request(request) {
        Ok(request) => {
            Expected::answer("request").words(&[request.first, u64::from(request.count)])
        }
        Err(refusal) => Expected::refusal(refusal),
    }
}

/// Whether a message is there, its offset and its length; `missing` names the case where it isn't.
fn message(message: Option<Message>, missing: &'static str) -> Expected {
    match message {
        Some(Message { offset, length }) => {
            let outcome = if length == 0 {
                "empty message"
            } else {
                "message"
            };
            Expected::answer(outcome).words(&[1, offset as u64, length as u64])
        }
        None => Expected::answer(missing).words(&[0, 0, 0]),
    }
}

fn locate(datagram: &[u8], place: u16) -> Expected {
    let missing = match mold::read(datagram) {
        Ok(_) => "no such place",
        Err(_) => "none, refused",
    };
    message(mold::locate(datagram, usize::from(place)), missing)
}

fn walk(datagram: &[u8]) -> Expected {
    let (outcome, cursor) = match mold::read(datagram) {
        Ok(read) if read.messages.is_empty() => ("none", Cursor::first(0)),
        Ok(read) => ("messages", Cursor::first(read.messages.len())),
        Err(_) => ("none, refused", Cursor::first(0)),
    };
    Expected::answer(outcome).state(layout::cursor_bytes(cursor))
}

/// Where no message is there no byte of the cursor changes, whatever it was made of.
fn next(cursor: Option<Cursor>, datagram: &[u8]) -> Expected {
    let Some(cursor) = cursor else {
        return message(None, "none, not open");
    };
    if cursor.left == 0 {
        return message(None, "none left");
    }
    let Some(block) = block(datagram, cursor.place) else {
        return message(None, "none, cursor of another datagram");
    };
    let moved = Cursor {
        place: block.end() as u64,
        left: cursor.left - 1,
    };
    message(Some(block), "").state(layout::cursor_bytes(moved))
}

/// A place past all memory is past the end of the datagram too.
fn block(datagram: &[u8], place: u64) -> Option<Message> {
    mold::block(datagram, usize::try_from(place).ok()?)
}
