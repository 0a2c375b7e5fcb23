//! `eiderwagon::soup`.

use super::{front, numbered, same, same_bytes};
use crate::call::Call;
use crate::compare::soup::who;
use crate::compare::Expected;
use crate::reference::soup as reference;
use eiderwagon::soup::{self, Front, Login, Packet, Reason, Sender, Stop};

pub fn difference(call: &Call, expected: &Expected, out: &mut [u8]) -> Option<String> {
    let packet = match *call {
        Call::SoupRead { stream, sender } => return read(stream, who(sender)),
        Call::SoupScan { stream, sender } => return scan(stream, who(sender)),
        Call::SoupWriteDebug { payload } => Packet::Debug(payload),
        Call::SoupWriteAccepted { session, number } => Packet::LoginAccepted {
            session: front(session),
            number,
        },
        // No other reason has a type.
        Call::SoupWriteRejected { reason } => Packet::LoginRejected(self::reason(reason)?),
        Call::SoupWriteSequenced { payload } => Packet::SequencedData(payload),
        Call::SoupWriteServerHeartbeat => Packet::ServerHeartbeat,
        Call::SoupWriteEnd => Packet::EndOfSession,
        Call::SoupWriteLogin {
            username,
            password,
            session,
            number,
        } => Packet::LoginRequest(Login {
            username: front(username),
            password: front(password),
            session: front(session),
            number,
        }),
        Call::SoupWriteUnsequenced { payload } => Packet::UnsequencedData(payload),
        Call::SoupWriteClientHeartbeat => Packet::ClientHeartbeat,
        Call::SoupWriteLogout => Packet::LogoutRequest,
        _ => return None,
    };
    same_bytes(expected, packet.write(out))
}

pub fn reason(letter: u8) -> Option<Reason> {
    match letter {
        b'A' => Some(Reason::NotAuthorized),
        b'S' => Some(Reason::SessionNotAvailable),
        _ => None,
    }
}

fn sender(sender: reference::Sender) -> Sender {
    match sender {
        reference::Sender::Server => Sender::Server,
        reference::Sender::Client => Sender::Client,
    }
}

fn read(stream: &[u8], from: reference::Sender) -> Option<String> {
    let typed = soup::read(stream, sender(from));
    let wanted = reference::read(stream, from);
    let back = match &typed {
        Ok(Front::Packet { packet, size }) => write_back(packet, &stream[..*size]),
        _ => None,
    };
    same("front", numbered(typed.map(as_reference)), wanted).or(back)
}

/// The reference's packets compare, and the wrapper's don't; of a payload its length is kept.
fn as_reference(front: Front) -> reference::Front {
    match front {
        Front::NeedMore => reference::Front::NeedMore,
        Front::Packet { packet, size } => reference::Front::Packet {
            packet: packet_as_reference(packet),
            size,
        },
    }
}

fn packet_as_reference(packet: Packet) -> reference::Packet {
    let length = |payload: &[u8]| payload.len();
    match packet {
        Packet::Debug(text) => reference::Packet::Debug {
            length: length(text),
        },
        Packet::LoginAccepted { session, number } => {
            reference::Packet::Accepted { session, number }
        }
        Packet::LoginRejected(reason) => reference::Packet::Rejected {
            reason: reason as u8,
        },
        Packet::SequencedData(message) => reference::Packet::Sequenced {
            length: length(message),
        },
        Packet::ServerHeartbeat => reference::Packet::ServerHeartbeat,
        Packet::EndOfSession => reference::Packet::End,
        Packet::LoginRequest(login) => reference::Packet::Login(reference::Login {
            username: login.username,
            password: login.password,
            session: login.session,
            number: login.number,
        }),
        Packet::UnsequencedData(message) => reference::Packet::Unsequenced {
            length: length(message),
        },
        Packet::ClientHeartbeat => reference::Packet::ClientHeartbeat,
        Packet::LogoutRequest => reference::Packet::Logout,
    }
}

/// A packet that was read is written as it came, with document 01's two exceptions. Its payload is compared so, too.
fn write_back(packet: &Packet, came: &[u8]) -> Option<String> {
    let mut out = [0; 4_099];
    let written = numbered(packet.write(&mut out).map(<[u8]>::to_vec));
    same("write-back", written, reference::written_back(came))
}

fn scan(stream: &[u8], from: reference::Sender) -> Option<String> {
    let scan = soup::scan(stream, sender(from));
    let stopped_by = match scan.stop {
        Stop::NeedMore => None,
        Stop::Refused(refusal) => Some(refusal.number()),
    };
    let typed = reference::Scan {
        packets: scan.packets,
        bytes: scan.bytes,
        stopped_by,
    };
    same("scan", typed, reference::scan(stream, from))
}
