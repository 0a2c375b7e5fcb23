//! The SoupBinTCP packets' functions.

use super::{fixed, name, Expected};
use crate::call::Call;
use crate::reference::soup::{self, Front, Login, Packet, Sender};
use crate::reference::text;

pub fn answer(call: &Call) -> Option<Expected> {
    Some(match *call {
        Call::SoupRead { stream, sender } => read(stream, who(sender)),
        Call::SoupScan { stream, sender } => scan(stream, who(sender)),
        Call::SoupWriteDebug { payload } => Expected::writer(soup::write_message(b'+', payload)),
        Call::SoupWriteSequenced { payload } => {
            Expected::writer(soup::write_message(b'S', payload))
        }
        Call::SoupWriteUnsequenced { payload } => {
            Expected::writer(soup::write_message(b'U', payload))
        }
        Call::SoupWriteServerHeartbeat => Expected::written(soup::write_bare(b'H')),
        Call::SoupWriteEnd => Expected::written(soup::write_bare(b'Z')),
        Call::SoupWriteClientHeartbeat => Expected::written(soup::write_bare(b'R')),
        Call::SoupWriteLogout => Expected::written(soup::write_bare(b'O')),
        Call::SoupWriteAccepted { session, number } => {
            Expected::writer(soup::write_accepted(&name(session), number))
        }
        Call::SoupWriteRejected { reason } => Expected::writer(soup::write_rejected(reason)),
        Call::SoupWriteLogin {
            username,
            password,
            session,
            number,
        } => Expected::writer(soup::write_login(&Login {
            username: fixed(username),
            password: fixed(password),
            session: name(session),
            number,
        })),
        _ => return None,
    })
}

/// 0 is the server, every other number the client.
pub fn who(sender: u8) -> Sender {
    if sender == 0 {
        Sender::Server
    } else {
        Sender::Client
    }
}

fn read(stream: &[u8], sender: Sender) -> Expected {
    match soup::read(stream, sender) {
        Err(25) => {
            let mut refusal = Expected::refusal(25);
            refusal.outcome = bad_field(stream);
            refusal
        }
        Err(refusal) => Expected::refusal(refusal),
        Ok(Front::NeedMore) => Expected::answer("need more").words(&[0, 0, 0]),
        Ok(Front::Packet { packet, size }) => {
            let value = match &packet {
                Packet::Accepted { number, .. } => *number,
                Packet::Login(login) => login.number,
                Packet::Rejected { reason } => u64::from(*reason),
                _ => 0,
            };
            let letter = u64::from(packet.letter());
            Expected::answer(packet_name(&packet, sender)).words(&[letter, size as u64, value])
        }
    }
}

/// Which fields of the packet in front are bad, where it is refused with 25: each is to be drawn as the only bad one.
pub fn bad_field(stream: &[u8]) -> &'static str {
    let (session, number) = match stream[2] {
        b'J' => return "25 in J, reason",
        b'A' => (
            text::is_session(&stream[3..13]),
            text::number(&stream[13..33]),
        ),
        _ => (
            text::is_session_or_blank(&stream[19..29]),
            text::number(&stream[29..49]),
        ),
    };
    match (stream[2], session, number) {
        (b'A', true, None) => "25 in A, number",
        (b'A', true, Some(_)) => "25 in A, number 0",
        (b'A', false, Some(1..)) => "25 in A, session",
        (b'A', false, _) => "25 in A, session and number",
        (_, true, _) => "25 in L, number",
        (_, false, Some(_)) => "25 in L, session",
        (_, false, None) => "25 in L, session and number",
    }
}

/// The same for a scan, whatever the letter.
fn stopped_by_field(stream: &[u8]) -> &'static str {
    let field = bad_field(stream);
    if field.ends_with("reason") {
        "stopped by 25, reason"
    } else if field.ends_with(", session") {
        "stopped by 25, session"
    } else if field.ends_with("and number") {
        "stopped by 25, session and number"
    } else {
        "stopped by 25, number"
    }
}

fn packet_name(packet: &Packet, sender: Sender) -> &'static str {
    match packet {
        Packet::Debug { .. } if sender == Sender::Server => "+ of the server",
        Packet::Debug { .. } => "+ of the client",
        Packet::Accepted { .. } => "A",
        Packet::Rejected { reason: b'A' } => "J with A",
        Packet::Rejected { .. } => "J with S",
        Packet::Sequenced { .. } => "S",
        Packet::ServerHeartbeat => "H",
        Packet::End => "Z",
        Packet::Login(login) if login.number == 0 => "L for 0",
        Packet::Login(_) => "L",
        Packet::Unsequenced { .. } => "U",
        Packet::ClientHeartbeat => "R",
        Packet::Logout => "O",
    }
}

fn scan(stream: &[u8], sender: Sender) -> Expected {
    let scan = soup::scan(stream, sender);
    let outcome = match scan.stopped_by {
        None if scan.bytes == stream.len() => "stopped at the end",
        None => "stopped at a short packet",
        Some(21) => "stopped by 21",
        Some(22) => "stopped by 22",
        Some(23) => "stopped by 23",
        Some(24) => "stopped by 24",
        Some(_) => stopped_by_field(&stream[scan.bytes..]),
    };
    let stopped_by = u64::from(scan.stopped_by.unwrap_or(0));
    Expected::answer(outcome).words(&[scan.packets, scan.bytes as u64, stopped_by])
}
