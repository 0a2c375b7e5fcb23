//! What was read is written again, by the library both times: the same bytes come out, but for document 01's two exceptions.

use super::lend;
use crate::call::{hex, Call};
use crate::random::Random;
use crate::reference::{mold, soup};
use crate::run::Run;

/// A datagram, if it is read: from its parts, the same datagram.
pub fn datagram(run: &mut Run, random: &mut Random, bytes: &[u8]) {
    let call = Call::MoldRead { datagram: bytes };
    let (code, lent) = lend::chained(run, random, &call, &mut vec![]);
    if code != 0 {
        return;
    }
    let (session, next) = (&bytes[..10], lent.words[1]);
    let (lengths, joined) = parts(bytes);
    let (call, name) = match lent.words[0] {
        1 => {
            let call = Call::MoldWriteData {
                session,
                first: next,
                lengths: &lengths,
                data: &joined,
            };
            (call, "data")
        }
        2 => (Call::MoldWriteHeartbeat { session, next }, "heartbeat"),
        _ => (Call::MoldWriteEnd { session, next }, "end of session"),
    };
    write(run, random, &call, name, &Ok(bytes.to_vec()));
}

/// The lengths of a datagram's messages, and their joined bytes.
fn parts(datagram: &[u8]) -> (Vec<u16>, Vec<u8>) {
    let read = mold::read(datagram).expect("it was read");
    let messages = read.messages.iter();
    let lengths = messages.clone().map(|message| message.length as u16);
    let joined = messages.flat_map(|message| &datagram[message.offset..message.end()]);
    (lengths.collect(), joined.copied().collect())
}

/// A request, if it is read.
pub fn request(run: &mut Run, random: &mut Random, bytes: &[u8]) {
    let call = Call::MoldReadRequest { request: bytes };
    let (code, lent) = lend::chained(run, random, &call, &mut vec![]);
    if code != 0 {
        return;
    }
    let call = Call::MoldWriteRequest {
        session: &bytes[..10],
        first: lent.words[0],
        count: lent.words[1] as u16,
    };
    write(run, random, &call, "request", &Ok(bytes.to_vec()));
}

/// The packet at the front of a stream, if one is read there.
pub fn packet(run: &mut Run, random: &mut Random, stream: &[u8], sender: u8) {
    let call = Call::SoupRead { stream, sender };
    let (code, lent) = lend::chained(run, random, &call, &mut vec![]);
    if code != 0 || lent.words[0] == 0 {
        return;
    }
    let (letter, value) = (lent.words[0] as u8, lent.words[2]);
    let packet = &stream[..lent.words[1] as usize];
    let back = soup::written_back(packet);
    let name = name(letter, sender, packet, &back);
    write(run, random, &writer(letter, packet, value), name, &back);
}

/// The call that writes a packet of this letter, with what was read in it.
fn writer(letter: u8, packet: &[u8], value: u64) -> Call<'_> {
    let payload = &packet[soup::PAYLOAD..];
    match letter {
        b'+' => Call::SoupWriteDebug { payload },
        b'A' => Call::SoupWriteAccepted {
            session: &payload[..10],
            number: value,
        },
        b'J' => Call::SoupWriteRejected {
            reason: value as u8,
        },
        b'S' => Call::SoupWriteSequenced { payload },
        b'H' => Call::SoupWriteServerHeartbeat,
        b'Z' => Call::SoupWriteEnd,
        b'L' => Call::SoupWriteLogin {
            username: &payload[..6],
            password: &payload[6..16],
            session: &payload[16..26],
            number: value,
        },
        b'U' => Call::SoupWriteUnsequenced { payload },
        b'R' => Call::SoupWriteClientHeartbeat,
        _ => Call::SoupWriteLogout,
    }
}

fn name(letter: u8, sender: u8, came: &[u8], back: &Result<Vec<u8>, u32>) -> &'static str {
    let as_it_came = back.as_deref() == Ok(came);
    match letter {
        b'+' if sender == 0 => "+ of the server",
        b'+' => "+ of the client",
        b'A' if as_it_came => "A",
        b'A' => "A, leading zeros",
        b'J' => "J",
        b'S' => "S",
        b'H' => "H",
        b'Z' => "Z",
        b'L' if as_it_came => "L",
        b'L' if back.is_ok() => "L, leading zeros",
        b'L' => "L, unsound",
        b'U' => "U",
        b'R' => "R",
        _ => "O",
    }
}

/// Writes, and compares what comes out with what has to.
fn write(
    run: &mut Run,
    random: &mut Random,
    call: &Call,
    name: &'static str,
    back: &Result<Vec<u8>, u32>,
) {
    let (code, lent) = lend::chained(run, random, call, &mut vec![]);
    let written = match code {
        0 => Ok(&lent.out[..lent.words[0] as usize]),
        refused => Err(refused),
    };
    if written != back.as_deref().map_err(|refused| *refused) {
        let written = written.map(hex);
        run.fail(&format!("{name} is written back as {written:?}: {call}"));
    }
    run.note("write_back", name);
}
