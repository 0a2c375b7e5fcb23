//! Single calls of the SoupBinTCP packets' functions.

use super::{accounts, bytes, lend, soup, write_back};
use crate::call::Call;
use crate::random::Random;
use crate::run::Run;

/// 0 is the server, every other number the client.
fn sender(random: &mut Random, client: bool) -> u8 {
    if client {
        random.pick(&[1, 1, 1, 2, 128, 255])
    } else {
        0
    }
}

pub fn read(run: &mut Run, random: &mut Random) {
    let client = random.one_in(2);
    for _ in 0..4 {
        let stream = soup::any_stream(random, client);
        let sender = sender(random, client);
        let call = Call::SoupRead {
            stream: &stream,
            sender,
        };
        lend::single(run, random, &call, None);
        write_back::packet(run, random, &stream, sender);
    }
    grow(run, random, client);
    for _ in 0..2 {
        let stream = soup::many(random, client);
        let call = Call::SoupScan {
            stream: &stream,
            sender: sender(random, client),
        };
        lend::single(run, random, &call, None);
    }
}

/// A stream that grows: what was once answered or refused stays so.
fn grow(run: &mut Run, random: &mut Random, client: bool) {
    let mut stream = soup::any_stream(random, client);
    stream.extend(random.bytes(3));
    let sender = sender(random, client);
    let mut answered = None;
    let mut size = random.below(4);
    while size <= stream.len() {
        let call = Call::SoupRead {
            stream: &stream[..size],
            sender,
        };
        let (code, lent) = lend::chained(run, random, &call, &mut vec![]);
        // Of a refusal the words are what they were before, random ones.
        let answer = (code, (code == 0).then(|| lent.words[..3].to_vec()));
        let needs_more = code == 0 && lent.words[0] == 0;
        if answered.as_ref().is_some_and(|before| *before != answer) {
            run.fail("bytes appended later changed a packet or a refusal already given");
        }
        if !needs_more {
            answered = Some(answer);
        }
        size += random.between(1, stream.len() / 3 + 1);
    }
}

/// The writers; what is written is read back.
pub fn write(run: &mut Run, random: &mut Random) {
    let payload = soup::payload(random);
    let payload = payload.as_slice();
    write_and_read(run, random, &Call::SoupWriteDebug { payload }, 0);
    write_and_read(run, random, &Call::SoupWriteSequenced { payload }, 0);
    write_and_read(run, random, &Call::SoupWriteUnsequenced { payload }, 1);
    write_and_read(run, random, &Call::SoupWriteServerHeartbeat, 0);
    write_and_read(run, random, &Call::SoupWriteEnd, 0);
    write_and_read(run, random, &Call::SoupWriteClientHeartbeat, 1);
    write_and_read(run, random, &Call::SoupWriteLogout, 1);
    let any = random.byte();
    let reason = random.pick(&[b'A', b'S', b'a', b'B', 0, any]);
    write_and_read(run, random, &Call::SoupWriteRejected { reason }, 0);
    accepted(run, random);
    login(run, random);
}

fn accepted(run: &mut Run, random: &mut Random) {
    let session = soup::session(random);
    let session = bytes::lent_name(random, &session);
    let call = Call::SoupWriteAccepted {
        session: &session,
        number: bytes::number(random),
    };
    write_and_read(run, random, &call, 0);
}

fn login(run: &mut Run, random: &mut Random) {
    let username = accounts::username(random);
    let password = accounts::password(random);
    let session = soup::session(random);
    let call = Call::SoupWriteLogin {
        username: &bytes::lent_name(random, &username),
        password: &bytes::lent_name(random, &password),
        session: &bytes::lent_name(random, &session),
        number: bytes::number(random),
    };
    write_and_read(run, random, &call, 1);
}

fn write_and_read(run: &mut Run, random: &mut Random, call: &Call, sender: u8) {
    let mut lent = lend::any(random, call, None);
    if run.check(call, &mut lent) != 0 || random.one_in(2) {
        return;
    }
    let stream = &lent.out[..lent.words[0] as usize];
    lend::single(run, random, &Call::SoupRead { stream, sender }, None);
}
