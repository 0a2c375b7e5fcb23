//! What comes for one end of a SoupBinTCP session, generated from a seed: the library and the
//! yardstick are both fed it.

mod accounts;
mod packets;

use crate::mold::Session;
use crate::soup::login::{Account, MOST_ACCOUNTS};
use crate::soup::BLANK;
use crate::SESSION;
use differential::random::Random;
use packets::{accepted, any_payload, login, packet, stream};

/// What an end is started with, and then the buffers whose packets it takes.
pub struct Talk {
    pub session: Session,
    /// The number that a client asks for, or a server's last one.
    pub number: u64,
    /// The accounts of a server, and the same as the library is lent them.
    pub accounts: Vec<Account>,
    pub table: Vec<u8>,
    pub streams: Vec<Vec<u8>>,
}

impl Talk {
    /// The last stream: of a talk to be timed, all but its login.
    pub fn messages(&self) -> &[u8] {
        self.streams.last().map_or(&[], Vec::as_slice)
    }

    fn with_client(session: &Session, number: u64, streams: Vec<Vec<u8>>) -> Talk {
        Talk::with_server(session, number, vec![], streams)
    }

    fn with_server(
        session: &Session,
        number: u64,
        accounts: Vec<Account>,
        streams: Vec<Vec<u8>>,
    ) -> Talk {
        let records = accounts.iter();
        let records = records.map(|account| [&account.username[..], &account.password].concat());
        Talk {
            session: *session,
            number,
            table: records.collect::<Vec<_>>().concat(),
            accounts,
            streams,
        }
    }
}

const SESSIONS: [&Session; 4] = [SESSION, SESSION, b"  ROOM0001", BLANK];
const BAD_SESSION: &Session = b"ROOM0001  ";

/// Packets in a talk with an end, whatever they bring.
const PACKETS: usize = 12;

/// A session that a start takes, or now and then one that it doesn't.
fn any_session(random: &mut Random) -> Session {
    match random.below(40) {
        0 => *BAD_SESSION,
        _ => *random.pick(&SESSIONS),
    }
}

/// A client, and what may come from a server: mostly what the client takes.
pub fn any_client(random: &mut Random) -> Talk {
    let (session, number) = (any_session(random), random.pick(&[0, 1, 77, u64::MAX]));
    let streams = (0..PACKETS).map(|_| {
        let packet = from_server(random, &session, number);
        stream(random, packet)
    });
    let streams = streams.collect();
    Talk::with_client(&session, number, streams)
}

fn from_server(random: &mut Random, session: &Session, number: u64) -> Vec<u8> {
    match random.pick(b"AAAJSSSSSHH++Z") {
        b'A' => {
            let number = u128::from(number);
            let session = random.pick(&[session, session, SESSION]);
            let number = random.pick(&[number, number, 1, u64::MAX.into(), 1 << 64]);
            accepted(session, number)
        }
        b'J' => packet(b'J', &[random.pick(b"AASSB")]),
        letter @ (b'H' | b'Z') => packet(letter, &[]),
        letter => packet(letter, &any_payload(random)),
    }
}

/// A server, and what may come from a client: mostly what the server takes.
pub fn any_server(random: &mut Random) -> Talk {
    let session = any_session(random);
    let number = random.pick(&[0, 5, 77, u64::MAX - 2, u64::MAX - 1, u64::MAX]);
    let accounts = accounts::any_table(random);
    let streams = (0..PACKETS).map(|_| {
        let packet = from_client(random, &session, number, &accounts);
        stream(random, packet)
    });
    let streams = streams.collect();
    Talk::with_server(&session, number, accounts, streams)
}

fn from_client(random: &mut Random, session: &Session, last: u64, accounts: &[Account]) -> Vec<u8> {
    match random.pick(b"LLLLUUURR++O") {
        b'L' => {
            let last = u128::from(last);
            let entry = accounts::any_entry(random, accounts);
            let session = random.pick(&[session, session, BLANK, SESSION]);
            let number = random.pick(&[0, 1, last, last + 1, last + 2]);
            login(&entry, session, number)
        }
        letter @ (b'R' | b'O') => packet(letter, &[]),
        letter => packet(letter, &any_payload(random)),
    }
}

/// So many packets of a letter, with payloads of 30 bytes.
fn messages(random: &mut Random, letter: u8, count: usize) -> Vec<u8> {
    let packets = (0..count).map(|_| packet(letter, &random.bytes(30)));
    packets.collect::<Vec<_>>().concat()
}

/// A client that is let in, and messages for it.
pub fn sequenced(seed: u64, count: usize) -> Talk {
    let random = &mut Random::new(seed, 0);
    let streams = vec![accepted(SESSION, 1), messages(random, b'S', count)];
    Talk::with_client(SESSION, 1, streams)
}

/// A server with as many accounts as there may be, a client that it lets in, and messages from it.
pub fn unsequenced(seed: u64, count: usize) -> Talk {
    let mut talk = login_of_the_last();
    let random = &mut Random::new(seed, 0);
    talk.streams.push(messages(random, b'U', count));
    talk
}

/// A server with as many accounts as there may be, and a login by the last one.
pub fn login_of_the_last() -> Talk {
    let accounts = accounts::numbered(MOST_ACCOUNTS);
    login_by(accounts[MOST_ACCOUNTS - 1], accounts)
}

/// The same, and a login by somebody who has no account.
pub fn login_of_nobody() -> Talk {
    let nobody = accounts::account("nobody", "secret1023");
    login_by(nobody, accounts::numbered(MOST_ACCOUNTS))
}

fn login_by(entry: Account, accounts: Vec<Account>) -> Talk {
    let streams = vec![login(&entry, SESSION, 0)];
    Talk::with_server(SESSION, 5, accounts, streams)
}
