//! States at the boundary: each kind is open by its own code alone; the order in which 41 is given; the reply and the
//! last number.

use crate::login::{login, server, BLANK};
use crate::{accepted, ask, ask_with, data, end, heartbeat, lent, packet, words, NAME};
use differential::call::{Call, Lent};
use differential::compare::fixed_sizes;

const ACCOUNTS: &[u8] = b"alice secret    ";

/// An open state of each kind, with bytes behind it, so that it has room for every other one.
fn open_states() -> Vec<(&'static str, Vec<u8>)> {
    let datagram = &data(1, &[b"a", b"b"]);
    let room = &[0; 220];
    let receiver = Call::ReceiverStart {
        session: NAME,
        next: 1,
        limit: 9,
    };
    let early = Call::EarlyStart {
        session: NAME,
        next: 1,
        limit: 9,
    };
    let client = Call::ClientStart {
        session: NAME,
        number: 1,
    };
    let server = Call::ServerStart {
        session: NAME,
        last: 5,
    };
    let reading = ask(&Call::CaptureStart, room).state;
    let bytes = &[&b"session=READROOM01\nnext=1\nlimit=9\n"[..], &[0; 60]].concat();
    let reading = ask(&Call::CaptureFeed { bytes }, &reading).state;
    let missing = ask(&Call::MissingStart, room).state;
    let missing = ask(&Call::MissingFeed { bytes }, &missing).state;
    vec![
        ("cursor", ask(&Call::MoldWalk { datagram }, room).state),
        ("receiver", ask(&receiver, room).state),
        ("server", ask(&server, room).state),
        ("client", ask(&client, room).state),
        ("early", ask(&early, room).state),
        ("missing", missing),
        ("capture", reading),
    ]
}

/// The code with which an open state of a kind takes what it can, and another one doesn't.
fn answers(state: &[u8]) -> [(&'static str, bool); 7] {
    let datagram = &data(1, &[b"a", b"b"]);
    let next = ask(&Call::MoldNext { datagram }, state);
    // The bytes of another kind hardly have this name at its place, so that 17 may come before 18.
    let take = ask(&Call::ReceiverTake { datagram }, state);
    let early = ask(&Call::EarlyTake { datagram }, state);
    let stream = &packet(b'+', b"");
    let accounts = ACCOUNTS;
    let step = ask(&Call::ServerStep { accounts, stream }, state);
    let client = ask(&Call::ClientStep { stream }, state);
    let missing = ask(&Call::MissingFeed { bytes: &[0; 60] }, state);
    let feed = ask(&Call::CaptureFeed { bytes: &[0; 60] }, state);
    [
        ("cursor", next.words[0] == 1),
        ("receiver", take.code == 0),
        ("server", step.code == 0),
        ("client", client.code == 0),
        ("early", early.code == 0),
        ("missing", missing.words[1] == 0),
        ("capture", feed.words[1] == 0),
    ]
}

/// The bytes of each kind, lent to every kind's functions: only its own take them for open.
#[test]
fn no_kind_is_open_as_another() {
    for (kind, state) in open_states() {
        for (taker, open) in answers(&state) {
            assert_eq!(
                open,
                taker == kind,
                "a {kind} lent to the functions of a {taker}"
            );
        }
    }
}

/// Nor do other kinds' functions change them, but for those that lay a state whatever was there: a start, a walk, a
/// server's last number, and the feed and the end of a reading, which is over then.
#[test]
fn no_kind_is_changed_as_another() {
    let datagram = &data(1, &[b"a", b"b"]);
    let (accounts, stream) = (ACCOUNTS, &packet(b'+', b"") as &[u8]);
    let calls = [
        ("cursor", Call::MoldNext { datagram }),
        ("receiver", Call::ReceiverTake { datagram }),
        ("receiver", Call::ReceiverDeliver { datagram }),
        ("early", Call::EarlyTake { datagram }),
        ("early", Call::EarlyDeliver { datagram }),
        ("server", Call::ServerStep { accounts, stream }),
        ("server", Call::ServerReply { accounts, stream }),
        ("client", Call::ClientStep { stream }),
        ("missing", Call::MissingCount),
        ("capture", Call::CaptureWrite),
    ];
    for (kind, state) in open_states() {
        for (taker, call) in &calls {
            let changed = ask(call, &state).state != state;
            assert!(!changed || *taker == kind, "a {kind}, lent to {call}");
        }
    }
}

/// Where no message is there no byte of a cursor changes: with none left, at a datagram that lacks some of it, and with
/// every first byte but its code.
#[test]
fn a_cursor_without_a_message_stays() {
    let datagram = &data(1, &[b"a", b"b"]);
    let stays = |datagram: &[u8], cursor: &[u8]| {
        let next = ask(&Call::MoldNext { datagram }, cursor);
        assert_eq!(words(&next), (0, [0, 0, 0]));
        assert_eq!(next.state, cursor);
    };
    let first = ask(&Call::MoldWalk { datagram }, &[7; 12]).state;
    let second = ask(&Call::MoldNext { datagram }, &first).state;
    let behind = ask(&Call::MoldNext { datagram }, &second).state;
    assert_ne!(first, second);
    stays(datagram, &behind);
    for size in [0, 20, 21, 22] {
        stays(&datagram[..size], &first);
    }
    for other in (0..=255).filter(|&code| code != first[0]) {
        stays(datagram, &[&[other], &first[1..]].concat());
    }
    stays(datagram, &[0; 11]);
}

/// Of the first bytes only one is open, and 0 never is.
#[test]
fn one_first_byte_is_open() {
    for (kind, state) in open_states() {
        for first in 0..=255 {
            let mut made = state.clone();
            made[0] = first;
            let open = answers(&made).into_iter().find(|(taker, _)| *taker == kind);
            assert_eq!(open, Some((kind, first == state[0])));
        }
        assert_eq!(answers(&[0; 220]).map(|(_, open)| open), [false; 7]);
    }
}

/// The receiver inside a reading is one by itself.
#[test]
fn a_readings_receiver_can_be_lent() {
    let (_, reading) = open_states().pop().expect("a reading");
    let receiver = &reading[2..159];
    let datagram = &data(1, &[b"a", b"b"]);
    let taken = ask(&Call::EarlyTake { datagram }, receiver);
    assert_eq!(
        (taken.code, taken.words[..4].to_vec()),
        (0, vec![1, 1, 2, 0])
    );
}

/// Buffers of these sizes.
fn lend(words: usize, out: usize, state: &[u8]) -> Lent {
    Lent {
        words: vec![7; words],
        out: vec![7; out],
        ..lent(state)
    }
}

/// The code of a call with a state that lacks a byte, and with a whole one but too few words; neither changes anything.
fn lacking(call: &Call, state: &[u8]) -> (u32, u32) {
    let (words, size) = fixed_sizes(call);
    let code = |lent: Lent| {
        let answer = ask_with(call, lent.clone());
        assert!(answer.code != 0 && answer.state == lent.state && answer.out == lent.out);
        assert_eq!(answer.places, lent.places);
        answer.code
    };
    let short = code(lend(words, 64, &state[..size - 1]));
    (short, code(lend(words - 1, 64, state)))
}

#[test]
fn other_grounds_come_before_41() {
    let receiver = &open_states()[1].1;
    let take = |datagram: &[u8]| {
        let take = lacking(&Call::ReceiverTake { datagram }, receiver);
        let deliver = lacking(&Call::ReceiverDeliver { datagram }, receiver);
        assert_eq!(take, deliver);
        take
    };
    assert_eq!(take(&heartbeat(1)[..19]), (11, 11));
    assert_eq!(take(&heartbeat(0)), (13, 13));
    assert_eq!(take(&heartbeat(1)), (41, 41));
    let mut other = heartbeat(1);
    other[0] = b'X';
    assert_eq!(take(&other), (41, 17));
    let mut ended = receiver.clone();
    ended[0] = 0;
    let datagram = &end(1);
    assert_eq!(lacking(&Call::ReceiverTake { datagram }, &ended), (41, 18));

    let step = |stream: &[u8]| {
        let accounts = ACCOUNTS;
        let step = lacking(&Call::ServerStep { accounts, stream }, &server(5));
        let reply = lacking(&Call::ServerReply { accounts, stream }, &server(5));
        assert_eq!(step, reply);
        step
    };
    assert_eq!(step(&[0, 0]), (21, 21));
    assert_eq!(step(&packet(b'S', b"")), (23, 23));
    assert_eq!(step(&packet(b'U', b"")), (41, 31));
    assert_eq!(step(&packet(b'+', b"")), (41, 41));
    assert_eq!(step(&[]), (41, 41), "need more");
    let accounts = &ACCOUNTS.repeat(1_025);
    let stream = &[];
    assert_eq!(
        lacking(&Call::ServerStep { accounts, stream }, &server(5)),
        (19, 19)
    );
    let client = &open_states()[3].1;
    let stream = &accepted(NAME, "2");
    assert_eq!(lacking(&Call::ClientStep { stream }, client), (41, 33));
}

#[test]
fn other_grounds_come_before_41_for_a_writer() {
    let code = |call: &Call| ask_with(call, lend(0, 0, &[])).code;
    let write = |session, first, lengths: &[u16]| {
        let data = &[];
        code(&Call::MoldWriteData {
            session,
            first,
            lengths,
            data,
        })
    };
    assert_eq!(write(NAME, 0, &[0; 65_535]), 42);
    assert_eq!(write(NAME, 0, &[1]), 44);
    assert_eq!(write(&NAME[..9], 0, &[]), 13);
    assert_eq!(write(&NAME[..9], 1, &[]), 41);
    let payload = &[0; 4_097];
    assert_eq!(code(&Call::SoupWriteDebug { payload }), 22);
}

/// A name, a username or a password of another size is refused, also a longer one.
#[test]
fn nothing_is_cut() {
    for size in [0, 9, 11, 20] {
        let session = &NAME.repeat(2)[..size];
        let (next, limit, last, number) = (1, 1, 1, 1);
        let starts = [
            Call::ReceiverStart {
                session,
                next,
                limit,
            },
            Call::ServerStart { session, last },
            Call::ClientStart { session, number },
        ];
        for call in starts {
            assert_eq!(ask(&call, &[7; 80]).code, 19, "{call}");
        }
        let (first, count) = (1, 1);
        let (lengths, data) = (&[], &[]);
        let writers = [
            Call::MoldWriteData {
                session,
                first,
                lengths,
                data,
            },
            Call::MoldWriteHeartbeat { session, next },
            Call::MoldWriteEnd { session, next },
            Call::MoldWriteRequest {
                session,
                first,
                count,
            },
        ];
        for call in writers {
            assert_eq!(ask(&call, &[]).code, 41, "{call}");
        }
        let accepted = Call::SoupWriteAccepted { session, number };
        assert_eq!(ask(&accepted, &[]).code, 46);
    }
    let (username, password) = (&b"alice  "[..], &b"secret     "[..]);
    for (name, pass, session) in [
        (6, 10, 10),
        (7, 10, 10),
        (5, 10, 10),
        (6, 11, 10),
        (6, 9, 10),
        (6, 10, 9),
    ] {
        let call = Call::SoupWriteLogin {
            username: &username[..name],
            password: &password[..pass],
            session: &NAME[..session],
            number: 1,
        };
        let wanted = if (name, pass, session) == (6, 10, 10) {
            0
        } else {
            46
        };
        assert_eq!(ask(&call, &[]).code, wanted);
    }
}

#[test]
fn a_reply_is_written() {
    let accounts = ACCOUNTS;
    let stream = &login(b"alice ", b"secret    ", BLANK, 0);
    let reply = Call::ServerReply { accounts, stream };
    let answer = ask(&reply, &server(5));
    assert_eq!((answer.code, answer.words), (0, [1, 49, 5, 0, 0, 33, 0]));
    assert_eq!(answer.out[..34], [&accepted(NAME, "5")[..], &[0]].concat());
    // Too short an output, or a session that can't stand in A: nothing is taken.
    let short = ask_with(&reply, lend(6, 32, &server(5)));
    assert_eq!((short.code, short.state), (41, server(5)));
    let mut unnamed = server(5);
    unnamed[1..11].copy_from_slice(BLANK);
    let refused = ask_with(&reply, lend(5, 0, &unnamed));
    assert_eq!((refused.code, refused.state), (46, unnamed.clone()));

    let stream = &login(b"alice ", b"wrong     ", BLANK, 0);
    let answer = ask(&Call::ServerReply { accounts, stream }, &unnamed);
    assert_eq!((answer.code, answer.words), (0, [2, 49, 65, 0, 0, 4, 0]));
    assert_eq!(answer.out[..5], [0, 2, b'J', b'A', 0]);
    let stream = &packet(b'+', b"text");
    let answer = ask_with(
        &Call::ServerReply { accounts, stream },
        lend(6, 0, &server(5)),
    );
    assert_eq!((answer.code, answer.words), (0, [6, 7, 0, 0, 0, 0, 0]));
}

#[test]
fn the_last_number_moves() {
    let moved = |last, state: &[u8]| {
        let answer = ask(&Call::ServerSetLast { last }, state);
        (answer.code, answer.state)
    };
    assert_eq!(moved(9, &server(5)), (0, server(9)));
    assert_eq!(moved(5, &server(5)), (0, server(5)));
    assert_eq!(moved(4, &server(5)), (19, server(5)));
    assert_eq!(moved(u64::MAX, &server(5)), (19, server(5)));
    assert_eq!(moved(u64::MAX - 1, &server(5)), (0, server(u64::MAX - 1)));
    // Whether it falls is asked of a server; whether it is too high isn't.
    assert_eq!(moved(4, &server(5)[..19]).0, 41);
    assert_eq!(moved(u64::MAX, &server(5)[..19]).0, 19);
    // A closed one too, which is laid in its form.
    let mut closed = server(5);
    closed[0] = 9;
    let mut laid = server(6);
    (laid[0], laid[19]) = (0, 0);
    assert_eq!(moved(6, &closed), (0, laid));
}
