//! The states of both ends, each with each packet.

use crate::login::{login, server, BLANK};
use crate::{accepted, ask, packet, NAME, TOP};
use differential::call::Call;

#[test]
fn server_states() {
    let step = |state: u8, stream: &[u8]| {
        let mut server = server(5);
        server[19] = state;
        if state == 9 {
            server[0] = 0;
        }
        let answer = ask(
            &Call::ServerStep {
                accounts: &[],
                stream,
            },
            &server,
        );
        (
            answer.code,
            answer.words[0],
            answer.words[1],
            answer.state[19],
        )
    };
    let login = login(b"alice ", b"secret    ", BLANK, 1);
    let rows: [(&[u8], _, _, _); 5] = [
        (&login, (0, 2, 49, 0), (31, 0, 0, 2), (32, 0, 0, 9)),
        (
            &packet(b'U', b"m"),
            (31, 0, 0, 1),
            (0, 4, 4, 2),
            (32, 0, 0, 9),
        ),
        (
            &packet(b'R', b""),
            (31, 0, 0, 1),
            (0, 5, 3, 2),
            (32, 0, 0, 9),
        ),
        (
            &packet(b'+', b"d"),
            (0, 6, 4, 1),
            (0, 6, 4, 2),
            (32, 0, 0, 9),
        ),
        (
            &packet(b'O', b""),
            (31, 0, 0, 1),
            (0, 7, 3, 0),
            (32, 0, 0, 9),
        ),
    ];
    for (stream, waiting, inside, closed) in rows {
        assert_eq!(step(1, stream), waiting);
        assert_eq!(step(2, stream), inside);
        assert_eq!(step(9, stream), closed);
    }
}

/// The bytes of an end in a state: its phase, and its code while it is open.
fn end(code: u8, session: &[u8; 10], number: u64, phase: u8) -> Vec<u8> {
    let first = if matches!(phase, 1 | 2) { code } else { 0 };
    [&[first][..], session, &number.to_le_bytes(), &[phase]].concat()
}

fn client(session: &[u8; 10], number: u64, phase: u8) -> Vec<u8> {
    end(0xE4, session, number, phase)
}

/// Need more changes no byte, at both ends, whatever a state was made of by hand.
#[test]
fn need_more_changes_no_state() {
    for byte in 0..=255u8 {
        for first in [0, 9, byte, 0xE3, 0xE4] {
            let state = [&[first][..], NAME, &5u64.to_le_bytes(), &[byte]].concat();
            for stream in [&[], &[0][..], &[0, 47], &[0, 1]] {
                let accounts = &[];
                let at_server = Call::ServerStep { accounts, stream };
                let with_reply = Call::ServerReply { accounts, stream };
                for call in [at_server, with_reply, Call::ClientStep { stream }] {
                    let answer = ask(&call, &state);
                    assert_eq!((answer.code, answer.words), (0, [0; 7]));
                    assert_eq!(answer.state, state);
                }
            }
        }
    }
}

#[test]
fn client_states() {
    let step = |state: u8, stream: &[u8]| {
        let answer = ask(&Call::ClientStep { stream }, &client(NAME, 5, state));
        (
            answer.code,
            answer.words[0],
            answer.words[1],
            answer.state[19],
        )
    };
    let accepted = accepted(NAME, "5");
    let rows: [(&[u8], _, _); 6] = [
        (&accepted, (0, 1, 33, 2), (31, 0, 0, 2)),
        (&packet(b'J', b"S"), (0, 2, 4, 0), (31, 0, 0, 2)),
        (&packet(b'+', b"d"), (0, 6, 4, 1), (0, 6, 4, 2)),
        (&packet(b'S', b""), (31, 0, 0, 1), (0, 3, 3, 2)),
        (&packet(b'H', b""), (31, 0, 0, 1), (0, 5, 3, 2)),
        (&packet(b'Z', b""), (31, 0, 0, 1), (0, 8, 3, 3)),
    ];
    for (stream, asked, inside) in rows {
        assert_eq!(step(1, stream), asked);
        assert_eq!(step(2, stream), inside);
        assert_eq!(step(3, stream), (32, 0, 0, 3));
        assert_eq!(step(0, stream), (32, 0, 0, 0));
    }
}

#[test]
fn client_numbers() {
    let step = |state: &[u8], stream: &[u8]| {
        let answer = ask(&Call::ClientStep { stream }, state);
        (answer.code, answer.words, answer.state)
    };
    let seven = accepted(NAME, "07");
    for (session, number) in [(NAME, 7), (NAME, 0), (BLANK, 7), (BLANK, 0)] {
        let answer = step(&client(session, number, 1), &seven);
        assert_eq!(answer, (0, [1, 33, 7, 0, 0, 0, 0], client(NAME, 7, 2)));
    }
    assert_eq!(step(&client(NAME, 8, 1), &seven).0, 33);
    assert_eq!(step(&client(b"readroom01", 7, 1), &seven).0, 33);
    let message = packet(b'S', b"abc");
    let answer = step(&client(NAME, TOP - 1, 2), &message);
    assert_eq!(
        answer,
        (0, [3, 6, TOP - 1, 3, 3, 0, 0], client(NAME, TOP, 2))
    );
    assert_eq!(step(&client(NAME, TOP, 2), &message).0, 34);
    assert_eq!(step(&client(NAME, TOP, 2), &packet(b'H', b"")).0, 0);
}
