//! SoupBinTCP sessions: each answer of either end, and what is refused.

use eiderwagon::session::{
    Accounts, Client, ClientAnswer, ClientState, Replied, Server, ServerAnswer, ServerState, Step,
};
use eiderwagon::soup::{Login, Packet, Reason};
use eiderwagon::{raw, Fault, Ground};

const NAME: &[u8; 10] = b"READROOM01";
const BLANK: &[u8; 10] = b"          ";

fn accounts() -> Accounts<'static> {
    Accounts::new([("reader", "opensesame"), ("clerk", "desk5")]).unwrap()
}

fn bytes(packet: Packet) -> Vec<u8> {
    packet.write(&mut [0; 64]).unwrap().to_vec()
}

fn login(username: &str, password: &str, session: &str, number: u64) -> Vec<u8> {
    bytes(Packet::LoginRequest(Login::new(username, password, session, number).unwrap()))
}

/// A server with two messages that a login has come to, and its answer.
fn after(login: &[u8]) -> (Server, ServerAnswer<'_>) {
    let mut server = Server::start(NAME, 2).unwrap();
    let step = server.step(&accounts(), login).unwrap();
    assert_eq!(step.size, 49);
    (server, step.answer)
}

/// The same, by the step that writes its reply: with that.
fn replied(login: &[u8]) -> (Server, ServerAnswer<'_>, Vec<u8>) {
    let mut server = Server::start(NAME, 2).unwrap();
    let mut out = [0; raw::LARGEST_REPLY];
    let Replied { step, reply } = server.reply(&accounts(), login, &mut out).unwrap();
    assert_eq!(step.size, 49);
    (server, step.answer, reply.to_vec())
}

/// A server with its client logged in.
fn server_in() -> Server {
    after(&login("clerk", "desk5", "", 1)).0
}

/// A client logged in at number 1.
fn client_in() -> Client {
    let mut client = Client::start(BLANK, 1).unwrap();
    client.step(&bytes(Packet::LoginAccepted { session: *NAME, number: 1 })).unwrap();
    client
}

#[test]
fn a_login_is_accepted() {
    for (wanted, granted) in [(0, 2), (1, 1), (2, 2), (3, 3)] {
        let request = login("Clerk", "DESK5", "READROOM01", wanted);
        let (server, answer) = after(&request);
        assert_eq!(answer, ServerAnswer::Accepted { number: granted });
        assert_eq!(server.state(), ServerState::In);
        let packet = bytes(Packet::LoginAccepted { session: *NAME, number: granted });
        assert_eq!(replied(&request), (server, answer, packet));
    }
}

#[test]
fn the_most_recent_message_of_none_is_the_first() {
    let mut server = Server::start(NAME, 0).unwrap();
    let request = login("clerk", "desk5", "", 0);
    let step = server.step(&accounts(), &request).unwrap();
    assert_eq!(step.answer, ServerAnswer::Accepted { number: 1 });
}

#[test]
fn a_login_is_rejected() {
    use Reason::{NotAuthorized, SessionNotAvailable};
    for (request, reason) in [
        (login("clerk", "desk", "", 1), NotAuthorized),
        (login("clerk", "desk55", "", 1), NotAuthorized),
        (login("nobody", "desk5", "", 1), NotAuthorized),
        (login("clerk", "desk5", "READROOM02", 1), SessionNotAvailable),
        (login("clerk", "desk5", "", 4), SessionNotAvailable),
    ] {
        let (server, answer) = after(&request);
        assert_eq!(answer, ServerAnswer::Rejected(reason));
        assert_eq!(server.state(), ServerState::Closed);
        let packet = bytes(Packet::LoginRejected(reason));
        assert_eq!(replied(&request), (server, answer, packet));
    }
}

#[test]
fn a_reply_that_has_no_room_leaves_the_login_in_front() {
    let request = login("clerk", "desk5", "", 1);
    let mut server = Server::start(NAME, 2).unwrap();
    let mut out = [9; raw::LARGEST_REPLY];
    let short = &mut out[..raw::LARGEST_REPLY - 1];
    let refusal = server.reply(&accounts(), &request, short).unwrap_err();
    assert_eq!((refusal.ground(), refusal.fault()), (Ground::OutputShort, Fault::Caller));
    assert_eq!(server, Server::start(NAME, 2).unwrap());
    assert_eq!(out, [9; raw::LARGEST_REPLY]);
    assert!(server.reply(&accounts(), &request, &mut out).is_ok());
}

#[test]
fn a_servers_last_number_rises() {
    let mut server = Server::start(NAME, 2).unwrap();
    server.set_last(7).unwrap();
    server.set_last(7).unwrap();
    for bad in [6, u64::MAX] {
        assert_eq!(server.set_last(bad).unwrap_err().ground(), Ground::BadSetting);
        assert_eq!(server.last(), 7);
    }
    let request = login("clerk", "desk5", "", 0);
    let step = server.step(&accounts(), &request).unwrap();
    assert_eq!(step.answer, ServerAnswer::Accepted { number: 7 });
    server.set_last(u64::MAX - 1).unwrap();
    assert_eq!((server.last(), server.state()), (u64::MAX - 1, ServerState::In));
}

#[test]
fn an_empty_entry_is_never_accepted() {
    let blank = Accounts::from_bytes(&[b' '; 16]);
    for entry in [[b' '; 16], [0; 16]] {
        let mut request = login("clerk", "desk5", "", 1);
        request[3..19].copy_from_slice(&entry);
        let mut server = Server::start(NAME, 2).unwrap();
        let step = server.step(&blank, &request).unwrap();
        assert_eq!(step.answer, ServerAnswer::Rejected(Reason::NotAuthorized));
    }
}

#[test]
fn a_server_hands_up_what_a_client_sends() {
    let mut server = server_in();
    for (packet, answer) in [
        (Packet::UnsequencedData(b"up"), ServerAnswer::Unsequenced(b"up")),
        (Packet::UnsequencedData(b""), ServerAnswer::Unsequenced(b"")),
        (Packet::ClientHeartbeat, ServerAnswer::Heartbeat),
        (Packet::Debug(b"text"), ServerAnswer::Debug),
    ] {
        let stream = bytes(packet);
        let size = stream.len();
        assert_eq!(server.step(&accounts(), &stream), Ok(Step { answer, size }));
        let with_reply = Replied { step: Step { answer, size }, reply: b"" };
        assert_eq!(server.reply(&accounts(), &stream, &mut []), Ok(with_reply));
        assert_eq!(server, server_in());
    }
    let step = server.step(&accounts(), b"\0\x01O").unwrap();
    assert_eq!(step, Step { answer: ServerAnswer::LoggedOut, size: 3 });
    assert_eq!(server.state(), ServerState::Closed);
}

#[test]
fn an_end_needs_more_until_a_packet_is_whole() {
    let request = login("clerk", "desk5", "", 1);
    let mut server = Server::start(NAME, 2).unwrap();
    let step = server.step(&accounts(), &request[..48]).unwrap();
    assert_eq!(step, Step { answer: ServerAnswer::NeedMore, size: 0 });
    assert_eq!(server, Server::start(NAME, 2).unwrap());

    let mut client = client_in();
    let step = client.step(b"\0\x05Sab").unwrap();
    assert_eq!(step, Step { answer: ClientAnswer::NeedMore, size: 0 });
    assert_eq!(client, client_in());
}

#[test]
fn a_refused_step_leaves_the_server_as_it_was() {
    let refused = |mut server: Server, accounts: &Accounts, stream: &[u8]| {
        let before = *server.as_bytes();
        let refusal = server.step(accounts, stream).unwrap_err();
        assert_eq!(*server.as_bytes(), before, "{refusal}");
        refusal.number()
    };
    let many = vec![b'a'; 1025 * 16];
    assert_eq!(refused(server_in(), &Accounts::from_bytes(&many), b""), 19);
    assert_eq!(refused(server_in(), &accounts(), b"\0\0"), 21);
    assert_eq!(refused(server_in(), &accounts(), b"\x10\x02"), 22);
    assert_eq!(refused(server_in(), &accounts(), b"\0\x01S"), 23);
    assert_eq!(refused(server_in(), &accounts(), b"\0\x02R"), 24);
    assert_eq!(
        refused(server_in(), &accounts(), &[b"\0\x2fL".as_slice(), &[b' '; 46]].concat()),
        25
    );
    assert_eq!(refused(server_in(), &accounts(), &login("clerk", "desk5", "", 1)), 31);
    assert_eq!(refused(Server::start(NAME, 2).unwrap(), &accounts(), b"\0\x01R"), 31);
    let closed = after(&login("nobody", "desk5", "", 1)).0;
    assert_eq!(refused(closed, &accounts(), b"\0\x01+"), 32);
}

#[test]
fn a_client_is_accepted() {
    let mut client = Client::start(BLANK, 0).unwrap();
    assert_eq!(client.state(), ClientState::Asked);
    let stream = bytes(Packet::LoginAccepted { session: *NAME, number: 7 });
    let answer = ClientAnswer::Accepted { number: 7 };
    assert_eq!(client.step(&stream), Ok(Step { answer, size: 33 }));
    assert_eq!(client.state(), ClientState::In);
    assert_eq!((client.session(), client.number()), (*NAME, 7));
}

#[test]
fn a_client_is_rejected() {
    let mut client = Client::start(NAME, 1).unwrap();
    let step = client.step(b"\0\x02JS").unwrap();
    assert_eq!(step.answer, ClientAnswer::Rejected(Reason::SessionNotAvailable));
    assert_eq!(client.state(), ClientState::Closed);
}

#[test]
fn a_client_numbers_its_messages() {
    let mut client = client_in();
    for (number, message) in [(1, &b"one"[..]), (2, b"")] {
        let stream = bytes(Packet::SequencedData(message));
        let answer = ClientAnswer::Sequenced { number, message };
        assert_eq!(client.step(&stream), Ok(Step { answer, size: stream.len() }));
    }
    assert_eq!(client.number(), 3);
}

#[test]
fn a_client_takes_heartbeats_texts_and_the_end() {
    let mut client = client_in();
    assert_eq!(client.step(b"\0\x01H").unwrap().answer, ClientAnswer::Heartbeat);
    assert_eq!(client.step(b"\0\x01+").unwrap().answer, ClientAnswer::Debug);
    assert_eq!(client, client_in());
    assert_eq!(client.step(b"\0\x01Z").unwrap().answer, ClientAnswer::SessionOver);
    assert_eq!(client.state(), ClientState::Ended);
}

#[test]
fn a_refused_step_leaves_the_client_as_it_was() {
    let refused = |mut client: Client, stream: &[u8]| {
        let before = *client.as_bytes();
        let refusal = client.step(stream).unwrap_err();
        assert_eq!(*client.as_bytes(), before, "{refusal}");
        refusal.number()
    };
    let mut ended = client_in();
    ended.step(b"\0\x01Z").unwrap();
    assert_eq!(refused(ended, b"\0\x01H"), 32);
    assert_eq!(refused(Client::start(BLANK, 1).unwrap(), b"\0\x01S"), 31);
    let accepted = bytes(Packet::LoginAccepted { session: *NAME, number: 2 });
    assert_eq!(refused(Client::start(BLANK, 1).unwrap(), &accepted), 33);
    assert_eq!(refused(Client::start(b"READROOM02", 2).unwrap(), &accepted), 33);
    let mut last = Client::start(BLANK, 0).unwrap();
    last.step(&bytes(Packet::LoginAccepted { session: *NAME, number: u64::MAX })).unwrap();
    assert_eq!(refused(last, b"\0\x01S"), 34);
    assert_eq!(refused(client_in(), b"\0\x01U"), 23);
}

#[test]
fn bad_starts_are_refused() {
    assert_eq!(Server::start(BLANK, 0).unwrap_err().ground(), Ground::BadSetting);
    assert_eq!(Server::start(NAME, u64::MAX).unwrap_err().ground(), Ground::BadSetting);
    assert_eq!(Client::start(b"READ ROOM1", 0).unwrap_err().ground(), Ground::BadSetting);
    assert_eq!(Server::start(NAME, u64::MAX - 1).unwrap().last(), u64::MAX - 1);
}

#[test]
fn accounts_that_no_login_could_use_are_refused() {
    for pair in [("", "a"), ("a", ""), ("a b", "c"), ("a", "\0"), ("toolong", "a")] {
        let bad = Accounts::new([("a", "b"), pair, ("", "")]).unwrap_err();
        assert_eq!((bad.place(), bad.refusal().ground()), (1, Ground::FieldNotWritten));
    }
    assert!(Accounts::new([("a", "b"); 1024]).is_ok());
    let bad = Accounts::new([("a", "b"); 1025]).unwrap_err();
    assert_eq!((bad.place(), bad.refusal().ground()), (1024, Ground::BadSetting));
}

#[test]
fn a_bad_account_is_named_by_its_place_and_its_password_not_shown() {
    let bad = Accounts::new([("reader", "opensesame"), ("clerk", "desk 5")]).unwrap_err();
    let error: Box<dyn std::error::Error> = bad.into();
    let shown = error.to_string();
    assert!(shown.starts_with("the pair at place 1 (from 0): refusal 46: "), "{shown}");
    assert!(!format!("{shown}{bad:?}").contains("desk"));
}

#[test]
fn accounts_are_records_of_sixteen_bytes() {
    assert_eq!(accounts().as_bytes(), b"readeropensesameclerk desk5     ");
    assert_eq!(Accounts::from_bytes(b"any bytes").as_bytes(), b"any bytes");
    assert_eq!(format!("{:?}", accounts()), "Accounts { records: 2, .. }");
}

#[test]
fn ends_show_what_they_are() {
    let shown = "Client { state: In, session: \"READROOM01\", number: 1 }";
    assert_eq!(format!("{:?}", client_in()), shown);
    let shown = "Server { state: In, session: \"READROOM01\", last: 2 }";
    assert_eq!(format!("{:?}", server_in()), shown);
}
