//! SoupBinTCP: a server and a client over two streams that come in odd pieces, from the login to the end of the
//! session.

use differential::random::Random;
use eiderwagon::raw::LARGEST_REPLY;
use eiderwagon::session::{
    Accounts, Client, ClientAnswer, ClientState, Replied, Server, ServerAnswer, ServerState,
};
use eiderwagon::soup::{Login, Packet};

/// How many rounds a run may take; in each, each stream moves on by one piece.
const LONGEST: usize = 100_000;

/// One direction of a connection: what was sent and hasn't come, and what came and wasn't taken.
#[derive(Default)]
struct Stream {
    sent: Vec<u8>,
    came: Vec<u8>,
}

impl Stream {
    fn send(&mut self, packet: &Packet) {
        let mut out = [0; 4_099];
        let packet = packet.write(&mut out).expect("it can be written");
        self.sent.extend(packet);
    }

    /// A piece comes: a few bytes, now and then none or very many, with no regard to packets.
    fn piece(&mut self, random: &mut Random) {
        let most = random.pick(&[1, 2, 3, 13, 13, 50, 5_000]);
        let size = random.below(self.sent.len().min(most) + 1);
        self.came.extend(self.sent.drain(..size));
    }
}

/// Messages of one end: of few bytes, of none, of as many as there may be.
fn messages(random: &mut Random) -> Vec<Vec<u8>> {
    let count = random.pick(&[0, 1, 7, 40]);
    let message = |_| {
        let size = random.pick(&[0, 1, 5, 5, 30, 30, 300, 4_096]);
        random.bytes(size)
    };
    (0..count).map(message).collect()
}

/// Sends the next message, and now and then what isn't one. Answers how many messages that was.
fn send_one(
    random: &mut Random,
    stream: &mut Stream,
    heartbeat: &Packet,
    message: Option<Packet>,
) -> usize {
    match random.below(5) {
        0 => stream.send(heartbeat),
        1 => stream.send(&Packet::Debug(b"a text for people")),
        _ => {
            if let Some(message) = message {
                stream.send(&message);
                return 1;
            }
        }
    }
    0
}

/// Both hosts, with what they have to send and what was handed up to them.
struct Talk {
    random: Random,
    server: Server,
    client: Client,
    accounts: Accounts<'static>,
    up: Stream,
    down: Stream,
    /// What the server has, and what of it was sent.
    messages: Vec<Vec<u8>>,
    sent: usize,
    /// What the client has for the server, and what of it was sent.
    wishes: Vec<Vec<u8>>,
    wished: usize,
    /// What the client's host was handed, and the server's.
    read: Vec<(u64, Vec<u8>)>,
    heard: Vec<Vec<u8>>,
}

impl Talk {
    /// The client has sent its login.
    fn new(seed: u64) -> Talk {
        let mut random = Random::new(seed, 2);
        let messages = messages(&mut random);
        let wishes = self::messages(&mut random);
        // Some messages are added after the login.
        let last = random.below(messages.len() + 1) as u64;
        let session = random.pick(&["READROOM01", ""]);
        let number = random.below(last as usize + 2) as u64;
        let login = Login::new("Reader", "openSesame", session, number).expect("a login");
        let mut up = Stream::default();
        let client = Client::start(&login.session, login.number).expect("a client");
        up.send(&Packet::LoginRequest(login));
        Talk {
            random,
            server: Server::start(b"READROOM01", last).expect("a server"),
            client,
            accounts: Accounts::new([("reader", "opensesame")]).expect("a table"),
            up,
            down: Stream::default(),
            messages,
            sent: 0,
            wishes,
            wished: 0,
            read: vec![],
            heard: vec![],
        }
    }

    /// The server takes what came, packet by packet.
    fn server_takes(&mut self) {
        while self.server.state() != ServerState::Closed {
            let mut out = [0; LARGEST_REPLY];
            let replied = self.server.reply(&self.accounts, &self.up.came, &mut out);
            let Replied { step, reply } = replied.expect("nothing is damaged");
            self.down.sent.extend(reply);
            match step.answer {
                ServerAnswer::NeedMore => return,
                ServerAnswer::Accepted { number } => self.sent = number as usize - 1,
                ServerAnswer::Rejected(reason) => panic!("{reason:?}"),
                ServerAnswer::Unsequenced(message) => self.heard.push(message.to_vec()),
                _ => {}
            }
            let taken = step.size;
            self.up.came.drain(..taken);
        }
    }

    /// The server sends its messages from the number accepted on, and then the end.
    fn server_sends(&mut self) {
        if self.server.state() != ServerState::In || self.sent > self.messages.len() {
            return;
        }
        let Some(message) = self.messages.get(self.sent) else {
            // Past the last one: this is done once.
            self.sent += 1;
            return self.down.send(&Packet::EndOfSession);
        };
        let message = Packet::SequencedData(message);
        let heartbeat = Packet::ServerHeartbeat;
        self.sent += send_one(&mut self.random, &mut self.down, &heartbeat, Some(message));
    }

    fn client_takes(&mut self) {
        while matches!(self.client.state(), ClientState::Asked | ClientState::In) {
            let step = self.client.step(&self.down.came);
            let step = step.expect("nothing is damaged");
            match step.answer {
                ClientAnswer::NeedMore => return,
                ClientAnswer::Rejected(reason) => panic!("{reason:?}"),
                ClientAnswer::Sequenced { number, message } => {
                    self.read.push((number, message.to_vec()));
                }
                _ => {}
            }
            let taken = step.size;
            self.down.came.drain(..taken);
        }
    }

    /// The client sends its messages once it is logged in; when it has sent them all and is ended, it logs out.
    fn client_sends(&mut self) {
        if self.client.state() == ClientState::Asked || self.wished > self.wishes.len() {
            return;
        }
        let message = self.wishes.get(self.wished);
        if message.is_none() && self.client.state() == ClientState::Ended {
            self.wished += 1;
            return self.up.send(&Packet::LogoutRequest);
        }
        let message = message.map(|message| Packet::UnsequencedData(message));
        let heartbeat = Packet::ClientHeartbeat;
        self.wished += send_one(&mut self.random, &mut self.up, &heartbeat, message);
    }

    fn is_over(&self) -> bool {
        self.client.state() == ClientState::Ended && self.server.state() == ServerState::Closed
    }
}

#[test]
fn what_is_handed_up_is_what_was_sent() {
    let mut read = 0;
    let mut heard = 0;
    for seed in 0..100 {
        let mut talk = Talk::new(seed);
        let asked = talk.client.number();
        let last = talk.server.last();
        for _ in 0..LONGEST {
            talk.up.piece(&mut talk.random);
            talk.server_takes();
            talk.server_sends();
            talk.down.piece(&mut talk.random);
            talk.client_takes();
            talk.client_sends();
            if talk.is_over() {
                break;
            }
        }
        assert!(talk.is_over(), "seed {seed}: {:?}", talk.client);

        let granted = if asked == 0 { last.max(1) } else { asked };
        let behind = talk.messages.iter().skip(granted as usize - 1).cloned();
        let wanted: Vec<(u64, Vec<u8>)> = (granted..).zip(behind).collect();
        assert!(talk.read == wanted, "seed {seed}: other messages came down");
        assert!(talk.heard == talk.wishes, "seed {seed}: others came up");
        read += talk.read.len();
        heard += talk.heard.len();
    }
    println!("100 sessions: {read} messages down, {heard} up");
    assert!(read > 500 && heard > 500);
}
