//! The wrapper's ends and receivers in a drawn state. Their types can't be made of bytes, so each state is reached from
//! a start; one that no start and no step leads to isn't had at all.

use super::early::as_reference;
use crate::layout::{self, CLIENT, RECEIVER, SERVER};
use crate::reference::early::{Early, SLOT};
use crate::reference::session::{ClientState, ServerState};
use eiderwagon::early::EarlyReceiver;
use eiderwagon::mold;
use eiderwagon::receiver::Receiver;
use eiderwagon::session::{Accounts, Client, Server};
use eiderwagon::soup::{Login, Packet, Reason};

pub fn receiver(state: &[u8; RECEIVER]) -> Option<Receiver> {
    let wanted = layout::receiver(state);
    let mut receiver = Receiver::start(&wanted.session, wanted.next, wanted.limit).ok()?;
    if wanted.ended {
        // What ends a receiver names it too.
        if !wanted.is_named() {
            return None;
        }
        let mut out = [0; 20];
        let end = mold::write_end_of_session(&wanted.session, wanted.next, &mut out);
        receiver.take(end.expect("an end")).expect("it ends");
    }
    (receiver.as_bytes() == state).then_some(receiver)
}

/// It holds what came to it ahead of its turn. Of a receiver without a name nothing did.
pub fn early(wanted: &Early) -> Option<EarlyReceiver> {
    let mut receiver = EarlyReceiver::start(&wanted.session, wanted.next, wanted.limit).ok()?;
    let mut out = vec![0; 2_000];
    for (number, message) in &wanted.held {
        let number = u64::try_from(*number).ok()?;
        let named = wanted.is_named() && message.len() <= SLOT;
        let early = named.then(|| mold::write_data(&wanted.session, number, &[message], &mut out));
        receiver.take(early?.ok()?).expect("it is held");
    }
    if wanted.ended {
        let end = mold::write_end_of_session(&wanted.session, wanted.next, &mut out);
        receiver.take(end.expect("an end")).ok()?;
    }
    (as_reference(&receiver) == *wanted).then_some(receiver)
}

pub fn server(state: &[u8; SERVER]) -> Option<Server> {
    let wanted = layout::server(state);
    let mut server = Server::start(&wanted.session, wanted.last).ok()?;
    let password = match wanted.state {
        ServerState::Waiting => return (server.as_bytes() == state).then_some(server),
        ServerState::In => "right",
        ServerState::Closed => "wrong",
    };
    let accounts = Accounts::new([("a", "right")]).expect("a table");
    let login = Login::new("a", password, "", 0).expect("a login");
    let login = written(&Packet::LoginRequest(login));
    server.step(&accounts, &login).expect("it is answered");
    (server.as_bytes() == state).then_some(server)
}

pub fn client(state: &[u8; CLIENT]) -> Option<Client> {
    let wanted = layout::client(state);
    let (session, number) = (wanted.session, wanted.number);
    let steps: &[Packet] = match wanted.state {
        ClientState::Closed => &[Packet::LoginRejected(Reason::NotAuthorized)],
        ClientState::Asked => &[],
        ClientState::In => &[Packet::LoginAccepted { session, number }],
        ClientState::Ended => &[
            Packet::LoginAccepted { session, number },
            Packet::EndOfSession,
        ],
    };
    let mut client = Client::start(&session, number).ok()?;
    for packet in steps {
        let mut out = [0; 64];
        let stream = packet.write(&mut out).ok()?;
        client.step(stream).expect("it is taken");
    }
    (client.as_bytes() == state).then_some(client)
}

fn written(packet: &Packet) -> Vec<u8> {
    packet.write(&mut [0; 64]).expect("it fits").to_vec()
}
