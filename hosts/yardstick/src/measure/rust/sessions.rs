//! The yardstick's side of fronts, sessions and logins.

use crate::measure::{glance, LOGINS};
use yardstick::compare::sessions::each_front;
use yardstick::soup::client::Client;
use yardstick::soup::from_server::FromServer;
use yardstick::soup::server::Server;
use yardstick::soup::{front, Answer, Front, Refusal};
use yardstick::talks::Talk;

/// A call for each packet, as the library's is.
#[inline(never)]
fn called_front(stream: &[u8]) -> Result<Front<FromServer<'_>>, Refusal> {
    front::read(stream)
}

/// The front of each packet of the last stream.
pub fn fronts(talk: &Talk) -> u64 {
    let mut sum = 0;
    each_front(talk.messages(), |rest| match called_front(rest) {
        Ok(Some((FromServer::Sequenced { .. }, size))) => {
            sum += u64::from(b'S');
            Some(size)
        }
        _ => None,
    });
    sum
}

/// A client, from its login on.
pub fn client_steps(talk: &Talk) -> u64 {
    let mut client = Client::start(talk.session, talk.number).expect("the start is good");
    let mut sum = 0;
    for stream in &talk.streams {
        each_front(stream, |rest| match client.step(rest) {
            Ok(Some((Answer::Accepted { number }, size))) => {
                sum += number;
                Some(size)
            }
            Ok(Some((Answer::Sequenced { number, message }, size))) => {
                sum += number + glance(message);
                Some(size)
            }
            _ => None,
        });
    }
    sum
}

/// A server, from its login on.
pub fn server_steps(talk: &Talk) -> u64 {
    let mut server = Server::start(talk.session, talk.number).expect("the start is good");
    let mut sum = 0;
    for stream in &talk.streams {
        each_front(stream, |rest| match server.step(&talk.accounts, rest) {
            Ok(Some((Answer::Accepted { .. }, size))) => Some(size),
            Ok(Some((Answer::Unsequenced { message }, size))) => {
                sum += glance(message);
                Some(size)
            }
            _ => None,
        });
    }
    sum
}

/// The same login at one server after the other.
pub fn logins(talk: &Talk) -> u64 {
    let waiting = Server::start(talk.session, talk.number).expect("the start is good");
    let mut sum = 0;
    for _ in 0..LOGINS {
        let mut server = waiting.clone();
        sum += match server.step(&talk.accounts, talk.messages()) {
            Ok(Some((Answer::Accepted { number }, size))) => 1 + size as u64 + number,
            Ok(Some((Answer::Rejected { reason }, size))) => 2 + size as u64 + u64::from(reason),
            _ => 0,
        };
    }
    sum
}
