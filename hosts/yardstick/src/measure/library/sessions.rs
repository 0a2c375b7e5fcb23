//! The library's side of fronts, sessions and logins.

use crate::measure::{glance, LOGINS};
use eiderwagon::raw;
use yardstick::compare::sessions::each_front;
use yardstick::host::sessions::{Client, Server};
use yardstick::talks::Talk;

/// The front of each packet of the last stream.
pub fn fronts(talk: &Talk) -> u64 {
    let mut sum = 0;
    each_front(talk.messages(), |rest| {
        let mut words = [0; raw::SOUP_READ_WORDS];
        let code = raw::soup_read(rest, raw::SOUP_FROM_SERVER, &mut words);
        let [letter, size, _] = words;
        sum += letter;
        (code == raw::OK && letter != 0).then_some(size as usize)
    });
    sum
}

/// A client, from its login on.
pub fn client_steps(talk: &Talk) -> u64 {
    let mut client = Client::start(&talk.session, talk.number).expect("the start is good");
    let mut sum = 0;
    for stream in &talk.streams {
        each_front(stream, |rest| {
            let (code, words) = client.step(rest);
            let [answer, size, number, offset, length] = words;
            sum += number;
            if answer == raw::SESSION_SEQUENCED {
                sum += glance(&rest[offset as usize..(offset + length) as usize]);
            }
            (code == raw::OK && answer != raw::SESSION_NEED_MORE).then_some(size as usize)
        });
    }
    sum
}

/// A server, from its login on.
pub fn server_steps(talk: &Talk) -> u64 {
    let mut server = Server::start(&talk.session, talk.number).expect("the start is good");
    let mut sum = 0;
    for stream in &talk.streams {
        each_front(stream, |rest| {
            let (code, words) = server.step(&talk.table, rest);
            let [answer, size, offset, length, _] = words;
            if answer == raw::SESSION_UNSEQUENCED {
                sum += glance(&rest[offset as usize..(offset + length) as usize]);
            }
            (code == raw::OK && answer != raw::SESSION_NEED_MORE).then_some(size as usize)
        });
    }
    sum
}

/// The same login at one server after the other.
pub fn logins(talk: &Talk) -> u64 {
    let waiting = Server::start(&talk.session, talk.number).expect("the start is good");
    let mut sum = 0;
    for _ in 0..LOGINS {
        let mut server = waiting;
        let (code, words) = server.step(&talk.table, talk.messages());
        let [answer, size, value, ..] = words;
        sum += u64::from(code) + answer + size + value;
    }
    sum
}
