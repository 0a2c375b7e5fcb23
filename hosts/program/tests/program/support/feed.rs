//! Datagrams and captures of a feed.

use super::NAME;
use eiderwagon::mold;
use eiderwagon::Session;

pub const SETTINGS: &str = "session=READROOM01\nnext=1\nlimit=100\n";

fn name() -> &'static Session {
    NAME.as_bytes().try_into().unwrap()
}

/// Data with messages `first` to `last`, each with its number as its text.
pub fn data(first: u64, last: u64) -> Vec<u8> {
    data_of(name(), first, last)
}

pub fn data_of(session: &Session, first: u64, last: u64) -> Vec<u8> {
    let messages: Vec<String> = (first..=last).map(|number| format!("message {number}")).collect();
    let messages: Vec<&[u8]> = messages.iter().map(|message| message.as_bytes()).collect();
    mold::write_data(session, first, &messages, &mut [0; 65_535]).unwrap().to_vec()
}

pub fn heartbeat(next: u64) -> Vec<u8> {
    mold::write_heartbeat(name(), next, &mut [0; 20]).unwrap().to_vec()
}

pub fn end(next: u64) -> Vec<u8> {
    mold::write_end_of_session(name(), next, &mut [0; 20]).unwrap().to_vec()
}

pub fn request(first: u64, count: u16) -> Vec<u8> {
    let request = mold::Request { session: *name(), first, count };
    request.write(&mut [0; 20]).unwrap().to_vec()
}

/// A run with a loss that is sent again, packets that swap places, a double, and an end.
pub fn run() -> Vec<Vec<u8>> {
    vec![
        data(1, 3),
        data(6, 7),
        heartbeat(8),
        data(4, 5),
        data(9, 9),
        data(8, 8),
        data(8, 8),
        heartbeat(10),
        data(10, 12),
        end(13),
    ]
}

/// A capture's bytes.
pub fn capture<D: AsRef<[u8]>>(datagrams: &[D]) -> Vec<u8> {
    with_settings(SETTINGS, datagrams)
}

pub fn with_settings<D: AsRef<[u8]>>(settings: &str, datagrams: &[D]) -> Vec<u8> {
    let mut bytes = settings.as_bytes().to_vec();
    for datagram in datagrams {
        let datagram = datagram.as_ref();
        bytes.extend(u16::try_from(datagram.len()).unwrap().to_be_bytes());
        bytes.extend(datagram);
    }
    bytes
}

/// Numbers drawn from a seed.
pub struct Draw(pub u64);

impl Draw {
    pub fn below(&mut self, end: u64) -> u64 {
        // splitmix64
        self.0 = self.0.wrapping_add(0x9E37_79B9_7F4A_7C15);
        let mut word = self.0;
        word = (word ^ (word >> 30)).wrapping_mul(0xBF58_476D_1CE4_E5B9);
        word = (word ^ (word >> 27)).wrapping_mul(0x94D0_49BB_1331_11EB);
        (word ^ (word >> 31)) % end
    }
}

/// A line that loses, doubles and swaps, with packets sent again, nonsense and sometimes an end.
pub fn drawn(seed: u64, packets: u64) -> Vec<Vec<u8>> {
    let mut draw = Draw(seed);
    let mut list: Vec<Vec<u8>> = Vec::new();
    let mut next = 1;
    for _ in 0..packets {
        let count = draw.below(4);
        let packet = if count == 0 { heartbeat(next) } else { data(next, next + count - 1) };
        next += count;
        match draw.below(12) {
            0 => {} // lost
            1 => list.extend([packet.clone(), packet]),
            2 => list.insert(list.len().saturating_sub(1), packet),
            3 => {
                let first = 1 + draw.below(next);
                list.extend([packet, data(first, first + draw.below(5))]);
            }
            4 => list.extend([packet, vec![b'x'; draw.below(40) as usize]]),
            5 => list.extend([packet, data_of(b"OTHERROOM1", next, next)]),
            _ => list.push(packet),
        }
    }
    if draw.below(2) == 0 {
        list.push(end(next));
    }
    list
}
