//! Order 6, the receiver that keeps early messages: which numbers it holds, what a datagram delivers, and what it asks
//! for.

use super::mold::{self, Datagram, Kind, Message};
use super::receiver::{may_take, Receiver, LARGEST_LIMIT};
use super::{Name, Refusal, BLANK};
use std::collections::BTreeMap;

/// As many numbers behind the expected one are held.
pub const SLOTS: u128 = 64;

/// The longest message that a slot holds.
pub const SLOT: usize = 1_024;

/// Numbers are counted in 128 bits: what a receiver that was made up holds may lie behind the last number there is.
pub type Number = u128;

/// The largest number that a receiver expects.
const LARGEST: Number = u64::MAX as Number;

#[derive(Clone, Debug, PartialEq, Eq)]
pub struct Early {
    /// Blank until it is learned.
    pub session: Name,
    /// The expected number, n in document 02.
    pub next: u64,
    pub limit: u16,
    pub ended: bool,
    /// The held messages.
    pub held: BTreeMap<Number, Vec<u8>>,
}

/// What a datagram is by the receiver's table, at the number that is expected before the step.
#[derive(Clone, Copy, Debug, PartialEq, Eq)]
pub enum Row {
    Deliver,
    Old,
    Quiet,
    Ahead,
    Ended,
}

/// Where a delivered message lies before the step.
#[derive(Clone, Debug, PartialEq, Eq)]
pub enum Lies {
    InSlots,
    InDatagram(Message),
}

#[derive(Clone, Debug, PartialEq, Eq)]
pub struct Delivered {
    pub number: u64,
    pub lies: Lies,
    pub bytes: Vec<u8>,
}

/// What a step does beside moving the receiver.
#[derive(Clone, Debug, PartialEq, Eq)]
pub struct Step {
    pub row: Row,
    /// The messages that are delivered, in order.
    pub delivered: Vec<Delivered>,
    /// How many of the datagram's messages stand before those.
    pub skipped: u64,
    /// The first number that is asked for, and how many are.
    pub request: Option<(u64, u64)>,
    /// What is held anew, in the order in which it is.
    pub kept: Vec<(Number, Vec<u8>)>,
}

impl Early {
    /// As the plain receiver starts; it holds nothing.
    pub fn start(session: Name, next: u64, limit: u16) -> Result<Early, Refusal> {
        Receiver::start(session, next, limit).map(Early::of)
    }

    /// What a refused start gives.
    pub fn refused() -> Early {
        Early::of(Receiver::refused())
    }

    fn of(plain: Receiver) -> Early {
        debug_assert!(plain.limit <= LARGEST_LIMIT);
        Early {
            session: plain.session,
            next: plain.next,
            limit: plain.limit,
            ended: plain.ended,
            held: BTreeMap::new(),
        }
    }

    pub fn is_named(&self) -> bool {
        self.session != BLANK
    }

    /// Takes a datagram, the slots being of their size or not. A refusal changes nothing, and names nobody.
    pub fn take(&mut self, bytes: &[u8], right_slots: bool) -> Result<Step, Refusal> {
        let datagram = mold::read(bytes)?;
        let row = self.row(&datagram, right_slots)?;
        if !self.is_named() {
            self.session = datagram.session;
        }
        let before = self.next;
        let mut step = Step {
            row,
            delivered: vec![],
            skipped: 0,
            request: None,
            kept: vec![],
        };
        self.take_messages(&datagram, bytes, &mut step);
        if row == Row::Deliver {
            step.skipped = before - datagram.number;
        }
        if row == Row::Ended {
            self.ended = true;
            self.held.clear();
        }
        step.request = self.request(datagram.number);
        Ok(step)
    }

    /// 17, 18, 19 and 20, and then the plain receiver's table.
    fn row(&self, datagram: &Datagram, right_slots: bool) -> Result<Row, Refusal> {
        may_take(&self.session, self.ended, &datagram.session)?;
        if !right_slots {
            return Err(19);
        }
        let number = datagram.number;
        let behind = number + datagram.messages.len() as u64;
        Ok(match datagram.kind {
            Kind::EndOfSession if number < self.next => return Err(20),
            _ if number > self.next => Row::Ahead,
            Kind::EndOfSession => Row::Ended,
            Kind::Heartbeat if number < self.next => Row::Old,
            Kind::Heartbeat => Row::Quiet,
            Kind::Data if behind <= self.next => Row::Old,
            Kind::Data => Row::Deliver,
        })
    }

    /// "A datagram's messages are taken one at a time in rising number."
    fn take_messages(&mut self, datagram: &Datagram, bytes: &[u8], step: &mut Step) {
        let mut next = Number::from(self.next);
        for (message, number) in datagram.messages.iter().zip(u128::from(datagram.number)..) {
            let data = &bytes[message.offset..message.end()];
            let in_window = number > next && number - next <= SLOTS;
            if number == next {
                step.delivered
                    .push(delivered(number, Lies::InDatagram(*message), data));
                next += 1;
                while let Some(held) = self.held.remove(&next) {
                    step.delivered.push(delivered(next, Lies::InSlots, &held));
                    next += 1;
                }
            } else if in_window && data.len() <= SLOT && !self.held.contains_key(&number) {
                self.held.insert(number, data.to_vec());
                step.kept.push((number, data.to_vec()));
            }
        }
        self.come_to(next, step);
    }

    /// Only a receiver that was made up comes past the largest number: it stays there, and what it holds with it. No
    /// message has that number.
    fn come_to(&mut self, next: Number, step: &mut Step) {
        let past = next.saturating_sub(LARGEST);
        if past > 0 {
            let held = std::mem::take(&mut self.held);
            self.held = held.into_iter().map(|(k, m)| (k - past, m)).collect();
            let many = (LARGEST - Number::from(self.next)) as usize;
            step.delivered.truncate(many);
        }
        self.next = (next - past) as u64;
    }

    /// "It asks exactly when the datagram's number is above n or something is held: from n to just below the lowest held
    /// number, or the datagram's number if none is held, within the limit."
    fn request(&self, number: u64) -> Option<(u64, u64)> {
        let lowest = self.held.keys().next().copied();
        let to = lowest.unwrap_or(number.into());
        let missing = to.saturating_sub(self.next.into());
        let asks = !self.ended && missing > 0;
        asks.then(|| (self.next, missing.min(self.limit.into()) as u64))
    }

    /// The messages that a datagram will deliver, by their places from 0; none where it would be refused.
    pub fn will_deliver(&self, bytes: &[u8], right_slots: bool) -> Vec<Delivered> {
        let step = self.clone().take(bytes, right_slots);
        step.map_or(vec![], |step| step.delivered)
    }
}

fn delivered(number: Number, lies: Lies, bytes: &[u8]) -> Delivered {
    Delivered {
        number: number as u64,
        lies,
        bytes: bytes.to_vec(),
    }
}
