//! Why a call was refused, and who brought it about.

use crate::call::unknown;
use std::fmt;

/// A refused call: the ground on which it was refused, and whose fault that is.
///
/// It has changed nothing: no state, and no byte of a lent output.
///
/// ```
/// use eiderwagon::{mold, Fault, Ground};
///
/// let refusal = mold::Datagram::read(b"nineteen bytes only").unwrap_err();
/// assert_eq!(refusal.ground(), Ground::DatagramShort);
/// assert_eq!(refusal.number(), 11);
/// assert_eq!(refusal.to_string(), "refusal 11: a Mold datagram under 20 bytes");
/// assert_eq!(refusal.fault(), Fault::Peer);
///
/// // The same ground is the caller's where the caller is the one who writes.
/// let zero = mold::write_heartbeat(b"READROOM01", 0, &mut [0; 20]).unwrap_err();
/// assert_eq!((zero.ground(), zero.fault()), (Ground::NumberZero, Fault::Caller));
/// ```
#[derive(Clone, Copy, Debug, PartialEq, Eq, Hash)]
pub struct Refusal {
    ground: Ground,
    fault: Fault,
}

/// Who brought a refusal about.
#[derive(Clone, Copy, Debug, PartialEq, Eq, Hash)]
pub enum Fault {
    /// What was sent to this program isn't as the rules want it. Drop the datagram; close the
    /// connection.
    Peer,
    /// This program asked for what can't be had: it is to be mended. So are calls that go on with a
    /// receiver or a session that is over, as a peer may well repeat its last words.
    Caller,
}

macro_rules! grounds {
    ($($name:ident = $number:literal, $words:literal;)*) => {
        /// A ground of refusal, with the number that the rules give it.
        ///
        /// Rules that are added later bring grounds of their own, so a `match` needs an arm for the
        /// rest.
        #[derive(Clone, Copy, Debug, PartialEq, Eq, Hash)]
        #[non_exhaustive]
        #[repr(u32)]
        pub enum Ground {
            $(#[doc = concat!($words, ".")] $name = $number,)*
        }

        impl Ground {
            /// Every ground, by rising number.
            pub const ALL: &'static [Ground] = &[$(Ground::$name),*];

            /// The ground in words.
            pub const fn words(self) -> &'static str {
                match self { $(Ground::$name => $words,)* }
            }
        }
    };
}

grounds! {
    DatagramShort = 11, "a Mold datagram under 20 bytes";
    DatagramLong = 12, "a Mold datagram over 65,507 bytes, or a writer's total";
    NumberZero = 13, "the number is 0";
    NumbersRunOut = 14, "for data, number + count is above 2^64 - 1";
    BlockPastEnd = 15, "a block runs past the end";
    BytesAfterBlocks = 16, "bytes stand after the last block";
    SessionDiffers = 17, "the session differs";
    SessionEnded = 18, "the session has already ended";
    BadSetting = 19,
        "a bad starting setting, an account table over 1,024, or a packet's size, a store's numbers, slots or edges out of bounds";
    EndBelowExpected = 20, "an end of session below the expected number";
    LengthZero = 21, "a packet's length is 0";
    PayloadLong = 22, "a payload above 4,096 bytes";
    LetterNotSent = 23, "the letter is unknown, or of the wrong sender";
    LengthWrong = 24, "the length is wrong for the letter";
    FieldBad = 25, "a bad session, number or reason field";
    PacketNotTaken = 31, "the packet isn't taken in this state";
    StateClosed = 32, "the state is ended or closed";
    LoginNotAsked = 33, "a login accepted doesn't match what was asked";
    NumbersUsedUp = 34, "a sequenced message at 2^64 - 1";
    OutputShort = 41, "the lent output is shorter than needed";
    TooManyMessages = 42, "over 65,534 messages";
    LengthsDiffer = 44, "the lengths don't add up to the data";
    FieldNotWritten = 46,
        "a writer is given an unsound username or password, a bad session or reason, or A number 0";
    RequestSize = 47, "a request that isn't 20 bytes";
    RequestCount = 48, "a request whose count is 0 or 65,535";
    NotInStore = 51, "the wanted number isn't in the store";
    MessageLong = 52, "a message alone doesn't fit the packet's size";
    StoreDiffers = 53, "a request's session isn't the store's";
    NoSuchPacket = 54, "a run has no packet at that place";
}

impl Ground {
    /// The number, as the rules list it.
    pub const fn number(self) -> u32 {
        self as u32
    }

    /// The ground with a number, if there is one: for what [`raw`](crate::raw) answers.
    pub fn from_number(number: u32) -> Option<Ground> {
        Ground::ALL.iter().copied().find(|ground| ground.number() == number)
    }

    /// The ground that the library answered.
    fn answered(number: u32) -> Ground {
        Ground::from_number(number).unwrap_or_else(|| unknown(number.into()))
    }
}

impl fmt::Display for Ground {
    fn fmt(&self, f: &mut fmt::Formatter<'_>) -> fmt::Result {
        f.write_str(self.words())
    }
}

impl Refusal {
    /// The number, as the rules list it.
    pub const fn number(&self) -> u32 {
        self.ground.number()
    }

    /// The ground on which that number is given, exactly.
    pub const fn ground(&self) -> Ground {
        self.ground
    }

    /// Who brought it about.
    pub const fn fault(&self) -> Fault {
        self.fault
    }

    /// Of a call that is the caller's alone: a start, or a writer.
    pub(crate) const fn of_caller(ground: Ground) -> Refusal {
        Refusal { ground, fault: Fault::Caller }
    }

    /// Of a start or a writer, by the number that it answered.
    pub(crate) fn given(number: u32) -> Refusal {
        Refusal::of_caller(Ground::answered(number))
    }

    /// Of a call that is lent what came from the peer, by the number that it answered.
    pub(crate) fn received(number: u32) -> Refusal {
        let ground = Ground::answered(number);
        let fault = match ground {
            Ground::OutputShort | Ground::BadSetting => Fault::Caller,
            // A store, and the size of its packets, are the caller's own.
            Ground::LengthsDiffer | Ground::MessageLong => Fault::Caller,
            // That it is over was answered before.
            Ground::SessionEnded | Ground::StateClosed => Fault::Caller,
            _ => Fault::Peer,
        };
        Refusal { ground, fault }
    }
}

impl fmt::Display for Refusal {
    fn fmt(&self, f: &mut fmt::Formatter<'_>) -> fmt::Result {
        write!(f, "refusal {}: {}", self.number(), self.ground)
    }
}

impl std::error::Error for Refusal {}
