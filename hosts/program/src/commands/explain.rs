//! `explain`: a refusal in words, and what to do about it.

use super::Status;
use crate::arguments::Explain as Arguments;
use crate::failure::{Failure, Outcome};
use crate::output;
use eiderwagon::Ground;
use std::fmt::Write;

pub fn run(arguments: &Arguments) -> Outcome<Status> {
    let mut text = String::new();
    match arguments.number {
        Some(number) => {
            let Some(ground) = Ground::from_number(number) else {
                return Err(Failure::new(format!(
                    "no refusal has the number {number}: `eiderwagon explain` lists those that there are"
                )));
            };
            let _ = writeln!(text, "{number}: {ground}\n\n{}", advice(ground));
        }
        None => {
            for ground in Ground::ALL {
                let _ = writeln!(text, "{}: {ground}", ground.number());
            }
        }
    }
    output::print(&text)?;
    Ok(Status::Whole)
}

/// What it means on a network, and what to do.
fn advice(ground: Ground) -> &'static str {
    match ground {
        Ground::DatagramShort => {
            "A MoldUDP64 datagram has a header of 20 bytes: the session's name, a number and a count.\n\
             Something else sends to this port, or what recorded the capture had too small a buffer.\n\
             In a pcap, look at the frame in Wireshark for its sender."
        }
        Ground::DatagramLong => {
            "A MoldUDP64 datagram has at most 65,507 bytes, the most that UDP over IPv4 carries.\n\
             Where it was read, something else sends to this port; where it was to be written, put\n\
             fewer messages into one."
        }
        Ground::NumberZero => {
            "Numbers begin at 1. The sender is broken, or these bytes aren't a MoldUDP64 datagram."
        }
        Ground::NumbersRunOut => {
            "The datagram's messages would pass the highest number. The sender is broken, or these\n\
             bytes aren't a MoldUDP64 datagram."
        }
        Ground::BlockPastEnd => {
            "The header counts more messages than the bytes have, or a message's length is wrong.\n\
             These bytes aren't a datagram of the feed, or what recorded the capture had too small a\n\
             buffer. A request looks so, too: it goes the other way, to the re-request server."
        }
        Ground::BytesAfterBlocks => {
            "More bytes came than the header and its messages take. The sender pads its packets, or\n\
             these bytes aren't a MoldUDP64 datagram."
        }
        Ground::SessionDiffers => {
            "The datagram is of another session than the one that is followed. Two feeds share the\n\
             port, or the venue has begun a new session, as it does each night: `eiderwagon import`\n\
             lists the sessions of a pcap."
        }
        Ground::SessionEnded => {
            "The end of the session was taken before, and nothing was missing then. Venues repeat the\n\
             end for a while, and doubles may come late: nothing is to be done. Only a number above\n\
             the end is the sender's fault."
        }
        Ground::BadSetting => {
            "Something was set up with a number, a name or a size that can't be. The start number is 1\n\
             or more, the limit 1 to 65,534, a capture's session isn't blank, a packet's size is 22 to\n\
             65,507, and an account table has at most 1,024 records."
        }
        Ground::EndBelowExpected => {
            "The end of the session names a number below the next one expected. The sender is broken,\n\
             or --next was set too high: it can be at most one more than the last number that\n\
             `eiderwagon import` lists."
        }
        Ground::LengthZero => {
            "A SoupBinTCP packet has a letter, so its length is 1 or more. Close the connection: the\n\
             stream can't be read on."
        }
        Ground::PayloadLong => {
            "A SoupBinTCP payload has at most 4,096 bytes. Close the connection, or write less."
        }
        Ground::LetterNotSent => {
            "The packet's letter isn't one that this end's peer sends. Close the connection. Both ends\n\
             may have been started as the same side, or something else speaks on this port."
        }
        Ground::LengthWrong => {
            "A packet with this letter has a fixed length, and this one has another. Close the\n\
             connection: the peer speaks another version, or another protocol."
        }
        Ground::FieldBad => {
            "A session, a number or a reason can't be read: it has other characters, is blank, or is\n\
             too large. Close the connection, and look at what the peer was set up with."
        }
        Ground::PacketNotTaken => {
            "The packet comes at a time at which it isn't taken, such as data before the login. Close\n\
             the connection."
        }
        Ground::StateClosed => {
            "The session is over, and the caller goes on with it. Begin a new connection."
        }
        Ground::LoginNotAsked => {
            "The server accepted a login to another session or number than was asked for. Don't use\n\
             what it sends: look at the server."
        }
        Ground::NumbersUsedUp => "The session has used its highest number. Begin a new one.",
        Ground::OutputShort => {
            "The caller lent too little room for the answer: eiderwagon.h names the room that is\n\
             enough."
        }
        Ground::TooManyMessages => {
            "One datagram counts at most 65,534 messages. Cut the run into more of them."
        }
        Ground::LengthsDiffer => {
            "The lengths of the messages, added up, aren't the size of the bytes lent with them."
        }
        Ground::FieldNotWritten => {
            "A username, a password, a session, a reason or the number of an accepted login can't be\n\
             written as it is: it is empty, blank, 0, too long, or has characters that the field\n\
             can't have."
        }
        Ground::RequestSize => {
            "A request packet has 20 bytes. Something else sends to the port for requests."
        }
        Ground::RequestCount => {
            "A request asks for 1 to 65,534 messages. The asking receiver is broken, or this is a\n\
             heartbeat or an end of session that came to the port for requests."
        }
        Ground::NotInStore => {
            "The store doesn't have the first message that was asked for. Ask another store, or\n\
             one that keeps more."
        }
        Ground::MessageLong => {
            "One message is longer than a packet of the set size can be. Raise the size."
        }
        Ground::StoreDiffers => {
            "The request is for another session than the store's. The receiver follows an old name,\n\
             or asks the wrong store."
        }
        Ground::NoSuchPacket => "The run has fewer packets than the place that was asked for.",
        _ => "",
    }
}
