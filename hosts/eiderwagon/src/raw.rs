//! The exported functions as they are, on slices: the only module with `unsafe` in it.
//!
//! Each function is the one of the same name in `include/eiderwagon.h`, where its contract stands:
//! what is lent, which words it answers, which refusals it has. It returns 0 or the code of a
//! refusal, whose number [`number`] gives. A pointer with its size is one slice here, and the
//! constants lose their prefix. The modules beside this one are the same functions with types.
//!
//! The first call panics where the archive is of another version than [`VERSION`]; only [`version`]
//! itself answers any.
//!
//! ```
//! use eiderwagon::raw;
//!
//! let mut words = [0; raw::MOLD_READ_WORDS];
//! assert_eq!(raw::mold_read(b"READROOM01\0\0\0\0\0\0\0\x06\0\0", &mut words), raw::OK);
//! assert_eq!(words[raw::MOLD_READ_KIND], raw::MOLD_HEARTBEAT);
//! assert_eq!(words[raw::MOLD_READ_NUMBER], 6);
//! let code = raw::mold_read(b"READROOM01", &mut words);
//! assert_eq!(raw::number(code), raw::REFUSED_DATAGRAM_SHORT);
//! assert_eq!(raw::version(), raw::VERSION);
//! ```

use std::sync::atomic::{AtomicBool, Ordering};

/// The version of the library that this crate is for, 0.1.0: a byte each for the three numbers.
pub const VERSION: u32 = 0x000100;

/// Ends the program where the archive is of another version: each call goes through here, and the
/// first one asks.
#[inline]
fn meet_the_version() {
    static MET: AtomicBool = AtomicBool::new(false);
    if !MET.load(Ordering::Relaxed) {
        refuse_another(version());
        MET.store(true, Ordering::Relaxed);
    }
}

/// Its functions, words and layouts may be others.
#[cold]
fn refuse_another(version: u32) {
    let text = |version: u32| {
        let [_, major, minor, patch] = version.to_be_bytes();
        format!("{major}.{minor}.{patch}")
    };
    let (theirs, ours) = (text(version), text(VERSION));
    assert!(
        version == VERSION,
        "libeiderwagon.a is of version {theirs}, and this crate is for {ours}: build both anew"
    );
}

/// Makes the constants, and for `header_test.rs` their list.
macro_rules! constants {
    ($($(#[$doc:meta])* $name:ident: $kind:ty = $value:expr;)*) => {
        $($(#[$doc])* pub const $name: $kind = $value;)*

        #[cfg(test)]
        pub(crate) const CONSTANTS: &[(&str, u64)] = &[$((stringify!($name), $name as u64)),*];
    };
}

/// Makes the functions, and for `header_test.rs` the list of their signatures.
///
/// A parameter at a time, it gathers what C declares (in the first braces) and what is handed to it
/// (in the second): of a slice its pointer and its length, of a number the number.
macro_rules! exported {
    ($($(#[$doc:meta])* $name:ident($($parameters:tt)*);)*) => {
        $(exported!(@ [$(#[$doc])* $name] [$($parameters)*] {} {} $($parameters)*,);)*

        #[cfg(test)]
        pub(crate) const SIGNATURES: &[(&str, &str)] =
            &[$((stringify!($name), stringify!($($parameters)*))),*];
    };
    (@ $name:tt $all:tt {$($c:tt)*} {$($lent:tt)*} $slice:ident: &mut [$of:ty], $($rest:tt)*) => {
        exported!(@ $name $all {$($c)* _: *mut $of, _: usize,}
            {$($lent)* $slice.as_mut_ptr(), $slice.len(),} $($rest)*);
    };
    (@ $name:tt $all:tt {$($c:tt)*} {$($lent:tt)*} $slice:ident: &[$of:ty], $($rest:tt)*) => {
        exported!(@ $name $all {$($c)* _: *const $of, _: usize,}
            {$($lent)* $slice.as_ptr(), $slice.len(),} $($rest)*);
    };
    (@ $name:tt $all:tt {$($c:tt)*} {$($lent:tt)*} $number:ident: $of:ty, $($rest:tt)*) => {
        exported!(@ $name $all {$($c)* _: $of,} {$($lent)* $number,} $($rest)*);
    };
    // What is lent nothing is the version itself, which is asked before any other call.
    (@ [$(#[$doc:meta])* $name:ident] [] {} {} ,) => {
        $(#[$doc])*
        pub fn $name() -> u32 {
            extern "C" {
                #[link_name = concat!("eiderwagon_", stringify!($name))]
                fn exported() -> u32;
            }
            // SAFETY: it is lent nothing, and answers a number.
            unsafe { exported() }
        }
    };
    (@ [$(#[$doc:meta])* $name:ident] [$($parameters:tt)*] {$($c:tt)*} {$($lent:tt)*}) => {
        $(#[$doc])*
        // Compiled into its caller: else each call of the library goes through one more.
        #[inline]
        // They are those that the header declares.
        #[allow(clippy::too_many_arguments)]
        pub fn $name($($parameters)*) -> u32 {
            meet_the_version();
            extern "C" {
                #[link_name = concat!("eiderwagon_", stringify!($name))]
                fn exported($($c)*) -> u32;
            }
            // SAFETY: the header declares this function with these parameters, as a test checks.
            // It takes any bytes of any length, keeps no pointer, and asks one thing of its
            // caller, which slices have: what it writes overlaps nothing else, being borrowed
            // alone.
            unsafe { exported($($lent)*) }
        }
    };
}

constants! {
    /// Done: what was asked for stands in the words.
    OK: u32 = 0;
    /// A Mold datagram under 20 bytes.
    REFUSED_DATAGRAM_SHORT: u32 = 11;
    /// A Mold datagram over 65,507 bytes, or a writer's total.
    REFUSED_DATAGRAM_LONG: u32 = 12;
    /// The number is 0.
    REFUSED_NUMBER_ZERO: u32 = 13;
    /// For data, number + count is above 2^64 - 1.
    REFUSED_NUMBERS_RUN_OUT: u32 = 14;
    /// A block runs past the end.
    REFUSED_BLOCK_PAST_END: u32 = 15;
    /// Bytes stand after the last block.
    REFUSED_BYTES_AFTER_BLOCKS: u32 = 16;
    /// The session differs.
    REFUSED_SESSION_DIFFERS: u32 = 17;
    /// The session has already ended.
    REFUSED_SESSION_ENDED: u32 = 18;
    /// A bad starting setting, an account table over 1,024, or a packet's size, a store's numbers, slots or edges out of bounds.
    REFUSED_BAD_SETTING: u32 = 19;
    /// An end of session below the expected number.
    REFUSED_END_BELOW_EXPECTED: u32 = 20;
    /// A packet's length is 0.
    REFUSED_LENGTH_ZERO: u32 = 21;
    /// A payload above 4,096 bytes.
    REFUSED_PAYLOAD_LONG: u32 = 22;
    /// The letter is unknown, or of the wrong sender.
    REFUSED_LETTER_NOT_SENT: u32 = 23;
    /// The length is wrong for the letter.
    REFUSED_LENGTH_WRONG: u32 = 24;
    /// A bad session, number or reason field.
    REFUSED_FIELD_BAD: u32 = 25;
    /// The packet isn't taken in this state.
    REFUSED_PACKET_NOT_TAKEN: u32 = 31;
    /// The state is ended or closed.
    REFUSED_STATE_CLOSED: u32 = 32;
    /// A login accepted doesn't match what was asked.
    REFUSED_LOGIN_NOT_ASKED: u32 = 33;
    /// A sequenced message at 2^64 - 1.
    REFUSED_NUMBERS_USED_UP: u32 = 34;
    /// The lent output is shorter than needed.
    REFUSED_OUTPUT_SHORT: u32 = 41;
    /// Over 65,534 messages.
    REFUSED_TOO_MANY_MESSAGES: u32 = 42;
    /// The lengths don't add up to the data.
    REFUSED_LENGTHS_DIFFER: u32 = 44;
    /// A writer is given an unsound username or password, a bad session or reason, or A number 0.
    REFUSED_FIELD_NOT_WRITTEN: u32 = 46;
    /// A request that isn't 20 bytes.
    REFUSED_REQUEST_SIZE: u32 = 47;
    /// A request whose count is 0 or 65,535.
    REFUSED_REQUEST_COUNT: u32 = 48;
    /// The wanted number isn't in the store.
    REFUSED_NOT_IN_STORE: u32 = 51;
    /// A message alone doesn't fit the packet's size.
    REFUSED_MESSAGE_LONG: u32 = 52;
    /// A request's session isn't the store's.
    REFUSED_STORE_DIFFERS: u32 = 53;
    /// A run has no packet at that place.
    REFUSED_NO_SUCH_PACKET: u32 = 54;

    /// The name of a session, in bytes.
    SESSION_SIZE: usize = 10;
    /// A username, in bytes.
    USERNAME_SIZE: usize = 6;
    /// A password, in bytes.
    PASSWORD_SIZE: usize = 10;
    /// An account, in bytes: username, then password.
    ACCOUNT_SIZE: usize = 16;
    /// The header of a datagram and a whole request, in bytes.
    MOLD_HEADER_SIZE: usize = 20;
    /// The largest datagram, in bytes.
    LARGEST_DATAGRAM: usize = 65507;
    /// The largest SoupBinTCP packet, in bytes.
    LARGEST_PACKET: usize = 4099;
    /// The largest reply to a login, in bytes.
    LARGEST_REPLY: usize = 33;
    /// A buffer that every capture's report fits, in bytes.
    LARGEST_REPORT: usize = 256;
    /// A slot, and the longest message that is held in one, in bytes.
    SLOT_SIZE: usize = 1024;
    /// The 64 slots of a receiver that keeps early messages, in bytes.
    SLOTS_SIZE: usize = 65536;
    /// The buffer that the text of what is missing needs, however short that is, in bytes.
    MISSING_TEXT: usize = 204898;

    /// Offset in a cursor: its code, or no messages are left (1).
    CURSOR_CODE_AT: usize = 0;
    /// Offset in a cursor: place in the datagram (8).
    CURSOR_PLACE_AT: usize = 1;
    /// Offset in a cursor: messages left (2).
    CURSOR_LEFT_AT: usize = 9;
    /// A cursor, in bytes.
    CURSOR_SIZE: usize = 11;
    /// The code of a cursor.
    CURSOR_OPEN: u8 = 0xE1;

    /// Offset in a receiver: its code, or it is ended (1).
    RECEIVER_CODE_AT: usize = 0;
    /// Offset in a receiver: session (10).
    RECEIVER_SESSION_AT: usize = 1;
    /// Offset in a receiver: number of the next message (8).
    RECEIVER_NEXT_AT: usize = 11;
    /// Offset in a receiver: asking limit (2).
    RECEIVER_LIMIT_AT: usize = 19;
    /// A receiver, in bytes.
    RECEIVER_SIZE: usize = 21;
    /// The code of a receiver that isn't ended.
    RECEIVER_OPEN: u8 = 0xE2;

    /// Offset in a receiver that keeps early messages: its code, or it is ended (1).
    EARLY_CODE_AT: usize = 0;
    /// Offset in a receiver that keeps early messages: session (10).
    EARLY_SESSION_AT: usize = 1;
    /// Offset in a receiver that keeps early messages: number of the next message (8).
    EARLY_NEXT_AT: usize = 11;
    /// Offset in a receiver that keeps early messages: asking limit (2).
    EARLY_LIMIT_AT: usize = 19;
    /// Offset in a receiver that keeps early messages: the held numbers, a bit each, the lowest for
    /// the next number + 1 (8).
    EARLY_HELD_AT: usize = 21;
    /// Offset in a receiver that keeps early messages: length of the message in each slot, its most
    /// significant byte first (64 x 2).
    EARLY_LENGTHS_AT: usize = 29;
    /// A receiver that keeps early messages, in bytes.
    EARLY_SIZE: usize = 157;
    /// The code of a receiver that keeps early messages and isn't ended.
    EARLY_OPEN: u8 = 0xE7;

    /// Offset in a walk: its code, or no messages are left (1).
    WALK_CODE_AT: usize = 0;
    /// Offset in a walk: number of the message to come (8).
    WALK_NUMBER_AT: usize = 1;
    /// Offset in a walk: messages left (2).
    WALK_LEFT_AT: usize = 9;
    /// Offset in a walk: place in the datagram (8).
    WALK_PLACE_AT: usize = 11;
    /// Offset in a walk: the datagram's own messages that are left from there on (2).
    WALK_BLOCKS_AT: usize = 19;
    /// A walk, in bytes.
    WALK_SIZE: usize = 21;
    /// The code of a walk.
    WALK_OPEN: u8 = 0xE8;

    /// Offset in a transmitter: its code, or no packet is left (1).
    TRANSMITTER_CODE_AT: usize = 0;
    /// Offset in a transmitter: messages that went out (8).
    TRANSMITTER_MESSAGES_AT: usize = 1;
    /// Offset in a transmitter: the bytes of their data (8).
    TRANSMITTER_BYTES_AT: usize = 9;
    /// A transmitter, in bytes.
    TRANSMITTER_SIZE: usize = 17;
    /// The code of a transmitter.
    TRANSMITTER_OPEN: u8 = 0xE6;

    /// Offset in a server: its code, or it is closed (1).
    SERVER_CODE_AT: usize = 0;
    /// Offset in a server: session (10).
    SERVER_SESSION_AT: usize = 1;
    /// Offset in a server: number of the last message, 0 if there is none (8).
    SERVER_LAST_AT: usize = 11;
    /// Offset in a server: its phase (1); with the code every other byte is waiting, without it
    /// closed.
    SERVER_PHASE_AT: usize = 19;
    /// A server, in bytes.
    SERVER_SIZE: usize = 20;
    /// The code of a server that isn't closed.
    SERVER_OPEN: u8 = 0xE3;
    /// A server's phase: takes no packet any more.
    SERVER_CLOSED: u8 = 0;
    /// A server's phase: waits for a login.
    SERVER_WAITING: u8 = 1;
    /// A server's phase: the client is in.
    SERVER_IN: u8 = 2;

    /// Offset in a client: its code, or it is ended or closed (1).
    CLIENT_CODE_AT: usize = 0;
    /// Offset in a client: session (10).
    CLIENT_SESSION_AT: usize = 1;
    /// Offset in a client: number asked for, and then that of the next message (8).
    CLIENT_NUMBER_AT: usize = 11;
    /// Offset in a client: its phase (1); with the code only 2 is in and every other byte asked,
    /// without it only 3 is ended and every other closed.
    CLIENT_PHASE_AT: usize = 19;
    /// A client, in bytes.
    CLIENT_SIZE: usize = 20;
    /// The code of a client that is neither ended nor closed.
    CLIENT_OPEN: u8 = 0xE4;
    /// A client's phase: takes no packet any more.
    CLIENT_CLOSED: u8 = 0;
    /// A client's phase: has asked, and waits for the answer.
    CLIENT_ASKED: u8 = 1;
    /// A client's phase: is in.
    CLIENT_IN: u8 = 2;
    /// A client's phase: the server has ended the session.
    CLIENT_ENDED: u8 = 3;

    /// Offset in the reading of a capture: its code, or it is over (1).
    CAPTURE_CODE_AT: usize = 0;
    /// Offset in the reading of a capture: its stage (1); with the code only 2 is records and every
    /// other byte settings, without it only 3 is done and every other settings refused.
    CAPTURE_STAGE_AT: usize = 1;
    /// Offset in the reading of a capture: a receiver that keeps early messages.
    CAPTURE_RECEIVER_AT: usize = 2;
    /// Offset in the reading of a capture: records read (8; above 2^32 - 1 counts as that).
    CAPTURE_RECORDS_AT: usize = 159;
    /// Offset in the reading of a capture: messages delivered (8).
    CAPTURE_DELIVERED_AT: usize = 167;
    /// Offset in the reading of a capture: answers old (8).
    CAPTURE_OLD_AT: usize = 175;
    /// Offset in the reading of a capture: answers quiet (8).
    CAPTURE_QUIET_AT: usize = 183;
    /// Offset in the reading of a capture: requests drawn, beside whatever answer (8).
    CAPTURE_ASKED_AT: usize = 191;
    /// Offset in the reading of a capture: refusals (8).
    CAPTURE_REFUSED_AT: usize = 199;
    /// The reading of a capture, in bytes.
    CAPTURE_SIZE: usize = 207;
    /// The code of a reading that isn't over.
    CAPTURE_OPEN: u8 = 0xE5;
    /// A capture's stage: settings refused.
    CAPTURE_BAD: u8 = 0;
    /// A capture's stage: settings come next.
    CAPTURE_SETTINGS: u8 = 1;
    /// A capture's stage: records come next.
    CAPTURE_RECORDS: u8 = 2;
    /// A capture's stage: done.
    CAPTURE_DONE: u8 = 3;

    /// Offset in a reading for what is missing: its code, or it is over (1).
    MISSING_CODE_AT: usize = 0;
    /// Offset in a reading for what is missing: its stage (1), as [`CAPTURE_STAGE_AT`] has it.
    MISSING_STAGE_AT: usize = 1;
    /// Offset in a reading for what is missing: session (10).
    MISSING_SESSION_AT: usize = 2;
    /// Offset in a reading for what is missing: the highest next number so far (8).
    MISSING_HIGHEST_AT: usize = 12;
    /// Offset in a reading for what is missing: records that may still be read (8).
    MISSING_LEFT_AT: usize = 20;
    /// Offset in a reading for what is missing: ranges that have both edges (8).
    MISSING_CLOSED_AT: usize = 28;
    /// Offset in a reading for what is missing: 0, or the ranges were refused (1).
    MISSING_REFUSED_AT: usize = 36;
    /// A reading for what is missing, in bytes.
    MISSING_SIZE: usize = 37;
    /// The code of a reading for what is missing that isn't over.
    MISSING_OPEN: u8 = 0xE9;
    /// The words of its edges: two for each of 4,096 ranges, and one.
    MISSING_EDGES: usize = 8193;

    /// Word of every writer: how many bytes of the output were written.
    WRITE_SIZE: usize = 0;
    /// How many words a writer has.
    WRITE_WORDS: usize = 1;

    /// A datagram is data.
    MOLD_DATA: u64 = 1;
    /// A datagram is a heartbeat.
    MOLD_HEARTBEAT: u64 = 2;
    /// A datagram is an end of session.
    MOLD_END_OF_SESSION: u64 = 3;

    /// Word of [`mold_read`]: what the datagram is.
    MOLD_READ_KIND: usize = 0;
    /// Word of [`mold_read`]: its sequence number.
    MOLD_READ_NUMBER: usize = 1;
    /// Word of [`mold_read`]: how many messages it has, 0 unless it is data.
    MOLD_READ_COUNT: usize = 2;
    /// How many words [`mold_read`] has.
    MOLD_READ_WORDS: usize = 3;

    /// Word of [`mold_locate`]: 1 if the message is there, else 0.
    LOCATE_FOUND: usize = 0;
    /// Word of [`mold_locate`]: the offset of its first byte in the datagram.
    LOCATE_OFFSET: usize = 1;
    /// Word of [`mold_locate`]: its length, perhaps 0.
    LOCATE_LENGTH: usize = 2;
    /// How many words [`mold_locate`] has.
    LOCATE_WORDS: usize = 3;

    /// Word of [`mold_next`]: 1 if a message is there, else 0.
    NEXT_FOUND: usize = 0;
    /// Word of [`mold_next`]: the offset of its first byte in the datagram.
    NEXT_OFFSET: usize = 1;
    /// Word of [`mold_next`]: its length, perhaps 0.
    NEXT_LENGTH: usize = 2;
    /// How many words [`mold_next`] has.
    NEXT_WORDS: usize = 3;

    /// Word of [`mold_read_request`]: the first number wanted.
    READ_REQUEST_FIRST: usize = 0;
    /// Word of [`mold_read_request`]: how many messages.
    READ_REQUEST_COUNT: usize = 1;
    /// How many words [`mold_read_request`] has.
    READ_REQUEST_WORDS: usize = 2;

    /// A receiver answers: deliver messages of this datagram.
    RECEIVER_DELIVER: u64 = 1;
    /// A receiver answers: nothing new.
    RECEIVER_OLD: u64 = 2;
    /// A receiver answers: a heartbeat, and nothing is missing.
    RECEIVER_QUIET: u64 = 3;
    /// A receiver answers: messages are missing; send a request, if none is under way.
    RECEIVER_ASK: u64 = 4;
    /// A receiver answers: the session is over, and nothing is missing.
    RECEIVER_ENDED: u64 = 5;

    /// Word of [`receiver_take`] and [`receiver_deliver`]: what to do.
    TAKE_ANSWER: usize = 0;
    /// Word of [`receiver_take`] and [`receiver_deliver`]: number of the first message delivered, or
    /// to ask for.
    TAKE_FIRST: usize = 1;
    /// Word of [`receiver_take`] and [`receiver_deliver`]: how many are delivered, or to ask for.
    TAKE_COUNT: usize = 2;
    /// Word of [`receiver_take`] and [`receiver_deliver`]: how many of the datagram's messages are
    /// skipped before those delivered.
    TAKE_SKIPPED: usize = 3;
    /// How many words [`receiver_take`] and [`receiver_deliver`] have.
    TAKE_WORDS: usize = 4;

    /// Word of a place: the offset of the message's first byte in the datagram.
    PLACE_OFFSET: usize = 0;
    /// Word of a place: the message's length, perhaps 0.
    PLACE_LENGTH: usize = 1;
    /// How many words a place has.
    PLACE_WORDS: usize = 2;
    /// How many words are enough for the places of every datagram.
    MOST_PLACES: usize = 65486;

    /// A receiver that keeps early messages answers: deliver messages, of this datagram and of the
    /// slots.
    EARLY_DELIVER: u64 = 1;
    /// A receiver that keeps early messages answers: nothing new.
    EARLY_OLD: u64 = 2;
    /// A receiver that keeps early messages answers: a heartbeat at the expected number.
    EARLY_QUIET: u64 = 3;
    /// A receiver that keeps early messages answers: messages are missing before this datagram.
    EARLY_AHEAD: u64 = 4;
    /// A receiver that keeps early messages answers: the session is over, and nothing is missing.
    EARLY_ENDED: u64 = 5;

    /// Word of [`early_take`] and [`early_deliver`]: what to do.
    EARLY_TAKE_ANSWER: usize = 0;
    /// Word of [`early_take`] and [`early_deliver`]: number of the first message delivered.
    EARLY_TAKE_FIRST: usize = 1;
    /// Word of [`early_take`] and [`early_deliver`]: how many are delivered, those of the slots too.
    EARLY_TAKE_COUNT: usize = 2;
    /// Word of [`early_take`] and [`early_deliver`]: how many of the datagram's messages are skipped
    /// before those delivered.
    EARLY_TAKE_SKIPPED: usize = 3;
    /// Word of [`early_take`] and [`early_deliver`]: 1 if messages are missing, else 0.
    EARLY_TAKE_ASKS: usize = 4;
    /// Word of [`early_take`] and [`early_deliver`]: the first number wanted.
    EARLY_TAKE_FROM: usize = 5;
    /// Word of [`early_take`] and [`early_deliver`]: how many are wanted.
    EARLY_TAKE_WANTED: usize = 6;
    /// How many words [`early_take`] and [`early_deliver`] have.
    EARLY_TAKE_WORDS: usize = 7;

    /// Word of [`early_count`]: how many messages the datagram will deliver.
    EARLY_COUNT_COUNT: usize = 0;
    /// How many words [`early_count`] has.
    EARLY_COUNT_WORDS: usize = 1;

    /// Word of [`early_locate`] and [`early_next`]: 1 if a message is there, else 0.
    PART_FOUND: usize = 0;
    /// Word of [`early_locate`] and [`early_next`]: 1 if it lies in the slots, 0 if in the datagram.
    PART_HELD: usize = 1;
    /// Word of [`early_locate`] and [`early_next`]: the offset of its first byte there.
    PART_OFFSET: usize = 2;
    /// Word of [`early_locate`] and [`early_next`]: its length, perhaps 0.
    PART_LENGTH: usize = 3;
    /// How many words [`early_locate`] and [`early_next`] have.
    PART_WORDS: usize = 4;

    /// Word of an early receiver's place: 1 if the message lies in the slots, 0 if in the datagram.
    EARLY_PLACE_HELD: usize = 0;
    /// Word of an early receiver's place: the offset of the message's first byte there.
    EARLY_PLACE_OFFSET: usize = 1;
    /// Word of an early receiver's place: the message's length, perhaps 0.
    EARLY_PLACE_LENGTH: usize = 2;
    /// How many words an early receiver's place has.
    EARLY_PLACE_WORDS: usize = 3;
    /// How many words are enough for the places of every datagram at an early receiver.
    EARLY_MOST_PLACES: usize = 98421;

    /// Of a stream: the server sends it.
    SOUP_FROM_SERVER: u8 = 0;
    /// Of a stream: the client sends it.
    SOUP_FROM_CLIENT: u8 = 1;

    /// Word of [`soup_read`]: the letter of the packet, or 0 where more is needed.
    SOUP_READ_LETTER: usize = 0;
    /// Word of [`soup_read`]: its size in bytes.
    SOUP_READ_SIZE: usize = 1;
    /// Word of [`soup_read`]: the number of 'A' and 'L'.
    SOUP_READ_NUMBER: usize = 2;
    /// Word of [`soup_read`]: the reason of 'J'.
    SOUP_READ_REASON: usize = 2;
    /// How many words [`soup_read`] has.
    SOUP_READ_WORDS: usize = 3;

    /// Word of [`soup_scan`]: how many packets.
    SCAN_COUNT: usize = 0;
    /// Word of [`soup_scan`]: how many bytes they take.
    SCAN_SIZE: usize = 1;
    /// Word of [`soup_scan`]: the number of the refusal of the packet behind them, or 0 where more
    /// is needed.
    SCAN_REFUSAL: usize = 2;
    /// How many words [`soup_scan`] has.
    SCAN_WORDS: usize = 3;

    /// A session answers: no whole packet yet; read on.
    SESSION_NEED_MORE: u64 = 0;
    /// A session answers: a login is accepted; the server sends 'A', its session and this number.
    SESSION_ACCEPTED: u64 = 1;
    /// A session answers: a login is rejected; the server sends 'J' and this reason; it is closed.
    SESSION_REJECTED: u64 = 2;
    /// A session answers: a message for the client's program.
    SESSION_SEQUENCED: u64 = 3;
    /// A session answers: a message for the server's program.
    SESSION_UNSEQUENCED: u64 = 4;
    /// A session answers: the other end is alive.
    SESSION_HEARTBEAT: u64 = 5;
    /// A session answers: a debug packet, to be ignored.
    SESSION_DEBUG: u64 = 6;
    /// A session answers: the client logs out; the session is closed.
    SESSION_LOGGED_OUT: u64 = 7;
    /// A session answers: the server ends the session.
    SESSION_OVER: u64 = 8;

    /// Word of [`server_step`]: what it answers.
    SERVER_STEP_ANSWER: usize = 0;
    /// Word of [`server_step`]: how many bytes it took, 0 where more are needed.
    SERVER_STEP_SIZE: usize = 1;
    /// Word of [`server_step`]: of accepted, the number to write in 'A'.
    SERVER_STEP_NUMBER: usize = 2;
    /// Word of [`server_step`]: of rejected, to write in 'J': 'A' the account, 'S' the session or
    /// number.
    SERVER_STEP_REASON: usize = 2;
    /// Word of [`server_step`]: of unsequenced, the offset of the message in the stream.
    SERVER_STEP_OFFSET: usize = 2;
    /// Word of [`server_step`]: of unsequenced, its length.
    SERVER_STEP_LENGTH: usize = 3;
    /// How many words [`server_step`] has; the last one is 0.
    SERVER_STEP_WORDS: usize = 5;

    /// Word of [`server_reply`]: what it answers.
    SERVER_REPLY_ANSWER: usize = 0;
    /// Word of [`server_reply`]: how many bytes it took, 0 where more are needed.
    SERVER_REPLY_SIZE: usize = 1;
    /// Word of [`server_reply`]: of accepted, the number in 'A'.
    SERVER_REPLY_NUMBER: usize = 2;
    /// Word of [`server_reply`]: of rejected, the reason in 'J'.
    SERVER_REPLY_REASON: usize = 2;
    /// Word of [`server_reply`]: of unsequenced, the offset of the message in the stream.
    SERVER_REPLY_OFFSET: usize = 2;
    /// Word of [`server_reply`]: of unsequenced, its length.
    SERVER_REPLY_LENGTH: usize = 3;
    /// Word of [`server_reply`]: how many bytes of the output were written, the reply to send.
    SERVER_REPLY_WRITTEN: usize = 5;
    /// How many words [`server_reply`] has; the fifth one is 0.
    SERVER_REPLY_WORDS: usize = 6;

    /// Word of [`client_step`]: what it answers.
    CLIENT_STEP_ANSWER: usize = 0;
    /// Word of [`client_step`]: how many bytes it took, 0 where more are needed.
    CLIENT_STEP_SIZE: usize = 1;
    /// Word of [`client_step`]: of accepted, the number of the next message; of sequenced: of this
    /// one.
    CLIENT_STEP_NUMBER: usize = 2;
    /// Word of [`client_step`]: of rejected.
    CLIENT_STEP_REASON: usize = 2;
    /// Word of [`client_step`]: of sequenced, the offset of the message in the stream.
    CLIENT_STEP_OFFSET: usize = 3;
    /// Word of [`client_step`]: of sequenced, its length.
    CLIENT_STEP_LENGTH: usize = 4;
    /// How many words [`client_step`] has.
    CLIENT_STEP_WORDS: usize = 5;

    /// Word of [`capture_feed`]: how many bytes were used.
    FEED_USED: usize = 0;
    /// Word of [`capture_feed`]: 1 once the reading is over, so that nothing that follows changes
    /// the report, else 0.
    FEED_OVER: usize = 1;
    /// How many words [`capture_feed`] has.
    FEED_WORDS: usize = 2;

    /// Word of [`missing_count`]: 1 if settings were read and the ranges weren't refused, else 0.
    MISSING_COUNT_LISTED: usize = 0;
    /// Word of [`missing_count`]: how many ranges are missing so far.
    MISSING_COUNT_RANGES: usize = 1;
    /// Word of [`missing_count`]: how many numbers they have.
    MISSING_COUNT_NUMBERS: usize = 2;
    /// How many words [`missing_count`] has.
    MISSING_COUNT_WORDS: usize = 3;
    /// Word of [`missing_range`]: 1 if a range is there, else 0.
    MISSING_RANGE_FOUND: usize = 0;
    /// Word of [`missing_range`]: its first number.
    MISSING_RANGE_FROM: usize = 1;
    /// Word of [`missing_range`]: its last number.
    MISSING_RANGE_TO: usize = 2;
    /// How many words [`missing_range`] has.
    MISSING_RANGE_WORDS: usize = 3;
}

/// The number of a refusal in a returned code, or [`OK`]: its low 8 bits.
pub const fn number(code: u32) -> u32 {
    code & 0xFF
}

exported! {
    /// The version of the library, to compare with [`VERSION`].
    version();

    /// Reads a datagram. Words: what it is, its number, how many messages.
    mold_read(datagram: &[u8], words: &mut [u64]);
    /// Finds a message by its place. Words: 1 or 0, its offset, its length.
    mold_locate(datagram: &[u8], place: u16, words: &mut [u64]);
    /// Sets a cursor to a datagram's first message.
    mold_walk(datagram: &[u8], cursor: &mut [u8]);
    /// Answers the message at a cursor and moves on; where none is there the cursor stays as it is.
    /// Words: 1 or 0, its offset, its length.
    mold_next(cursor: &mut [u8], datagram: &[u8], words: &mut [u64]);
    /// Writes data. Words: how many bytes.
    mold_write_data(session: &[u8], first: u64, lengths: &[u16], joined: &[u8], out: &mut [u8],
        words: &mut [u64]);
    /// Writes a heartbeat. Words: how many bytes.
    mold_write_heartbeat(session: &[u8], next: u64, out: &mut [u8], words: &mut [u64]);
    /// Writes an end of session. Words: how many bytes.
    mold_write_end(session: &[u8], next: u64, out: &mut [u8], words: &mut [u64]);
    /// Reads a request. Words: the first number wanted, how many messages.
    mold_read_request(request: &[u8], words: &mut [u64]);
    /// Writes a request. Words: how many bytes.
    mold_write_request(session: &[u8], first: u64, count: u16, out: &mut [u8], words: &mut [u64]);

    /// Starts a receiver.
    receiver_start(session: &[u8], next: u64, limit: u16, state: &mut [u8]);
    /// Takes a datagram. Words: what to do, a first number, how many, how many skipped.
    receiver_take(state: &mut [u8], datagram: &[u8], words: &mut [u64]);
    /// Takes a datagram, and lays the place of each delivered message: its offset and its length.
    /// Words: those of [`receiver_take`].
    receiver_deliver(state: &mut [u8], datagram: &[u8], words: &mut [u64], places: &mut [u64]);
    /// Sets a cursor to the first message delivered.
    receiver_walk(datagram: &[u8], count: u16, skipped: u16, cursor: &mut [u8]);

    /// Starts a receiver that keeps early messages.
    early_start(session: &[u8], next: u64, limit: u16, state: &mut [u8]);
    /// Takes a datagram. Words: what to do, a first number, how many, how many skipped; 1 or 0, the
    /// first number wanted, how many.
    early_take(state: &mut [u8], slots: &mut [u8], datagram: &[u8], words: &mut [u64]);
    /// Says how many messages a datagram will deliver. Words: how many.
    early_count(state: &[u8], slots: &[u8], datagram: &[u8], words: &mut [u64]);
    /// Finds a message that a datagram will deliver by its place. Words: 1 or 0, 1 if it lies in the
    /// slots, its offset, its length.
    early_locate(state: &[u8], slots: &[u8], datagram: &[u8], place: u16, words: &mut [u64]);
    /// Sets a walk to the first message that a datagram will deliver.
    early_walk(state: &[u8], slots: &[u8], datagram: &[u8], cursor: &mut [u8]);
    /// Answers the message at a walk and moves on; where none is there the walk stays as it is.
    /// Words: those of [`early_locate`].
    early_next(cursor: &mut [u8], state: &[u8], slots: &[u8], datagram: &[u8],
        words: &mut [u64]);
    /// Takes a datagram, and lays the place of each delivered message: 1 if it lies in the slots, its
    /// offset and its length. Words: those of [`early_take`].
    early_deliver(state: &mut [u8], slots: &mut [u8], datagram: &[u8], words: &mut [u64],
        places: &mut [u64]);

    /// Answers a request from a store. Words: how many bytes.
    store_answer(session: &[u8], first: u64, lengths: &[u16], joined: &[u8], size: u64,
        request: &[u8], out: &mut [u8], words: &mut [u64]);
    /// Writes the packet of a run at a place. Words: how many bytes.
    transmitter_packet(session: &[u8], first: u64, lengths: &[u16], joined: &[u8], size: u64,
        place: u64, out: &mut [u8], words: &mut [u64]);
    /// Starts the packets of a run.
    transmitter_start(first: u64, lengths: &[u16], joined: &[u8], size: u64, state: &mut [u8]);
    /// Writes the next packet of a run, and moves on. Words: how many bytes.
    transmitter_next(session: &[u8], first: u64, lengths: &[u16], joined: &[u8], size: u64,
        state: &mut [u8], out: &mut [u8], words: &mut [u64]);

    /// Reads the packet at the front of a stream. Words: its letter or 0, its size, and its number
    /// or reason.
    soup_read(stream: &[u8], sender: u8, words: &mut [u64]);
    /// Passes the good packets at the front of a stream. Words: how many, their bytes, and what
    /// stopped it.
    soup_scan(stream: &[u8], sender: u8, words: &mut [u64]);
    /// Writes a debug packet. Words: how many bytes.
    soup_write_debug(payload: &[u8], out: &mut [u8], words: &mut [u64]);
    /// Writes a login accepted. Words: how many bytes.
    soup_write_accepted(session: &[u8], number: u64, out: &mut [u8], words: &mut [u64]);
    /// Writes a login rejected. Words: how many bytes.
    soup_write_rejected(reason: u8, out: &mut [u8], words: &mut [u64]);
    /// Writes a sequenced message. Words: how many bytes.
    soup_write_sequenced(payload: &[u8], out: &mut [u8], words: &mut [u64]);
    /// Writes a server's heartbeat. Words: how many bytes.
    soup_write_server_heartbeat(out: &mut [u8], words: &mut [u64]);
    /// Writes an end of session. Words: how many bytes.
    soup_write_end(out: &mut [u8], words: &mut [u64]);
    /// Writes a login request. Words: how many bytes.
    soup_write_login(username: &[u8], password: &[u8], session: &[u8], number: u64, out: &mut [u8],
        words: &mut [u64]);
    /// Writes an unsequenced message. Words: how many bytes.
    soup_write_unsequenced(payload: &[u8], out: &mut [u8], words: &mut [u64]);
    /// Writes a client's heartbeat. Words: how many bytes.
    soup_write_client_heartbeat(out: &mut [u8], words: &mut [u64]);
    /// Writes a logout. Words: how many bytes.
    soup_write_logout(out: &mut [u8], words: &mut [u64]);

    /// Starts a server's end of a connection.
    server_start(session: &[u8], last: u64, state: &mut [u8]);
    /// Moves a server's last number.
    server_set_last(state: &mut [u8], last: u64);
    /// Takes a client's packet. Words: the answer, the bytes taken, and up to three values.
    server_step(state: &mut [u8], accounts: &[u8], stream: &[u8], words: &mut [u64]);
    /// Takes a client's packet, and writes the reply. Words: those of [`server_step`], and how many
    /// bytes were written.
    server_reply(state: &mut [u8], accounts: &[u8], stream: &[u8], out: &mut [u8],
        words: &mut [u64]);
    /// Starts a client's end of a connection.
    client_start(session: &[u8], number: u64, state: &mut [u8]);
    /// Takes a server's packet. Words: the answer, the bytes taken, and up to three values.
    client_step(state: &mut [u8], stream: &[u8], words: &mut [u64]);

    /// Starts the reading of a capture.
    capture_start(state: &mut [u8]);
    /// Feeds bytes of a capture. Words: how many were used, 1 if the report stands already.
    capture_feed(state: &mut [u8], slots: &mut [u8], bytes: &[u8], words: &mut [u64]);
    /// Feeds the last bytes of a capture.
    capture_finish(state: &mut [u8], slots: &mut [u8], bytes: &[u8]);
    /// Writes the report of what was read. Words: how many bytes.
    capture_write(state: &[u8], out: &mut [u8], words: &mut [u64]);
    /// Writes the report of a whole capture. Words: how many bytes.
    capture_report(capture: &[u8], out: &mut [u8], words: &mut [u64]);

    /// Starts the reading of a capture for what is missing.
    missing_start(state: &mut [u8]);
    /// Feeds bytes of a capture. Words: those of [`capture_feed`].
    missing_feed(state: &mut [u8], edges: &mut [u64], bytes: &[u8], words: &mut [u64]);
    /// Feeds the last bytes of a capture.
    missing_finish(state: &mut [u8], edges: &mut [u64], bytes: &[u8]);
    /// Says what is missing so far. Words: 1 if ranges are listed, how many, and how many numbers.
    missing_count(state: &[u8], edges: &[u64], words: &mut [u64]);
    /// Finds a missing range by its place. Words: 1 if it is there, its first and its last number.
    missing_range(state: &[u8], edges: &[u64], place: u64, words: &mut [u64]);
    /// Writes what is missing so far. Words: how many bytes.
    missing_write(state: &[u8], edges: &[u64], out: &mut [u8], words: &mut [u64]);
}

#[cfg(test)]
mod tests {
    use super::*;

    #[test]
    fn the_archive_is_of_this_crates_version() {
        assert_eq!(version(), VERSION);
        refuse_another(VERSION);
    }

    #[test]
    #[should_panic(expected = "libeiderwagon.a is of version 0.2.3, and this crate is for 0.1.0")]
    fn an_archive_of_another_version_is_refused() {
        refuse_another(0x000203);
    }
}
