//! One call of the library as a value: what is only read stands in `Call`, what is written in `Lent`.

use std::fmt::{self, Display, Formatter};

/// The buffers that a call may write: each function uses those that it has.
#[derive(Clone, Debug, PartialEq, Eq, Default)]
pub struct Lent {
    pub words: Vec<u64>,
    pub out: Vec<u8>,
    /// A state or a cursor.
    pub state: Vec<u8>,
    /// Of the places of delivered messages.
    pub places: Vec<u64>,
    /// Of a receiver that keeps early messages.
    pub slots: Vec<u8>,
    /// Of missing ranges.
    pub edges: Vec<u64>,
}

#[derive(Clone, Copy, Debug)]
pub enum Call<'a> {
    MoldRead {
        datagram: &'a [u8],
    },
    MoldLocate {
        datagram: &'a [u8],
        place: u16,
    },
    MoldWalk {
        datagram: &'a [u8],
    },
    MoldNext {
        datagram: &'a [u8],
    },
    MoldWriteData {
        session: &'a [u8],
        first: u64,
        lengths: &'a [u16],
        data: &'a [u8],
    },
    MoldWriteHeartbeat {
        session: &'a [u8],
        next: u64,
    },
    MoldWriteEnd {
        session: &'a [u8],
        next: u64,
    },
    MoldReadRequest {
        request: &'a [u8],
    },
    MoldWriteRequest {
        session: &'a [u8],
        first: u64,
        count: u16,
    },
    ReceiverStart {
        session: &'a [u8],
        next: u64,
        limit: u16,
    },
    ReceiverTake {
        datagram: &'a [u8],
    },
    ReceiverDeliver {
        datagram: &'a [u8],
    },
    ReceiverWalk {
        datagram: &'a [u8],
        count: u16,
        skipped: u16,
    },
    EarlyStart {
        session: &'a [u8],
        next: u64,
        limit: u16,
    },
    EarlyTake {
        datagram: &'a [u8],
    },
    EarlyCount {
        state: &'a [u8],
        slots: &'a [u8],
        datagram: &'a [u8],
    },
    EarlyLocate {
        state: &'a [u8],
        slots: &'a [u8],
        datagram: &'a [u8],
        place: u16,
    },
    EarlyWalk {
        state: &'a [u8],
        slots: &'a [u8],
        datagram: &'a [u8],
    },
    EarlyNext {
        state: &'a [u8],
        slots: &'a [u8],
        datagram: &'a [u8],
    },
    EarlyDeliver {
        datagram: &'a [u8],
    },
    StoreAnswer {
        session: &'a [u8],
        first: u64,
        lengths: &'a [u16],
        data: &'a [u8],
        size: u64,
        request: &'a [u8],
    },
    TransmitterPacket {
        session: &'a [u8],
        first: u64,
        lengths: &'a [u16],
        data: &'a [u8],
        size: u64,
        place: u64,
    },
    TransmitterStart {
        first: u64,
        lengths: &'a [u16],
        data: &'a [u8],
        size: u64,
    },
    TransmitterNext {
        session: &'a [u8],
        first: u64,
        lengths: &'a [u16],
        data: &'a [u8],
        size: u64,
    },
    SoupRead {
        stream: &'a [u8],
        sender: u8,
    },
    SoupScan {
        stream: &'a [u8],
        sender: u8,
    },
    SoupWriteDebug {
        payload: &'a [u8],
    },
    SoupWriteAccepted {
        session: &'a [u8],
        number: u64,
    },
    SoupWriteRejected {
        reason: u8,
    },
    SoupWriteSequenced {
        payload: &'a [u8],
    },
    SoupWriteServerHeartbeat,
    SoupWriteEnd,
    SoupWriteLogin {
        username: &'a [u8],
        password: &'a [u8],
        session: &'a [u8],
        number: u64,
    },
    SoupWriteUnsequenced {
        payload: &'a [u8],
    },
    SoupWriteClientHeartbeat,
    SoupWriteLogout,
    ServerStart {
        session: &'a [u8],
        last: u64,
    },
    ServerSetLast {
        last: u64,
    },
    ServerStep {
        accounts: &'a [u8],
        stream: &'a [u8],
    },
    ServerReply {
        accounts: &'a [u8],
        stream: &'a [u8],
    },
    ClientStart {
        session: &'a [u8],
        number: u64,
    },
    ClientStep {
        stream: &'a [u8],
    },
    CaptureStart,
    CaptureFeed {
        bytes: &'a [u8],
    },
    CaptureFinish {
        bytes: &'a [u8],
    },
    CaptureWrite,
    CaptureReport {
        capture: &'a [u8],
    },
    MissingStart,
    MissingFeed {
        bytes: &'a [u8],
    },
    MissingFinish {
        bytes: &'a [u8],
    },
    MissingCount,
    MissingRange {
        place: u64,
    },
    MissingWrite,
}

/// What a call reads, in one shape for all functions: for printing it, and for seeing that it stays as it was.
#[derive(Clone, Copy, Debug, PartialEq, Eq)]
pub enum Input<'a> {
    Bytes(&'a [u8]),
    Lengths(&'a [u16]),
    Number(u64),
}

impl<'a> Call<'a> {
    /// The function's name in the header, without its prefix.
    pub fn function(&self) -> &'static str {
        use Call::*;
        match self {
            MoldRead { .. } => "mold_read",
            MoldLocate { .. } => "mold_locate",
            MoldWalk { .. } => "mold_walk",
            MoldNext { .. } => "mold_next",
            MoldWriteData { .. } => "mold_write_data",
            MoldWriteHeartbeat { .. } => "mold_write_heartbeat",
            MoldWriteEnd { .. } => "mold_write_end",
            MoldReadRequest { .. } => "mold_read_request",
            MoldWriteRequest { .. } => "mold_write_request",
            ReceiverStart { .. } => "receiver_start",
            ReceiverTake { .. } => "receiver_take",
            ReceiverDeliver { .. } => "receiver_deliver",
            ReceiverWalk { .. } => "receiver_walk",
            EarlyStart { .. } => "early_start",
            EarlyTake { .. } => "early_take",
            EarlyCount { .. } => "early_count",
            EarlyLocate { .. } => "early_locate",
            EarlyWalk { .. } => "early_walk",
            EarlyNext { .. } => "early_next",
            EarlyDeliver { .. } => "early_deliver",
            StoreAnswer { .. } => "store_answer",
            TransmitterPacket { .. } => "transmitter_packet",
            TransmitterStart { .. } => "transmitter_start",
            TransmitterNext { .. } => "transmitter_next",
            SoupRead { .. } => "soup_read",
            SoupScan { .. } => "soup_scan",
            SoupWriteDebug { .. } => "soup_write_debug",
            SoupWriteAccepted { .. } => "soup_write_accepted",
            SoupWriteRejected { .. } => "soup_write_rejected",
            SoupWriteSequenced { .. } => "soup_write_sequenced",
            SoupWriteServerHeartbeat => "soup_write_server_heartbeat",
            SoupWriteEnd => "soup_write_end",
            SoupWriteLogin { .. } => "soup_write_login",
            SoupWriteUnsequenced { .. } => "soup_write_unsequenced",
            SoupWriteClientHeartbeat => "soup_write_client_heartbeat",
            SoupWriteLogout => "soup_write_logout",
            ServerStart { .. } => "server_start",
            ServerSetLast { .. } => "server_set_last",
            ServerStep { .. } => "server_step",
            ServerReply { .. } => "server_reply",
            ClientStart { .. } => "client_start",
            ClientStep { .. } => "client_step",
            CaptureStart => "capture_start",
            CaptureFeed { .. } => "capture_feed",
            CaptureFinish { .. } => "capture_finish",
            CaptureWrite => "capture_write",
            CaptureReport { .. } => "capture_report",
            MissingStart => "missing_start",
            MissingFeed { .. } => "missing_feed",
            MissingFinish { .. } => "missing_finish",
            MissingCount => "missing_count",
            MissingRange { .. } => "missing_range",
            MissingWrite => "missing_write",
        }
    }

    /// What the call reads, in the header's order.
    pub fn inputs(&self) -> Vec<(&'static str, Input<'a>)> {
        use Call::*;
        use Input::{Bytes, Lengths, Number};
        match *self {
            MoldRead { datagram }
            | MoldWalk { datagram }
            | MoldNext { datagram }
            | ReceiverTake { datagram }
            | ReceiverDeliver { datagram }
            | EarlyTake { datagram }
            | EarlyDeliver { datagram } => vec![("datagram", Bytes(datagram))],
            EarlyCount {
                state,
                slots,
                datagram,
            }
            | EarlyWalk {
                state,
                slots,
                datagram,
            }
            | EarlyNext {
                state,
                slots,
                datagram,
            } => early_inputs(state, slots, datagram),
            EarlyLocate {
                state,
                slots,
                datagram,
                place,
            } => {
                let mut inputs = early_inputs(state, slots, datagram);
                inputs.push(("place", Number(place.into())));
                inputs
            }
            MoldLocate { datagram, place } => vec![
                ("datagram", Bytes(datagram)),
                ("place", Number(place.into())),
            ],
            MoldWriteData {
                session,
                first,
                lengths,
                data,
            } => vec![
                ("session", Bytes(session)),
                ("first", Number(first)),
                ("lengths", Lengths(lengths)),
                ("joined", Bytes(data)),
            ],
            MoldWriteHeartbeat { session, next } | MoldWriteEnd { session, next } => {
                vec![("session", Bytes(session)), ("next", Number(next))]
            }
            MoldReadRequest { request } => vec![("request", Bytes(request))],
            MoldWriteRequest {
                session,
                first,
                count,
            } => vec![
                ("session", Bytes(session)),
                ("first", Number(first)),
                ("count", Number(count.into())),
            ],
            ReceiverStart {
                session,
                next,
                limit,
            }
            | EarlyStart {
                session,
                next,
                limit,
            } => vec![
                ("session", Bytes(session)),
                ("next", Number(next)),
                ("limit", Number(limit.into())),
            ],
            ReceiverWalk {
                datagram,
                count,
                skipped,
            } => vec![
                ("datagram", Bytes(datagram)),
                ("count", Number(count.into())),
                ("skipped", Number(skipped.into())),
            ],
            StoreAnswer {
                session,
                first,
                lengths,
                data,
                size,
                request,
            } => vec![
                ("session", Bytes(session)),
                ("first", Number(first)),
                ("lengths", Lengths(lengths)),
                ("joined", Bytes(data)),
                ("size", Number(size)),
                ("request", Bytes(request)),
            ],
            TransmitterPacket {
                session,
                first,
                lengths,
                data,
                size,
                place,
            } => vec![
                ("session", Bytes(session)),
                ("first", Number(first)),
                ("lengths", Lengths(lengths)),
                ("joined", Bytes(data)),
                ("size", Number(size)),
                ("place", Number(place)),
            ],
            TransmitterStart {
                first,
                lengths,
                data,
                size,
            } => vec![
                ("first", Number(first)),
                ("lengths", Lengths(lengths)),
                ("joined", Bytes(data)),
                ("size", Number(size)),
            ],
            TransmitterNext {
                session,
                first,
                lengths,
                data,
                size,
            } => vec![
                ("session", Bytes(session)),
                ("first", Number(first)),
                ("lengths", Lengths(lengths)),
                ("joined", Bytes(data)),
                ("size", Number(size)),
            ],
            SoupRead { stream, sender } | SoupScan { stream, sender } => {
                vec![("stream", Bytes(stream)), ("sender", Number(sender.into()))]
            }
            SoupWriteDebug { payload }
            | SoupWriteSequenced { payload }
            | SoupWriteUnsequenced { payload } => vec![("payload", Bytes(payload))],
            SoupWriteAccepted { session, number } | ClientStart { session, number } => {
                vec![("session", Bytes(session)), ("number", Number(number))]
            }
            SoupWriteRejected { reason } => vec![("reason", Number(reason.into()))],
            SoupWriteLogin {
                username,
                password,
                session,
                number,
            } => vec![
                ("username", Bytes(username)),
                ("password", Bytes(password)),
                ("session", Bytes(session)),
                ("number", Number(number)),
            ],
            ServerStart { session, last } => {
                vec![("session", Bytes(session)), ("last", Number(last))]
            }
            ServerSetLast { last } => vec![("last", Number(last))],
            ServerStep { accounts, stream } | ServerReply { accounts, stream } => {
                vec![("accounts", Bytes(accounts)), ("stream", Bytes(stream))]
            }
            ClientStep { stream } => vec![("stream", Bytes(stream))],
            CaptureFeed { bytes }
            | CaptureFinish { bytes }
            | MissingFeed { bytes }
            | MissingFinish { bytes } => vec![("bytes", Bytes(bytes))],
            MissingRange { place } => vec![("place", Number(place))],
            CaptureReport { capture } => vec![("capture", Bytes(capture))],
            SoupWriteServerHeartbeat
            | SoupWriteEnd
            | SoupWriteClientHeartbeat
            | SoupWriteLogout
            | CaptureStart
            | CaptureWrite
            | MissingStart
            | MissingCount
            | MissingWrite => vec![],
        }
    }
}

/// What the functions read that say beforehand what a datagram will deliver.
fn early_inputs<'a>(
    state: &'a [u8],
    slots: &'a [u8],
    datagram: &'a [u8],
) -> Vec<(&'static str, Input<'a>)> {
    vec![
        ("receiver", Input::Bytes(state)),
        ("slots", Input::Bytes(slots)),
        ("datagram", Input::Bytes(datagram)),
    ]
}

/// How many bytes of a buffer are printed.
const PRINTED: usize = 400;

/// Bytes in hex, with their number, cut where they are many.
pub fn hex(bytes: &[u8]) -> String {
    let shown: String = bytes
        .iter()
        .take(PRINTED)
        .map(|byte| format!("{byte:02x}"))
        .collect();
    let cut = if bytes.len() > PRINTED { "..." } else { "" };
    format!("({} bytes) {shown}{cut}", bytes.len())
}

impl Display for Input<'_> {
    fn fmt(&self, formatter: &mut Formatter) -> fmt::Result {
        match self {
            Input::Bytes(bytes) => formatter.write_str(&hex(bytes)),
            Input::Number(number) => write!(formatter, "{number}"),
            Input::Lengths(lengths) => {
                let shown = &lengths[..lengths.len().min(PRINTED / 4)];
                write!(formatter, "({} lengths) {shown:?}", lengths.len())
            }
        }
    }
}

impl Display for Call<'_> {
    fn fmt(&self, formatter: &mut Formatter) -> fmt::Result {
        writeln!(formatter, "{}", self.function())?;
        for (name, input) in self.inputs() {
            writeln!(formatter, "  {name} = {input}")?;
        }
        Ok(())
    }
}

impl Display for Lent {
    fn fmt(&self, formatter: &mut Formatter) -> fmt::Result {
        writeln!(formatter, "  words = {:x?}", self.words)?;
        writeln!(formatter, "  out = {}", hex(&self.out))?;
        writeln!(formatter, "  state = {}", hex(&self.state))?;
        writeln!(formatter, "  slots = {}", hex(&self.slots))?;
        for (name, words) in [("places", &self.places), ("edges", &self.edges)] {
            let shown = &words[..words.len().min(PRINTED / 4)];
            writeln!(formatter, "  {name} = ({} words) {shown:?}", words.len())?;
        }
        Ok(())
    }
}
