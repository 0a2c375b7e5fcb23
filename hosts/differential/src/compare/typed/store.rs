//! `eiderwagon::store` and `eiderwagon::transmitter`.

use super::{front, numbered, same, same_bytes, same_state};
use crate::call::Call;
use crate::compare::transmitter::run_of;
use crate::compare::Expected;
use eiderwagon::store::Store;
use eiderwagon::transmitter::Transmitter;

/// The longest run of which a drawn state is looked for.
const LOOKED_FOR: usize = 100;

pub fn difference(
    call: &Call,
    state: &[u8],
    expected: &Expected,
    out: &mut [u8],
) -> Option<String> {
    if let Call::StoreAnswer {
        session,
        first,
        lengths,
        data: joined,
        size,
        request,
    } = *call
    {
        let session = &front(session);
        let store = Store {
            session,
            first,
            lengths,
            joined,
        };
        return same_bytes(expected, store.answer(request, size as usize, out));
    }
    let run = run_of(call)?;
    let session = match *call {
        Call::TransmitterPacket { session, .. } | Call::TransmitterNext { session, .. } => {
            front(session)
        }
        _ => *b"READROOM01",
    };
    let started = Transmitter::start(
        &session,
        run.first,
        run.lengths,
        run.data,
        run.size as usize,
    );
    match *call {
        Call::TransmitterPacket { place, .. } => same_bytes(
            expected,
            started.and_then(|started| started.packet(place, out)),
        ),
        Call::TransmitterStart { .. } => match started {
            Ok(started) => same_state(expected, &[0; 17], started.as_bytes()),
            refused => same("start", numbered(refused.map(|_| ())), Err(expected.code)),
        },
        Call::TransmitterNext { .. } => next(started.ok()?, state, expected, out),
        _ => None,
    }
}

/// A drawn state is given to the types where turns of this run lead to it.
fn next(
    mut transmitter: Transmitter,
    state: &[u8],
    expected: &Expected,
    out: &mut [u8],
) -> Option<String> {
    let mut room = vec![0; 65_507];
    for _ in 0..LOOKED_FOR {
        if transmitter.as_bytes() == &front(state) {
            break;
        }
        transmitter.next_packet(&mut room).ok()??;
    }
    let before = *transmitter.as_bytes();
    if before != front(state) {
        return None;
    }
    let next = numbered(transmitter.next_packet(out));
    let wanted = match expected.code {
        0 => Ok(Some(expected.out.as_slice())),
        54 => Ok(None),
        code => Err(code),
    };
    same("next packet", next, wanted)
        .or_else(|| same_state(expected, &before, transmitter.as_bytes()))
}
