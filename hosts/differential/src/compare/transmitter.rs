//! The transmitter's functions.

use super::{name, Expected};
use crate::call::Call;
use crate::layout;
use crate::reference::transmitter::{Progress, Run};
use crate::reference::Name;

pub fn answer(call: &Call, state: &[u8]) -> Option<Expected> {
    let run = run_of(call)?;
    Some(match *call {
        Call::TransmitterPacket { session, place, .. } => {
            Expected::writer(run.packet(&name(session), place))
        }
        Call::TransmitterStart { .. } => match run.check() {
            Ok(()) => {
                Expected::answer("started").state(layout::transmitter_bytes(Progress::default()))
            }
            Err(refusal) => Expected::refusal(refusal),
        },
        Call::TransmitterNext { session, .. } => next(&run, &name(session), state),
        _ => return None,
    })
}

fn next(run: &Run, session: &Name, state: &[u8]) -> Expected {
    match run.next(session, layout::transmitter(state)) {
        Ok((packet, behind)) => Expected::written(packet).state(layout::transmitter_bytes(behind)),
        Err(refusal) => Expected::refusal(refusal),
    }
}

/// The run that a call is lent.
pub fn run_of<'a>(call: &Call<'a>) -> Option<Run<'a>> {
    match *call {
        Call::TransmitterPacket {
            first,
            lengths,
            data,
            size,
            ..
        }
        | Call::TransmitterStart {
            first,
            lengths,
            data,
            size,
        }
        | Call::TransmitterNext {
            first,
            lengths,
            data,
            size,
            ..
        } => Some(Run {
            first,
            lengths,
            data,
            size,
        }),
        _ => None,
    }
}
