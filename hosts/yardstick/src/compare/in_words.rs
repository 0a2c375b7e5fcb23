//! Steps as the library answers them, and their names.

use crate::host::sessions::StepWords;
use crate::soup::{Answer, Front, Refusal};
use eiderwagon::raw;

/// The code and the words that the header gives a step of either end.
pub fn step_words(step: Result<Front<Answer>, Refusal>, stream: &[u8]) -> (u32, StepWords) {
    let (answer, size) = match step {
        Ok(Some((answer, size))) => (answer, size as u64),
        Ok(None) => return (raw::OK, [raw::SESSION_NEED_MORE, 0, 0, 0, 0]),
        Err(refusal) => return (refusal as u32, StepWords::default()),
    };
    // where a message stands, by its address: no byte is read through it
    let offset = |message: &[u8]| (message.as_ptr() as usize - stream.as_ptr() as usize) as u64;
    let words = match answer {
        Answer::Accepted { number } => [raw::SESSION_ACCEPTED, size, number, 0, 0],
        Answer::Rejected { reason } => [raw::SESSION_REJECTED, size, reason.into(), 0, 0],
        Answer::Sequenced { number, message } => {
            let length = message.len() as u64;
            [
                raw::SESSION_SEQUENCED,
                size,
                number,
                offset(message),
                length,
            ]
        }
        Answer::Unsequenced { message } => {
            let length = message.len() as u64;
            [raw::SESSION_UNSEQUENCED, size, offset(message), length, 0]
        }
        Answer::Heartbeat => [raw::SESSION_HEARTBEAT, size, 0, 0, 0],
        Answer::Debug => [raw::SESSION_DEBUG, size, 0, 0, 0],
        Answer::LoggedOut => [raw::SESSION_LOGGED_OUT, size, 0, 0, 0],
        Answer::Over => [raw::SESSION_OVER, size, 0, 0, 0],
    };
    (raw::OK, words)
}

pub fn step_name(step: Result<Front<Answer>, Refusal>) -> String {
    let answer = match step {
        Ok(Some((answer, _))) => answer,
        Ok(None) => return "more".to_string(),
        Err(refusal) => return (refusal as u32).to_string(),
    };
    match answer {
        Answer::Accepted { .. } => "accepted".to_string(),
        Answer::Rejected { reason } => format!("rejected by {}", char::from(reason)),
        Answer::Sequenced { .. } => "sequenced".to_string(),
        Answer::Unsequenced { .. } => "unsequenced".to_string(),
        Answer::Heartbeat => "heartbeat".to_string(),
        Answer::Debug => "debug".to_string(),
        Answer::LoggedOut => "logged out".to_string(),
        Answer::Over => "over".to_string(),
    }
}
