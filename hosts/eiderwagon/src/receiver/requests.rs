use crate::mold::Request;
use std::time::Duration;

/// Says which of a receiver's requests to send, so that the same one isn't sent over and over.
///
/// It is asked with each request that the receiver answers, and keeps the last one that was due. The
/// same ask, from the same number on, is due again once the pause is over; one from another number,
/// since messages came meanwhile, is due at once. There is one beside each receiver. It reads no
/// clock: the host gives the time, from any fixed moment on. A time before that of the last request
/// counts as no time since.
///
/// ```
/// use eiderwagon::mold;
/// use eiderwagon::receiver::{Answer, Receiver, Requests};
/// use std::time::Duration;
///
/// let mut receiver = Receiver::start(b"READROOM01", 1, 100)?;
/// let mut requests = Requests::new(Duration::from_millis(20));
/// let mut sent = 0;
///
/// // Message 1 is lost. Each datagram behind it asks for it; one request is enough.
/// for number in 2..=9 {
///     let now = Duration::from_millis(number); // a datagram each millisecond
///     let mut out = [0; 64];
///     let datagram = mold::write_data(b"READROOM01", number, &[b"offer"], &mut out)?;
///     if let Answer::Ask(request) = receiver.take(datagram)? {
///         if requests.due(&request, now) {
///             sent += 1; // write the request, and send it
///         }
///     }
/// }
/// assert_eq!(sent, 1);
/// # Ok::<(), eiderwagon::Refusal>(())
/// ```
#[derive(Clone, Debug)]
pub struct Requests {
    pause: Duration,
    /// The last request that was due, and when it was.
    last: Option<(Request, Duration)>,
}

impl Requests {
    /// The pause after which the same ask is due again: a little more than an answer takes to come.
    pub const fn new(pause: Duration) -> Self {
        Requests { pause, last: None }
    }

    /// Whether to send this request now. One that is due counts as sent.
    #[must_use = "a request that is due counts as sent"]
    pub fn due(&mut self, request: &Request, now: Duration) -> bool {
        let due = match &self.last {
            Some((last, sent)) if is_same_ask(last, request) => {
                now.saturating_sub(*sent) >= self.pause
            }
            _ => true,
        };
        if due {
            self.last = Some((*request, now));
        }
        due
    }
}

/// How many messages are asked for makes no other ask: it grows with each datagram ahead.
fn is_same_ask(one: &Request, other: &Request) -> bool {
    (one.session, one.first) == (other.session, other.first)
}
