//! The capture with its exact report, and settings.

use crate::{ask, data, end, heartbeat};
use differential::call::Call;

pub fn record(datagram: &[u8]) -> Vec<u8> {
    [&(datagram.len() as u16).to_be_bytes()[..], datagram].concat()
}

fn report(capture: &[u8]) -> String {
    let answer = ask(&Call::CaptureReport { capture }, &[]);
    let size = answer.words[0] as usize;
    String::from_utf8(answer.out[..size].to_vec()).expect("a report of a printable session is text")
}

/// The example's records behind settings.
fn example(settings: &str) -> Vec<u8> {
    let datagrams = [
        data(1, &[b"one", b"two"]),
        data(5, &[b"five"]),
        heartbeat(6),
        data(2, &[b"two", b"three", b"four"]),
        data(1, &[b"one", b"two"]),
        data(5, &[b"five"]),
        heartbeat(6),
        vec![0; 19],
        end(6),
    ];
    let mut capture = settings.as_bytes().to_vec();
    for datagram in datagrams {
        capture.extend(record(&datagram));
    }
    capture
}

const SETTINGS: &str = "session=READROOM01\nnext=1\nlimit=100\n";

#[test]
fn the_capture() {
    let exact =
        "session=READROOM01\nnext=6\nended=yes\ndelivered=5\nold=2\nquiet=1\nasked=2\nrefused=1\n";
    assert_eq!(report(&example(SETTINGS)), exact);
    let mut cut = example(SETTINGS);
    cut.push(0);
    assert_eq!(report(&cut), exact.replace("refused=1", "refused=2"));
    let mut more = example(SETTINGS);
    more.extend(record(&[]));
    more.extend(record(&heartbeat(6)));
    assert_eq!(report(&more), exact.replace("refused=1", "refused=3"));
}

#[test]
fn capture_settings() {
    let bad = [
        "",
        "session=READROOM01\nnext=1\nlimit=100",
        "session=READROOM1\nnext=1\nlimit=100\n",
        "session=READROOM011\nnext=1\nlimit=100\n",
        "session=READROOM0\x7f\nnext=1\nlimit=100\n",
        "next=1\nsession=READROOM01\nlimit=100\n",
        "session=READROOM01\nnext=0\nlimit=100\n",
        "session=READROOM01\nnext=01\nlimit=100\n",
        "session=READROOM01\nnext=\nlimit=100\n",
        "session=READROOM01\nnext=1\r\nlimit=100\n",
        "session=READROOM01\nnext=18446744073709551616\nlimit=100\n",
        "session=READROOM01\nnext=1\nlimit=65535\n",
        "session=READROOM01\nnext=1\nlimit=0\n",
    ];
    for settings in bad {
        assert_eq!(
            report(settings.as_bytes()),
            "settings=refused\n",
            "{settings:?}"
        );
    }
    let good = "session= ROOM = ~~\nnext=18446744073709551615\nlimit=65534\n";
    assert!(report(good.as_bytes())
        .starts_with("session= ROOM = ~~\nnext=18446744073709551615\nended=no\n"));
}

/// Order 12: ten spaces are no session of a capture. Nine and a letter are.
#[test]
fn a_blank_session() {
    let refused = "settings=refused\n";
    let blank = example(&SETTINGS.replace("READROOM01", "          "));
    let bytes = blank.as_slice();
    assert_eq!(report(bytes), refused);
    let started = ask(&Call::CaptureStart, &[0; 207]).state;
    let fed = ask(&Call::CaptureFeed { bytes }, &started);
    assert_eq!(fed.words[..2], [bytes.len() as u64, 1]);
    let finished = ask(&Call::CaptureFinish { bytes }, &started);
    for state in [fed.state, finished.state] {
        assert_eq!(state[..2], [0, 0]);
        let written = ask(&Call::CaptureWrite, &state);
        assert_eq!(
            written.out[..written.words[0] as usize],
            *refused.as_bytes()
        );
    }
    let named = SETTINGS.replace("READROOM01", "         R");
    assert!(report(named.as_bytes()).starts_with("session=         R\nnext=1\nended=no\n"));
}

/// The same capture in two pieces, cut at every place.
#[test]
fn the_capture_in_pieces() {
    let whole = example(SETTINGS);
    let wanted = report(&whole);
    for cut in 0..=whole.len() {
        let started = ask(&Call::CaptureStart, &[0; 207]).state;
        let bytes = &whole[..cut];
        let fed = ask(&Call::CaptureFeed { bytes }, &started);
        assert_eq!((fed.code, fed.words[1]), (0, 0));
        let bytes = &whole[fed.words[0] as usize..];
        let finished = ask(&Call::CaptureFinish { bytes }, &fed.state).state;
        let written = ask(&Call::CaptureWrite, &finished);
        assert_eq!(written.out[..written.words[0] as usize], *wanted.as_bytes());
    }
}

/// With 2^32 - 1 records the reading is over, and the bytes behind the last record are ignored: they are no refusal.
#[test]
fn the_most_records() {
    let mut state = ask(&Call::CaptureStart, &[0; 207]).state;
    state[1] = 2;
    state[159..167].copy_from_slice(&(u64::from(u32::MAX) - 1).to_le_bytes());
    let bytes = &[0; 5];
    let fed = ask(&Call::CaptureFeed { bytes }, &state);
    assert_eq!((fed.code, fed.words[..2].to_vec()), (0, vec![5, 1]));
    assert_eq!(fed.state[..2], [0, 3]);
    assert_eq!(fed.state[159..167], u64::from(u32::MAX).to_le_bytes());
    let more = ask(&Call::CaptureFeed { bytes }, &fed.state);
    assert_eq!(
        (more.words[..2].to_vec(), &more.state),
        (vec![5, 1], &fed.state)
    );
    let finished = ask(&Call::CaptureFinish { bytes }, &fed.state).state;
    assert_eq!(finished, fed.state);
    assert_eq!(finished[199..207], 1u64.to_le_bytes());
}
