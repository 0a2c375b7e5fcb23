//! What `report` says of gaps and refusals.

use crate::support::feed::{capture, data, end, heartbeat, run as feed_run, with_settings};
use crate::support::frames::{ethernet, packet, GROUP, PORT};
use crate::support::pcap::{Pcap, ETHERNET};
use crate::support::{run_with, NAME};
use eiderwagon::mold;

/// The lines behind the report.
fn lines(capture: &[u8], options: &[&str]) -> Vec<String> {
    let ran = run_with(capture, &[&["report", "-"], options].concat());
    ran.text().lines().skip(8).map(str::to_string).collect()
}

fn gaps(datagrams: &[Vec<u8>]) -> Vec<String> {
    lines(&capture(datagrams), &["--gaps"])
}

#[test]
fn each_gap_with_its_records() {
    assert_eq!(
        gaps(&feed_run()),
        [
            "gaps=2",
            "4 to 5: opened at record 2, asked for 2 times, closed at record 4",
            "8: opened at record 5, asked for once, closed at record 6",
        ]
    );
}

#[test]
fn none() {
    assert_eq!(gaps(&[data(1, 5), heartbeat(6), end(6)]), ["gaps=0"]);
    assert_eq!(gaps(&[]), ["gaps=0"]);
}

#[test]
fn one_that_a_heartbeat_shows_and_nothing_closes() {
    assert_eq!(
        gaps(&[data(1, 2), heartbeat(9), heartbeat(9)]),
        ["gaps=1", "3 to 8: opened at record 2, asked for 2 times, still open"]
    );
}

#[test]
fn one_that_is_closed_in_parts() {
    let datagrams = [data(6, 6), data(2, 3), data(1, 1), data(5, 5), data(4, 4)];
    let wanted = "1 to 5: opened at record 1, asked for 4 times, closed at record 5";
    assert_eq!(gaps(&datagrams), ["gaps=1", wanted]);
}

#[test]
fn two_at_a_time_of_which_the_later_closes_first() {
    let datagrams = [data(2, 2), data(4, 4), data(3, 3), data(1, 1)];
    assert_eq!(
        gaps(&datagrams),
        [
            "gaps=2",
            "1: opened at record 1, asked for 3 times, closed at record 4",
            "3: opened at record 2, never asked for, closed at record 3",
        ]
    );
}

#[test]
fn what_came_too_early_to_be_held_is_missing() {
    // 70 is 69 ahead, so it isn't held: the gap grows over it, and over what follows
    let datagrams = [data(70, 70), data(71, 75), data(1, 69)];
    let wanted = "1 to 75: opened at record 1, asked for 2 times, still open";
    assert_eq!(gaps(&datagrams), ["gaps=1", wanted]);
}

#[test]
fn what_is_held_in_between_parts_two_gaps() {
    // 3 is held when 4 and 5 turn out to be missing
    let datagrams = [heartbeat(4), data(3, 3), heartbeat(6)];
    assert_eq!(
        gaps(&datagrams),
        [
            "gaps=2",
            "1 to 3: opened at record 1, asked for 3 times, still open",
            "4 to 5: opened at record 3, never asked for, still open",
        ]
    );
}

#[test]
fn the_last_number_that_is_held_is_64_ahead() {
    let closed = "1 to 64: opened at record 1, asked for once, closed at record 2";
    assert_eq!(gaps(&[data(65, 65), data(1, 64)]), ["gaps=1", closed]);
    let open = "1 to 66: opened at record 1, asked for once, still open";
    assert_eq!(gaps(&[data(66, 66), data(1, 65)]), ["gaps=1", open]);
}

#[test]
fn a_message_that_is_too_long_to_be_held_is_missing() {
    let long = |size: usize| {
        let message = vec![b'x'; size];
        let session = NAME.as_bytes().try_into().unwrap();
        mold::write_data(session, 2, &[&message], &mut [0; 2000]).unwrap().to_vec()
    };
    let closed = "1: opened at record 1, asked for once, closed at record 2";
    assert_eq!(gaps(&[long(1024), data(1, 1)]), ["gaps=1", closed]);
    let open = "1 to 2: opened at record 1, asked for once, still open";
    assert_eq!(gaps(&[long(1025), data(1, 1)]), ["gaps=1", open]);
}

#[test]
fn a_gap_above_the_session_s_end() {
    let wanted = "6 to 8: opened at record 2, asked for once, \
                  closed by the session's end at record 3";
    assert_eq!(gaps(&[data(1, 5), heartbeat(9), end(6)]), ["gaps=1", wanted]);
}

#[test]
fn a_clock_that_was_set_back_says_nothing() {
    let frame = |d: &[u8]| ethernet(GROUP, &packet(GROUP, PORT, d));
    let mut pcap = Pcap::new(ETHERNET).frame(&frame(&data(2, 2))).bytes();
    // the second frame's seconds
    let at = pcap.len();
    pcap.extend(Pcap::new(ETHERNET).frame(&frame(&data(1, 1))).bytes().split_off(24));
    pcap[at] -= 1;
    assert_eq!(
        lines(&pcap, &["--session", NAME, "--gaps"]).last().unwrap(),
        "1: opened at record 1 (frame 1), asked for once, closed at record 2 (frame 2)"
    );
}

#[test]
fn the_highest_numbers() {
    let last = u64::MAX;
    let wanted = format!("1 to {}: opened at record 1, asked for once, still open", last - 1);
    assert_eq!(gaps(&[heartbeat(last)]), ["gaps=1", wanted.as_str()]);
}

#[test]
fn more_gaps_than_are_listed() {
    let pairs = (0..65_537)
        .flat_map(|place| [data(2 * place + 2, 2 * place + 2), data(2 * place + 1, 2 * place + 1)]);
    let lines = gaps(&pairs.collect::<Vec<_>>());
    assert_eq!(lines.first().unwrap(), "gaps=65537");
    assert_eq!(lines.last().unwrap(), "and 1 more");
    assert_eq!(lines.len(), 65_538);
}

#[test]
fn a_pcap_tells_frames_and_times() {
    let frames = feed_run().into_iter().map(|d| ethernet(GROUP, &packet(GROUP, PORT, &d)));
    let pcap = Pcap::new(ETHERNET).frame(&[0; 60]).frames(frames).bytes();
    assert_eq!(
        lines(&pcap, &["--session", NAME, "--gaps"]),
        [
            "gaps=2",
            "4 to 5: opened at record 2 (frame 3), asked for 2 times, \
             closed at record 4 (frame 5) after 0.500000 s",
            "8: opened at record 5 (frame 6), asked for once, \
             closed at record 6 (frame 7) after 0.250000 s",
        ]
    );
}

#[test]
fn refusals_by_number() {
    let mut datagrams = feed_run();
    datagrams.insert(0, b"nineteen bytes only".to_vec());
    datagrams.insert(3, b"short".to_vec());
    datagrams.push(data(13, 13));
    assert_eq!(
        lines(&capture(&datagrams), &["--refusals"]),
        [
            "refusals=3",
            "11, 2 times, first at record 1: a Mold datagram under 20 bytes",
            "18, 1 time, first at record 13: the session has already ended",
        ]
    );
}

#[test]
fn as_json() {
    let mut datagrams = vec![data(1, 2), b"short".to_vec()];
    datagrams.extend([data(4, 4), heartbeat(9), data(3, 3)]);
    let ran = run_with(&capture(&datagrams), &["report", "-", "--json", "--gaps", "--refusals"]);
    assert_eq!(
        ran.text(),
        "{\"session\":\"READROOM01\",\"next\":5,\"ended\":false,\"delivered\":4,\"old\":0,\"quiet\":0,\
         \"asked\":2,\"refused\":1,\"gaps\":[\
         {\"from\":3,\"to\":3,\"opened\":{\"record\":3},\"asked\":2,\"closed\":{\"record\":5}},\
         {\"from\":5,\"to\":8,\"opened\":{\"record\":4},\"asked\":0,\"closed\":null}],\"more_gaps\":0,\
         \"refusals\":[{\"number\":11,\"ground\":\"a Mold datagram under 20 bytes\",\"times\":1,\
         \"first\":{\"record\":2}}]}\n"
    );
    assert_eq!(ran.status, 1);
    let frames = [data(2, 2), data(1, 1)].map(|d| ethernet(GROUP, &packet(GROUP, PORT, &d)));
    let pcap = Pcap::new(ETHERNET).frames(frames).bytes();
    let ran = run_with(&pcap, &["report", "-", "--session", NAME, "--json", "--gaps"]);
    let gap = "\"opened\":{\"record\":1,\"frame\":1,\"seconds\":1000.000000},\"asked\":1,\
               \"closed\":{\"record\":2,\"frame\":2,\"seconds\":1000.250000}";
    assert!(ran.text().contains(gap), "{}", ran.text());
    let named = with_settings("session=A\"B\\ROOM01\nnext=1\nlimit=1\n", &[heartbeat(1)]);
    let ran = run_with(&named, &["report", "-", "--json"]);
    assert!(ran.text().starts_with("{\"session\":\"A\\\"B\\\\ROOM01\","), "{}", ran.text());
    let ran = run_with(&capture(&datagrams), &["missing", "-", "--json"]);
    let wanted = "{\"session\":\"READROOM01\",\"ranges\":[{\"from\":5,\"to\":8}],\"missing\":4}\n";
    assert_eq!((ran.text().as_str(), ran.status), (wanted, 1));
    let ran = run_with(b"nothing", &["report", "-", "--json"]);
    assert_eq!((ran.text().as_str(), ran.status), ("{\"settings\":\"refused\"}\n", 2));
}
