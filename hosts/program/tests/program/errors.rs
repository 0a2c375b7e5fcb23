//! Every mistake has its sentence and its status.

use crate::support::feed::{capture, data, data_of, end, heartbeat, run as feed_run};
use crate::support::frames::{ethernet, packet, GROUP, PORT};
use crate::support::pcap::{Pcap, ETHERNET};
use crate::support::{program, run, run_with, Folder, Ran, NAME};
use std::fs::File;
use std::process::{Command, Stdio};

const REFUSED: &str = "settings=refused\n";

fn assert_says(ran: &Ran, out: &str, sentence: &str) {
    assert_eq!(
        (ran.text().as_str(), ran.err.as_str()),
        (out, format!("eiderwagon: {sentence}\n").as_str())
    );
    assert_eq!(ran.status, 2);
}

/// Both commands on a file with these bytes: what is printed, and the sentence behind the name.
fn assert_refused(bytes: &[u8], sentence: &str) {
    let folder = Folder::new();
    let path = folder.write("a.capture", bytes);
    for command in ["report", "missing"] {
        let ran = run(&[command, path.to_str().unwrap()]);
        assert_says(&ran, REFUSED, &format!("{}: {sentence}", path.display()));
        let ran = run_with(bytes, &[command, "-"]);
        assert_says(&ran, REFUSED, &format!("standard input: {sentence}"));
    }
}

#[test]
fn files_that_are_not_there() {
    for command in ["import", "report", "missing"] {
        let ran = run(&[command, "no/such.pcap"]);
        assert_says(&ran, "", "no/such.pcap: No such file or directory");
        let ran = run(&[command, "."]);
        assert_says(&ran, "", ".: is a directory, and a file was expected");
    }
    let ran = run(&["import", "-", "no/such.pcap", "--session", NAME]);
    assert_says(&ran, "", "no/such.pcap: No such file or directory");
}

#[test]
fn a_read_that_fails() {
    // its first byte can be asked for, and never had
    for command in ["import", "report", "missing"] {
        let ran = run(&[command, "/proc/self/mem"]);
        assert_says(&ran, "", "/proc/self/mem: Input/output error");
    }
}

#[test]
fn bad_settings() {
    let begins = "a capture begins with the lines session=, next= and limit=";
    assert_refused(b"", &format!("is empty: {begins}"));
    let unpacked = format!("is compressed, and has to be unpacked: {begins}");
    assert_refused(b"\x1F\x8B\x08 and so on", &unpacked);
    assert_refused(b"\xFD7zXZ\0", &unpacked);
    assert_refused(b"a letter\n", &format!("is neither a pcap nor a capture: {begins}"));
    assert_refused(
        b"session=READROOM01\r\nnext=1\r\nlimit=1\r\n",
        "line 1 ends in a carriage return: a capture's lines end in a line feed alone",
    );
    assert_refused(
        b"session=READROOM01\nnext=1\nlimit=1\r\n",
        "line 3 ends in a carriage return: a capture's lines end in a line feed alone",
    );
    assert_refused(
        b"session=          \nnext=1\nlimit=1\n",
        "session= is blank: a name was expected",
    );
    assert_refused(
        b"session=READROOM\nnext=1\nlimit=1\n",
        "session=READROOM: a name of 10 bytes was expected, not 8",
    );
    assert_refused(
        b"session=READ\x01OOM01\nnext=1\nlimit=1\n",
        "session=READ\\x01OOM01: printable ASCII characters were expected",
    );
    assert_refused(
        b"session=READROOM01\nlimit=1\nnext=1\n",
        &format!("line 2 isn't next=: {begins}"),
    );
    for next in ["0", "01", "+1", "18446744073709551616", ""] {
        assert_refused(
            format!("session=READROOM01\nnext={next}\nlimit=1\n").as_bytes(),
            &format!("next={next}: a number from 1 to 18446744073709551615 was expected"),
        );
    }
    for limit in ["0", "65535", " 1"] {
        assert_refused(
            format!("session=READROOM01\nnext=1\nlimit={limit}\n").as_bytes(),
            &format!("limit={limit}: a number from 1 to 65534 was expected"),
        );
    }
    assert_refused(
        b"session=READROOM01\nnext=1\nlimit=1",
        &format!("line 3 doesn't end: {begins}"),
    );
}

#[test]
fn a_cut_record() {
    let whole = capture(&feed_run());
    let records = &whole[..whole.len() - 3];
    let ran = run_with(records, &["report", "-", "--refusals"]);
    let sentence = format!(
        "standard input: record 10, at byte {}, is cut short: \
         20 bytes were expected behind its length, and 17 are there",
        whole.len() - 22
    );
    assert_eq!(ran.err, format!("eiderwagon: {sentence}\n"));
    assert_eq!(ran.status, 2);
    let report =
        "session=READROOM01\nnext=13\nended=no\ndelivered=12\nold=1\nquiet=1\nasked=3\nrefused=1\n";
    let line = "refusals=1\nno number, 1 time, at record 10: the record is cut short\n";
    assert_eq!(ran.text(), format!("{report}{line}"));

    let ran = run_with(&whole[..whole.len() - 21], &["missing", "-"]);
    let sentence = format!(
        "standard input: record 10, at byte {}, is cut short: \
         a length of two bytes was expected, and one is there",
        whole.len() - 22
    );
    assert_says(&ran, "session=READROOM01\nmissing=0\n", &sentence);
}

#[test]
fn more_ranges_than_are_kept() {
    let datagrams: Vec<Vec<u8>> = (1..=4097).map(|place| data(2 * place, 2 * place)).collect();
    let ran = run_with(&capture(&datagrams), &["missing", "-"]);
    assert_says(
        &ran,
        "ranges=refused\n",
        "standard input: at one of its records more than 4096 ranges were missing, and at most so many are kept",
    );
    let ran = run_with(&capture(&datagrams), &["missing", "-", "--json"]);
    assert_eq!((ran.status, ran.text().as_str()), (2, "{\"ranges\":\"refused\"}\n"));
}

/// A pcap of the run, with nothing else in it.
fn pcap() -> Vec<u8> {
    let frames = feed_run().into_iter().map(|d| ethernet(GROUP, &packet(GROUP, PORT, &d)));
    Pcap::new(ETHERNET).frames(frames).bytes()
}

#[test]
fn a_full_disk() {
    let full = || Stdio::from(File::options().write(true).open("/dev/full").unwrap());
    let folder = Folder::new();
    let pcap = folder.write("a.pcap", &pcap());
    let made = folder.write("a.capture", &capture(&feed_run()));
    let (pcap, made) = (pcap.to_str().unwrap(), made.to_str().unwrap());
    let sentence = "No space left on device";
    let commands: [&[&str]; 7] = [
        &["import", pcap],
        &["import", pcap, "--session", NAME],
        &["report", made],
        &["missing", made],
        &["explain", "17"],
        &["completions", "bash"],
        &["--help"],
    ];
    for command in commands {
        let ran = Ran::of(program().args(command).stdout(full()).output().unwrap());
        assert_says(&ran, "", &format!("standard output: {sentence}"));
    }
    let ran = run(&["import", pcap, "--session", NAME, "-o", "/dev/full"]);
    assert_says(&ran, "", &format!("/dev/full: {sentence}"));
    let ran = run(&["report", made, "--picture", "/dev/full"]);
    assert_says(&ran, "", &format!("/dev/full: {sentence}"));
    assert_eq!(folder.names(), ["a.capture", "a.pcap"]);
}

#[test]
fn a_closed_pipe() {
    let folder = Folder::new();
    let made = folder.write("a.capture", &capture(&feed_run()));
    // a pipe whose reader has gone
    let mut reader = Command::new("true").stdin(Stdio::piped()).spawn().unwrap();
    let pipe = reader.stdin.take().unwrap();
    reader.wait().unwrap();
    let report = ["report", made.to_str().unwrap()];
    let ran = Ran::of(program().args(report).stdout(pipe).output().unwrap());
    assert_says(&ran, "", "standard output: Broken pipe");
}

#[test]
fn an_output_that_cannot_be_made() {
    let folder = Folder::new();
    let pcap = folder.write("a.pcap", &pcap());
    let pcap = pcap.to_str().unwrap();
    let ran = run(&["import", pcap, "--session", NAME, "-o", "no/such/folder"]);
    assert_says(&ran, "", "no/such/folder: No such file or directory");
    let ran = run(&["report", pcap, "--session", NAME, "--picture", "no/such/folder.svg"]);
    assert_says(&ran, "", "no/such/folder.svg: No such file or directory");
}

#[test]
fn a_pcap_that_says_nothing_of_the_session() {
    let folder = Folder::new();
    let path = folder.write("a.pcap", &pcap());
    let name = path.to_str().unwrap();
    for command in ["report", "missing"] {
        let ran = run(&[command, name]);
        assert_says(&ran, "", &format!("{name}: a pcap needs --session, and it has READROOM01"));
    }
    let out = folder.path("out");
    let nothing = format!(
        "{name}: nothing was taken of 10 frames: `eiderwagon import` lists the sessions that it has"
    );
    let ran = run(&["import", name, "--session", "OTHER"]);
    assert_eq!((ran.status, ran.out.as_slice()), (2, &[][..]));
    let ran = run(&["import", name, "--session", "OTHER", "-o", out.to_str().unwrap()]);
    assert_eq!(ran.status, 2);
    assert!(ran.err.ends_with(&format!("{nothing}\n")), "{}", ran.err);
    assert_eq!(folder.names(), ["a.pcap"]);

    let empty = folder.write("b.pcap", &Pcap::new(ETHERNET).bytes());
    let ran = run(&["import", empty.to_str().unwrap()]);
    assert_says(&ran, "", &format!("{}: no MoldUDP64 datagram is in 0 frames", empty.display()));
}

#[test]
fn files_of_another_kind() {
    let folder = Folder::new();
    let made = folder.write("a.capture", &capture(&feed_run()));
    let made = made.to_str().unwrap();
    let ran = run(&["import", made]);
    assert_says(
        &ran,
        "",
        &format!("{made}: a pcap or pcapng file was expected; is it a capture already?"),
    );
    for command in ["import", "report", "missing"] {
        let ran = run_with(b"", &[command, "-", "--session", NAME]);
        assert_says(&ran, "", "standard input: is empty: a pcap or pcapng file was expected");
        let ran = run_with(b"\x1F\x8B\x08", &[command, "-", "--session", NAME]);
        let sentence = "is compressed, and has to be unpacked: a pcap or pcapng file was expected";
        assert_says(&ran, "", &format!("standard input: {sentence}"));
    }
    let ran = run_with(b"no pcap at all, and long enough", &["import", "-"]);
    assert_says(
        &ran,
        "",
        "standard input: a pcap or pcapng file was expected: unknown file format",
    );
    let why = "its settings stand in its first lines, so --session, --port, --group, --next and \
               --limit are for a pcap";
    for option in
        [["--session", "A"], ["--port", "1"], ["--group", "::1"], ["--next", "5"], ["--limit", "5"]]
    {
        let ran = run(&[&["report", made], &option[..]].concat());
        assert_says(&ran, "", &format!("{made}: isn't a pcap: {why}"));
    }
    let wireless = folder.write("wireless.pcap", &Pcap::new(105).frame(&[0; 60]).bytes());
    let ran = run(&["import", wireless.to_str().unwrap()]);
    let sentence = "its frames are of the kind IEEE802_11: \
                    Ethernet, cooked, loopback and raw ones are read";
    assert_says(&ran, "", &format!("{}: {sentence}", wireless.display()));
}

#[test]
fn usage() {
    let cases: [(&[&str], &str); 8] = [
        (&[], "a command was expected: try eiderwagon --help"),
        (
            &["import", "-", "--next", "5"],
            "--next is for a capture, which is written only with --session",
        ),
        (
            &["import", "-", "--limit", "5"],
            "--limit is for a capture, which is written only with --session",
        ),
        (&["import", "-", "-"], "- stands twice, and standard input can be read once"),
        (
            &["import", "-", "--session", "ELEVENBYTES"],
            "--session ELEVENBYTES: a name has at most 10 bytes, and this one has 11",
        ),
        (
            &["import", "-", "--session", "  "],
            "--session '  ': printable ASCII characters were expected, not all of them spaces",
        ),
        (&["import", "-", "-o", "x"], "-o is for a capture, which is written only with --session"),
        (
            &["explain", "99"],
            "no refusal has the number 99: `eiderwagon explain` lists those that there are",
        ),
    ];
    for (arguments, sentence) in cases {
        assert_says(&run(arguments), "", sentence);
    }
}

/// The words are clap's and change with it; that it is one sentence with the token in it doesn't.
#[test]
fn usage_that_clap_refuses() {
    let cases: [(&[&str], &str); 7] = [
        (&["repotr"], "repotr"),
        (&["report"], "<FILE>"),
        (&["report", "-", "--pictrue", "x"], "--pictrue"),
        (&["import", "-", "--port", "0"], "1..=65535"),
        (&["import", "-", "--limit", "65535"], "1..=65534"),
        (&["import", "-", "--next", "0"], "18446744073709551615"),
        (&["import", "-", "--group", "here"], "--group"),
    ];
    for (arguments, token) in cases {
        let ran = run(arguments);
        assert_eq!((ran.status, ran.err.lines().count()), (2, 1), "{}", ran.err);
        assert!(ran.out.is_empty() && ran.err.contains(token), "{}", ran.err);
        assert!(ran.err.ends_with(": try --help\n"), "{}", ran.err);
    }
}

#[test]
fn a_gap_that_stays_open_is_status_1() {
    let cases = [
        (vec![data(1, 2), heartbeat(3)], 0),
        (vec![data(1, 2), heartbeat(4)], 1),
        (vec![data(1, 2), data(4, 5)], 1),
        (vec![data(1, 2), data(400, 405)], 1),
        (vec![data(1, 2), data(4, 5), data(3, 3)], 0),
        (vec![data(2, 2), data(1, 1), heartbeat(3)], 0),
        // another session's numbers, and what comes after the end, are none of ours
        (vec![data(2, 2), data(1, 1), data_of(b"OTHERROOM1", 900, 900)], 0),
    ];
    for (datagrams, status) in cases {
        let capture = capture(&datagrams);
        for options in [&["report", "-"][..], &["report", "-", "--gaps"], &["missing", "-"]] {
            assert_eq!(run_with(&capture, options).status, status, "{options:?} {datagrams:?}");
        }
    }
}

/// By the receiver's word the session is over; what the file lacks, `missing` says.
#[test]
fn an_ended_session_waits_for_nothing() {
    let cases = [
        (vec![data(2, 2), data(1, 1), end(3), data(9, 9)], 1),
        (vec![data(1, 5), heartbeat(9), end(6)], 1),
        (vec![data(1, 5), end(6), end(6)], 0),
    ];
    for (datagrams, missing) in cases {
        let capture = capture(&datagrams);
        for options in [&["report", "-"][..], &["report", "-", "--gaps"]] {
            assert_eq!(run_with(&capture, options).status, 0, "{options:?} {datagrams:?}");
        }
        assert_eq!(run_with(&capture, &["missing", "-"]).status, missing, "{datagrams:?}");
    }
}

#[test]
fn what_is_no_capture_takes_no_memory() {
    // all of it would be more than it may have
    let script = format!(
        "ulimit -v 400000; head -c 600000000 /dev/zero | tr '\\0' s | '{}' report -",
        env!("CARGO_BIN_EXE_eiderwagon")
    );
    let ran = Ran::of(Command::new("sh").args(["-c", &script]).output().unwrap());
    assert_eq!((ran.status, ran.text().as_str()), (2, REFUSED));
}
