//! A damaged pcap, at every byte, gives an error or a count, and never a crash.

use crate::support::feed::{data, end, heartbeat};
use crate::support::frames::{ethernet, packet, GROUP, GROUP6, PORT};
use crate::support::pcap::{Order, Pcap, PcapNg, ETHERNET, MICROSECONDS, NANOSECONDS};
use crate::support::{program, run_with, Folder, Ran, NAME};
use std::fs::File;
use std::io::{Seek, SeekFrom};

const COMMANDS: [&[&str]; 2] = [
    &["import", "-"],
    &["report", "-", "--session", NAME, "--gaps", "--refusals", "--picture", "/dev/null"],
];

fn frames() -> Vec<Vec<u8>> {
    let datagrams = [data(1, 2), data(4, 4), heartbeat(5), end(5)];
    let groups = [GROUP, GROUP6];
    let frame = |(place, d): (usize, &Vec<u8>)| {
        let group = groups[place % 2];
        ethernet(group, &packet(group, PORT, d))
    };
    datagrams.iter().enumerate().map(frame).collect()
}

fn pcap() -> Vec<u8> {
    Pcap::new(ETHERNET).frames(frames()).bytes()
}

fn pcapng() -> Vec<u8> {
    let new = PcapNg::new(Order::Little).interface(ETHERNET);
    frames().iter().fold(new, |pcap, frame| pcap.frame(0, frame)).bytes()
}

/// It ends by itself, and where it fails it says so in a sentence.
fn assert_sound(ran: &Ran, what: &str) {
    assert!((0..=2).contains(&ran.status), "{what}: {}", ran.err);
    assert_eq!(
        ran.err.lines().filter(|line| !line.starts_with("eiderwagon: ")).count(),
        0,
        "{what}"
    );
    assert!(ran.status < 2 || !ran.err.is_empty(), "{what} fails without a word");
}

/// Every file that differs from this one in a byte, or ends before it does.
fn damaged(bytes: &[u8]) -> impl Iterator<Item = (String, Vec<u8>)> + '_ {
    let changed = (0..bytes.len()).map(|place| {
        let mut changed = bytes.to_vec();
        changed[place] ^= 0xFF;
        (format!("byte {place} is another"), changed)
    });
    let cut = (1..bytes.len()).map(|size| (format!("{size} bytes"), bytes[..size].to_vec()));
    changed.chain(cut)
}

#[test]
fn of_a_pcap() {
    for (what, bytes) in damaged(&pcap()) {
        for command in COMMANDS {
            assert_sound(&run_with(&bytes, command), &format!("{command:?}, {what}"));
        }
    }
}

#[test]
fn of_a_pcapng() {
    for (what, bytes) in damaged(&pcapng()) {
        for command in COMMANDS {
            assert_sound(&run_with(&bytes, command), &format!("{command:?}, {what}"));
        }
    }
}

/// A pipe is read by libpcap; a file of the plainest kind is not.
#[test]
fn a_file_is_read_as_libpcap_reads_it() {
    let folder = Folder::new();
    let until_why = |err: &str| err.split("can't be read").next().unwrap().to_string();
    for (what, bytes) in damaged(&pcap()) {
        let file = folder.write("a.pcap", &bytes);
        for command in COMMANDS {
            let by_pipe = run_with(&bytes, command);
            let from_file = File::open(&file).unwrap();
            let from_file = Ran::of(program().args(command).stdin(from_file).output().unwrap());
            assert_eq!(from_file.out, by_pipe.out, "{command:?}, {what}");
            assert_eq!(from_file.status, by_pipe.status, "{command:?}, {what}");
            assert_eq!(until_why(&from_file.err), until_why(&by_pipe.err), "{command:?}, {what}");
        }
    }
}

/// A file is read from where its reader stands, with large frames, frames that were cut, a snap
/// length that a frame passes, and a clock of billionths.
#[test]
fn a_plain_file_of_every_shape() {
    let folder = Folder::new();
    let [small, next] = [0, 2].map(|place| frames().swap_remove(place));
    let mut large = small.clone();
    large.resize(262_144, 0);
    for magic in [MICROSECONDS, NANOSECONDS] {
        for snap_length in [262_144_u32, 70, 0] {
            let new = Pcap::with(ETHERNET, Order::Little, magic).frame(&next).cut(&small, 50);
            let pcap = (0..5).fold(new, |pcap, _| pcap.frame(&large).frame(&small));
            let mut bytes = [b"before", &pcap.bytes()[..]].concat();
            bytes[6 + 16..6 + 20].copy_from_slice(&snap_length.to_le_bytes());
            let path = folder.write("a.pcap", &bytes);
            for command in COMMANDS {
                let mut file = File::open(&path).unwrap();
                file.seek(SeekFrom::Start(6)).unwrap();
                let from_file = Ran::of(program().args(command).stdin(file).output().unwrap());
                let by_pipe = run_with(&bytes[6..], command);
                assert_eq!((from_file.out, &from_file.err), (by_pipe.out, &by_pipe.err));
                assert!(from_file.err.contains("cut by the snap length"), "{}", from_file.err);
                assert_ne!(from_file.status, 2);
            }
        }
    }
}

#[test]
fn what_comes_before_the_damage_is_reported() {
    let bytes = pcap();
    let ran = run_with(&bytes[..bytes.len() - 1], &["report", "-", "--session", NAME]);
    let wanted =
        "session=READROOM01\nnext=3\nended=no\ndelivered=2\nold=0\nquiet=0\nasked=2\nrefused=0\n";
    assert_eq!((ran.status, ran.text().as_str()), (2, wanted));
    let sentence = "standard input: frame 4 can't be read: truncated dump file; \
                    tried to read 82 captured bytes, only got 81";
    assert_eq!(ran.err, format!("eiderwagon: {sentence}\n"));
}
