//! Where tshark is installed: it finds the same messages and numbers in the same file.

use crate::support::feed::drawn;
use crate::support::frames::{ethernet, packet, GROUP, PORT};
use crate::support::pcap::{Pcap, ETHERNET};
use crate::support::{has, run, Folder, Ran, NAME};
use std::process::Command;

/// The numbers and counts of the session's datagrams, as a capture has them.
fn ours(capture: &[u8]) -> Vec<(u64, u16)> {
    let mut behind = &capture["session=READROOM01\nnext=1\nlimit=100\n".len()..];
    let mut list = Vec::new();
    while let Some((length, rest)) = behind.split_first_chunk::<2>() {
        let (record, rest) = rest.split_at(u16::from_be_bytes(*length).into());
        behind = rest;
        let number = u64::from_be_bytes(record[10..18].try_into().unwrap());
        list.push((number, u16::from_be_bytes(record[18..20].try_into().unwrap())));
    }
    list
}

#[test]
fn it_finds_the_same() {
    if !has("tshark") {
        return;
    }
    let folder = Folder::new();
    let frames = drawn(3, 400).into_iter().map(|d| ethernet(GROUP, &packet(GROUP, PORT, &d)));
    let file = folder.write("a.pcap", &Pcap::new(ETHERNET).frames(frames).bytes());
    let file = file.to_str().unwrap();
    let filter = format!("moldudp64.session == \"{NAME}\"");
    let decode = format!("udp.port=={PORT},moldudp64");
    let fields = ["-T", "fields", "-e", "moldudp64.sequence", "-e", "moldudp64.count"];
    let ran = Ran::of(
        Command::new("tshark")
            .args(["-r", file, "-d", &decode, "-Y", &filter])
            .args(fields)
            .output()
            .unwrap(),
    );
    let theirs: Vec<(u64, u16)> = ran
        .text()
        .lines()
        .map(|line| {
            let mut fields = line.split('\t');
            let mut next = || fields.next().unwrap().to_string();
            (next().parse().unwrap(), next().parse().unwrap())
        })
        .collect();
    let capture = run(&["import", file, "--session", NAME]);
    assert!(theirs.len() > 300, "{} {}", theirs.len(), ran.err);
    assert_eq!(ours(&capture.out), theirs);
}
