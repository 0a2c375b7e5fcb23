//! `report` and `missing` print what the proved programs print.

use crate::support::feed::{capture, data, drawn, with_settings, Draw};
use crate::support::{piped, repository, run, run_with, Folder};
use std::fs;
use std::path::PathBuf;
use std::process::Command;

/// A command and the proved program beside it.
const PAIRS: [(&str, &str); 2] = [("report", "capture_report"), ("missing", "missing_report")];

fn proved(program: &str) -> PathBuf {
    let path = repository().join("crates").join(program).join("out").join(program);
    assert!(path.exists(), "{program} isn't built: tools/rt_in.sh {program} run");
    path
}

/// The same bytes, from a file and by a pipe, with the details and without.
fn assert_same(bytes: &[u8], folder: &Folder, what: &str) {
    let file = folder.write("a.capture", bytes);
    let file = file.to_str().unwrap();
    for (command, program) in PAIRS {
        let wanted = piped(&mut Command::new(proved(program)), bytes).out;
        assert_eq!(run(&[command, file]).out, wanted, "{command} of {what}");
        assert_eq!(run_with(bytes, &[command, "-"]).out, wanted, "{command} of {what}, by pipe");
    }
    let plain = run(&["report", file]);
    let full = run(&["report", file, "--gaps", "--refusals"]);
    assert!(full.out.starts_with(&plain.out), "the details of {what}");
    assert_eq!(full.status, plain.status, "the status of {what}");
}

#[test]
fn on_the_samples() {
    let folder = Folder::new();
    let mut count = 0;
    for file in fs::read_dir(repository().join("captures")).unwrap() {
        let path = file.unwrap().path();
        if path.extension().is_some_and(|kind| kind == "capture") {
            assert_same(&fs::read(&path).unwrap(), &folder, &path.display().to_string());
            count += 1;
        }
    }
    assert_eq!(count, 3);
}

#[test]
fn on_drawn_captures() {
    let folder = Folder::new();
    for seed in 0..60 {
        let mut draw = Draw(seed + 1000);
        let mut bytes = capture(&drawn(seed, 1 + draw.below(80)));
        // some are cut at any place, in the settings too
        if seed % 3 == 0 {
            bytes.truncate(draw.below(bytes.len() as u64 + 1) as usize);
        }
        // and in some a byte of the settings or of a record is another
        if seed % 5 == 0 && !bytes.is_empty() {
            let place = draw.below(bytes.len().min(200) as u64) as usize;
            bytes[place] ^= 1 << draw.below(8);
        }
        // a first byte that only a pcap has makes it one
        if !matches!(bytes.first(), None | Some(b'a'..=b'z')) {
            continue;
        }
        assert_same(&bytes, &folder, &format!("seed {seed}"));
    }
}

#[test]
fn on_more_than_a_piece() {
    let folder = Folder::new();
    let mut datagrams = drawn(7, 30_000);
    // numbers far ahead
    datagrams.push(data(1 << 40, (1 << 40) + 3));
    assert_same(&capture(&datagrams), &folder, "a long capture");
    let settings = "session=READROOM01\nnext=18446744073709551615\nlimit=65534\n";
    assert_same(&with_settings(settings, &drawn(8, 50)), &folder, "the highest number");
}
