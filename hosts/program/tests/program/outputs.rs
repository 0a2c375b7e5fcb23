//! Where a capture or a picture goes: whole or not at all, and to no other file.

use crate::support::feed::{capture, run as feed_run};
use crate::support::frames::{ethernet, packet, GROUP, PORT};
use crate::support::pcap::{Pcap, ETHERNET};
use crate::support::{has, run, Folder, Ran, NAME};
use std::fs;
use std::os::unix::fs::{symlink, PermissionsExt};
use std::process::Command;

fn pcap() -> Vec<u8> {
    let frames = feed_run().into_iter().map(|d| ethernet(GROUP, &packet(GROUP, PORT, &d)));
    Pcap::new(ETHERNET).frames(frames).bytes()
}

/// Imports a.pcap of the folder to a path.
fn import(folder: &Folder, session: &str, out: &str) -> Ran {
    let file = folder.write("a.pcap", &pcap());
    run(&["import", file.to_str().unwrap(), "--session", session, "-o", out])
}

#[test]
fn a_failed_import_leaves_the_old_file() {
    let folder = Folder::new();
    let out = folder.write("out", b"what was there");
    let ran = import(&folder, "OTHER", out.to_str().unwrap());
    assert_eq!(ran.status, 2);
    assert_eq!(fs::read(out).unwrap(), b"what was there");
    assert_eq!(folder.names(), ["a.pcap", "out"]);
}

#[test]
fn an_old_file_keeps_its_mode_and_a_link_its_target() {
    let folder = Folder::new();
    let old = folder.write("old", b"what was there");
    fs::set_permissions(&old, fs::Permissions::from_mode(0o600)).unwrap();
    let link = folder.path("link");
    symlink(&old, &link).unwrap();
    let ran = import(&folder, NAME, link.to_str().unwrap());
    assert_eq!(ran.status, 0, "{}", ran.err);
    assert!(fs::symlink_metadata(&link).unwrap().is_symlink());
    assert_eq!(fs::read(&old).unwrap(), capture(&feed_run()));
    assert_eq!(fs::metadata(&old).unwrap().permissions().mode() & 0o777, 0o600);
    assert_eq!(folder.names(), ["a.pcap", "link", "old"]);
}

#[test]
fn what_is_read_is_not_written() {
    let folder = Folder::new();
    let file = folder.write("a.pcap", &pcap());
    let same = folder.path("same");
    symlink(&file, &same).unwrap();
    let (name, same) = (file.to_str().unwrap(), same.to_str().unwrap());
    for out in [name, same] {
        let sentence = format!("eiderwagon: {out}: is read here, and another file was expected\n");
        let ran = run(&["import", name, "--session", NAME, "-o", out]);
        assert_eq!((ran.status, ran.err.as_str()), (2, sentence.as_str()));
        let ran = run(&["report", name, "--session", NAME, "--picture", out]);
        assert_eq!((ran.status, ran.err.as_str()), (2, sentence.as_str()));
    }
    assert_eq!(fs::read(file).unwrap(), pcap());
}

#[test]
fn a_dash_is_standard_output() {
    let ran = import(&Folder::new(), NAME, "-");
    assert_eq!((ran.status, ran.out), (0, capture(&feed_run())));
    let folder = Folder::new();
    let made = folder.write("a.capture", &capture(&feed_run()));
    let ran = run(&["report", made.to_str().unwrap(), "--picture", "-"]);
    let sentence = "eiderwagon: --picture -: a file was expected, as the report is printed\n";
    assert_eq!((ran.status, ran.err.as_str()), (2, sentence));
}

/// Runs a shell command with a terminal for its outputs, and gives what that shows.
fn on_a_terminal(command: &str) -> String {
    let mut script = Command::new("script");
    let ran = script.args(["-qec", command, "/dev/null"]).env("SHELL", "/bin/sh").output().unwrap();
    String::from_utf8_lossy(&ran.stdout).into_owned()
}

#[test]
fn a_terminal_gets_no_capture_and_sees_how_far_it_is() {
    if !has("script") {
        return;
    }
    let folder = Folder::new();
    let file = folder.write("a.pcap", &pcap());
    let program = env!("CARGO_BIN_EXE_eiderwagon");
    let shown = on_a_terminal(&format!("'{program}' import '{}' --session {NAME}", file.display()));
    assert!(shown.contains("standard output: is a terminal: name a file with -o"), "{shown}");
    // a reading of more than half a second, in which some megabytes come
    let settings = "session=READROOM01\\nnext=1\\nlimit=1\\n";
    let slow = format!(
        "(printf '{settings}'; sleep 2; head -c 20000000 /dev/zero) | '{program}' report - >/dev/null"
    );
    let shown = on_a_terminal(&slow);
    assert!(shown.contains(" read"), "{shown}");
}
