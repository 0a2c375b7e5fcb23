//! The picture of a run with a loss, packets that swap places and an end, described by its elements.

use crate::support::feed::{capture, data, heartbeat, run as feed_run};
use crate::support::{has, run_with, Folder};
use std::fs;
use std::process::Command;

/// The picture that is drawn beside the report of a capture.
fn picture(folder: &Folder, bytes: &[u8]) -> String {
    let path = folder.path("a.svg");
    let ran = run_with(bytes, &["report", "-", "--picture", path.to_str().unwrap()]);
    assert_eq!(ran.err, "");
    assert!(ran.text().lines().count() == 8, "the report is printed, too");
    assert_eq!(folder.names(), ["a.svg"]);
    fs::read_to_string(path).unwrap()
}

fn count(picture: &str, class: &str) -> usize {
    picture.matches(&format!("class=\"{class}\"")).count()
}

#[test]
fn losses_swaps_and_an_end() {
    let picture = picture(&Folder::new(), &capture(&feed_run()));
    let words = "READROOM01: 12 messages delivered, 2 gaps, all closed, session ended";
    assert!(picture.contains(words), "{picture}");
    assert!(picture.contains("10 records, 3 requests, no refusals"));
    // the lost packet, asked for twice and sent again; the two that swapped places
    for gap in [
        "<title>4 to 5: opened at record 2, asked for 2 times, closed at record 4</title>",
        "<title>8: opened at record 5, asked for once, closed at record 6</title>",
    ] {
        assert_eq!(picture.matches(gap).count(), 1, "{gap}");
    }
    assert_eq!((count(&picture, "gap closed"), count(&picture, "gap open")), (2, 0));
    let lanes = ["lost", "asked", "closed", "refused"];
    assert_eq!(lanes.map(|lane| count(&picture, lane)), [2, 3, 2, 0]);
    assert_eq!(["next", "told", "behind", "end"].map(|line| count(&picture, line)), [1; 4]);
    assert!(picture.contains("<title>session ended at record 10</title>"));
}

#[test]
fn a_gap_that_stays_open() {
    let datagrams = [data(1, 2), data(5, 6), heartbeat(7), b"short".to_vec()];
    let picture = picture(&Folder::new(), &capture(&datagrams));
    assert_eq!((count(&picture, "gap closed"), count(&picture, "gap open")), (0, 1));
    assert_eq!((count(&picture, "end"), count(&picture, "refused")), (0, 1));
    assert!(picture.contains("READROOM01: 2 messages delivered, 1 gap still open"));
    assert!(picture.contains("; waiting for message 3; no end of session"));
}

#[test]
fn it_can_be_rendered() {
    if !has("rsvg-convert") {
        return;
    }
    let folder = Folder::new();
    picture(&folder, &capture(&feed_run()));
    let (svg, png) = (folder.path("a.svg"), folder.path("a.png"));
    let done = Command::new("rsvg-convert").arg(svg).arg("-o").arg(&png).status().unwrap();
    assert!(done.success());
    // the size stands behind the signature, its first chunk's length and its name
    let bytes = fs::read(png).unwrap();
    let size = |at: usize| u32::from_be_bytes(bytes[at..at + 4].try_into().unwrap());
    assert_eq!((size(16), size(20)), (1000, 560));
}
