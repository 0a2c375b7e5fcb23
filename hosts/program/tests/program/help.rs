//! The help: it fits a screen, has an example, and the examples are of commands that there are.

use crate::support::{feed, run, run_with};

const COMMANDS: [&str; 5] = ["import", "report", "missing", "explain", "completions"];

/// A screen of a terminal that was never made larger.
const LINES: usize = 24;
const COLUMNS: usize = 80;

#[test]
fn it_fits_a_screen_and_has_an_example() {
    let all = COMMANDS.iter().map(|command| vec![*command, "--help"]);
    for arguments in all.chain([vec!["--help"]]) {
        let ran = run(&arguments);
        let text = ran.text();
        assert_eq!((ran.status, ran.err.as_str()), (0, ""), "{arguments:?}");
        assert!(text.lines().count() <= LINES, "{arguments:?} has {} lines", text.lines().count());
        for line in text.lines() {
            assert!(line.chars().count() <= COLUMNS, "{arguments:?}: {line}");
        }
        let (_, example) = text.split_once("Example").expect("an example");
        assert!(example.contains("\n  eiderwagon ") || example.contains("eiderwagon completions"));
    }
}

#[test]
fn every_refusal_is_explained() {
    for ground in eiderwagon::Ground::ALL {
        let ran = run(&["explain", &ground.number().to_string()]);
        let text = ran.text();
        let (first, advice) = text.split_once("\n\n").expect("a line, and what to do");
        assert_eq!(first, format!("{}: {ground}", ground.number()));
        assert!(advice.len() > 40, "{ground:?}: {advice}");
        assert!(advice.lines().all(|line| line.chars().count() <= 100), "{ground:?}");
    }
    let all = run(&["explain"]).text();
    assert_eq!(all.lines().count(), eiderwagon::Ground::ALL.len());
}

#[test]
fn the_version_is_the_library_s() {
    let version = eiderwagon::raw::version();
    let wanted =
        format!("eiderwagon {}.{}.{}\n", version >> 16, version >> 8 & 0xFF, version & 0xFF);
    assert_eq!(run(&["--version"]).text(), wanted);
}

#[test]
fn completions_know_the_commands() {
    for shell in ["bash", "zsh", "fish"] {
        let script = run(&["completions", shell]).text();
        for command in COMMANDS {
            assert!(script.contains(command), "{shell}: {command}");
        }
    }
}

#[test]
fn nothing_is_drawn_where_there_is_no_terminal() {
    let ran = run_with(&feed::capture(&feed::drawn(1, 50_000)), &["report", "-"]);
    assert_eq!(ran.err, "");
}
