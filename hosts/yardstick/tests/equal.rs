//! Equal answers on every capture, and everything drawn. No test here judges a time.

use yardstick::captures::{everything, heartbeats, in_order, troubled, Capture};
use yardstick::compare::names::compare_names;
use yardstick::compare::{compare, Drawn};
use yardstick::receiver::Receiver;
use yardstick::{LIMIT, NEXT, SEED, SESSION};

const DATAGRAMS: usize = 2_000;

fn compare_seeds(capture: fn(u64, usize) -> Capture, check: fn(Drawn)) {
    for seed in SEED..SEED + 5 {
        check(compare(&capture(seed, DATAGRAMS)));
    }
}

#[test]
fn data_in_order_is_all_delivered() {
    compare_seeds(in_order, |drawn| {
        assert_eq!(drawn.count("deliver"), DATAGRAMS);
    });
}

#[test]
fn a_troubled_line_is_answered_alike() {
    compare_seeds(troubled, |drawn| {
        for outcome in ["deliver", "old", "ask"] {
            assert!(drawn.count(outcome) > 0, "{outcome} was never drawn");
        }
    });
}

#[test]
fn heartbeats_are_quiet() {
    let drawn = compare(&heartbeats(DATAGRAMS));
    assert_eq!(drawn.count("quiet"), DATAGRAMS);
}

#[test]
fn every_answer_and_every_refusal_is_drawn() {
    compare_seeds(everything, |drawn| drawn.assert_everything());
}

#[test]
#[should_panic(expected = "never drawn")]
fn what_was_not_drawn_is_noticed() {
    compare(&in_order(SEED, DATAGRAMS)).assert_everything();
}

#[test]
fn a_name_is_learned_alike() {
    compare_names(SEED, DATAGRAMS).assert_everything();
}

#[test]
fn bad_settings_are_refused() {
    for (next, limit) in [(0, LIMIT), (NEXT, 0), (NEXT, u16::MAX)] {
        assert!(Receiver::start(*SESSION, next, limit).is_err());
    }
}
