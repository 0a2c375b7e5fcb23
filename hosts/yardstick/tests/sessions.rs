//! Equal fronts, steps and logins, and everything drawn. No test here judges a time.

use yardstick::compare::sessions::{
    compare_client, compare_server, compare_talks, CLIENTS, SERVERS,
};
use yardstick::compare::Drawn;
use yardstick::talks::{self, Talk};
use yardstick::SEED;

const TALKS: usize = 600;
const MESSAGES: usize = 500;

#[test]
fn every_answer_and_every_refusal_is_drawn() {
    for seed in SEED..SEED + 5 {
        compare_talks(seed, TALKS).assert_everything();
    }
}

#[test]
#[should_panic(expected = "never drawn")]
fn what_was_not_drawn_is_noticed() {
    compare_talks(SEED, 1).assert_everything();
}

#[test]
fn messages_are_all_handed_up() {
    let mut client = Drawn::new(CLIENTS);
    compare_client(&talks::sequenced(SEED, MESSAGES), &mut client);
    assert_eq!(client.count("sequenced"), MESSAGES);
    let mut server = Drawn::new(SERVERS);
    compare_server(&talks::unsequenced(SEED, MESSAGES), &mut server);
    assert_eq!(server.count("unsequenced"), MESSAGES);
}

#[test]
fn the_last_account_is_let_in_and_nobody_is_not() {
    let drawn = |talk: Talk| {
        let mut drawn = Drawn::new(SERVERS);
        compare_server(&talk, &mut drawn);
        drawn
    };
    assert_eq!(drawn(talks::login_of_the_last()).count("accepted"), 1);
    assert_eq!(drawn(talks::login_of_nobody()).count("rejected by A"), 1);
}
