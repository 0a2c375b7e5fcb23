//! The list of outcomes against the header: it has the functions that are declared there, and of each the refusals in
//! their order.

use differential::compare::grounds::number;
use differential::coverage;

const HEADER: &str = include_str!("../../../include/eiderwagon.h");

/// The functions of the header that refuse something, each with the numbers behind "refusals:" in the comment before
/// it.
fn declared() -> Vec<(&'static str, Vec<u32>)> {
    let declarations = HEADER.split("uint32_t eiderwagon_");
    let comments = declarations.clone().map(refusals_of);
    let names = declarations
        .skip(1)
        .map(|text| text.split('(').next().expect("a name"));
    names
        .zip(comments)
        .filter_map(|(name, refusals)| Some((name, in_order(name, refusals?))))
        .collect()
}

/// Of one function the header lists the refusals as its contract does, and says in words which one comes earlier.
fn in_order(name: &str, mut refusals: Vec<u32>) -> Vec<u32> {
    if name == "transmitter_next" {
        assert!(HEADER.contains("Here 54, that no message is left, comes before 44."));
        let place = |number| move |&listed: &u32| listed == number;
        let from = refusals.iter().position(place(54)).expect("54");
        let to = refusals.iter().position(place(44)).expect("44");
        refusals[to..=from].rotate_right(1);
    }
    refusals
}

/// The numbers of the last list of refusals in a text, if it has one.
fn refusals_of(text: &str) -> Option<Vec<u32>> {
    let (_, list) = text.rsplit_once("refusals:")?;
    let sentence = list.split(['.', '*']).next().expect("its numbers");
    let numbers = sentence
        .split(',')
        .map(|number| number.trim().parse().expect("a refusal's number"));
    Some(numbers.collect())
}

/// The refusals among a function's outcomes, each number once where it stands for finer kinds.
fn listed(outcomes: &[&str]) -> Vec<u32> {
    let refusals = outcomes
        .iter()
        .filter(|outcome| coverage::is_refusal(outcome));
    let mut numbers: Vec<u32> = refusals.map(|name| number(name)).collect();
    numbers.dedup();
    numbers
}

#[test]
fn list_has_what_the_header_names() {
    let list: Vec<(&str, Vec<u32>)> = coverage::functions()
        .map(|(function, outcomes)| (function, listed(&outcomes)))
        .collect();
    assert_eq!(list.len(), 53);
    assert_eq!(list, declared());
}

/// The version refuses nothing, and so has no list.
#[test]
fn the_version_is_the_only_other_function() {
    let all = HEADER.matches("uint32_t eiderwagon_").count();
    assert_eq!(all, declared().len() + 1);
    assert!(HEADER.contains("uint32_t eiderwagon_version(void);"));
}
