//! A datagram taken by one call, with the places of its messages. No test here judges a time.

use yardstick::captures::everything;
use yardstick::mold::{Messages, Place, Refusal, MOST_MESSAGES};
use yardstick::receiver::{Answer, Receiver};
use yardstick::{LIMIT, NEXT, SEED, SESSION};

const DATAGRAMS: usize = 2_000;

#[test]
fn one_call_is_take_and_the_walk() {
    let mut by_take = Receiver::start(*SESSION, NEXT, LIMIT).expect("the start is good");
    let mut by_one_call = by_take.clone();
    let mut places = vec![Place::default(); MOST_MESSAGES];
    for datagram in everything(SEED, DATAGRAMS).datagrams() {
        let before = by_one_call.clone();
        let answer = by_take.take(datagram);
        if let Ok(Answer::Deliver { count, .. }) = answer {
            let few = &mut places[..usize::from(count) - 1];
            assert_eq!(
                by_one_call.deliver(datagram, few),
                Err(Refusal::OutputShort)
            );
            assert_eq!(by_one_call, before);
        }
        assert_eq!(by_one_call.deliver(datagram, &mut places), answer);
        assert_eq!(by_one_call, by_take);
        if let Ok(Answer::Deliver { count, skipped, .. }) = answer {
            let messages = Messages::new(datagram, count, skipped);
            for (place, message) in places.iter().zip(messages) {
                let at_place = &datagram[place.offset..][..place.length];
                assert!(std::ptr::eq(at_place, message), "{place:?}");
            }
        }
    }
}

#[test]
fn the_library_lays_the_same_places() {
    use yardstick::compare::delivery::compare_in_one_call;

    for seed in SEED..SEED + 5 {
        compare_in_one_call(&everything(seed, DATAGRAMS)).assert_everything();
    }
}
