//! The branch store's function.

use super::grounds::{BAD_NUMBERS, BAD_SIZE};
use super::{name, Expected};
use crate::call::Call;
use crate::reference::mold;
use crate::reference::store::{is_size, Store};

pub fn answer(call: &Call) -> Option<Expected> {
    let Call::StoreAnswer { size, request, .. } = *call else {
        return None;
    };
    let store = store_of(call)?;
    let mut answer = Expected::writer(store.answer(size, request));
    answer.outcome = match answer.code {
        0 => what_ends_it(&store, size, request),
        19 if !is_size(size) => BAD_SIZE,
        19 => BAD_NUMBERS,
        _ => answer.outcome,
    };
    Some(answer)
}

/// The store that a call is lent.
pub fn store_of<'a>(call: &Call<'a>) -> Option<Store<'a>> {
    let Call::StoreAnswer {
        session,
        first,
        lengths,
        data,
        ..
    } = *call
    else {
        return None;
    };
    Some(Store {
        session: name(session),
        first,
        lengths,
        data,
    })
}

/// Which of the three bounds an answer meets first.
fn what_ends_it(store: &Store, size: u64, request: &[u8]) -> &'static str {
    let (_, number, count) = mold::header(request);
    let place = store.place(number).expect("it is answered");
    let held = store.chosen(place, count, size).len();
    if held == usize::from(count) {
        "all that is wanted"
    } else if place + held == store.lengths.len() {
        "to the store's end"
    } else {
        "as many as fit"
    }
}
