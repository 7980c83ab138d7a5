//! The proved analysis, join, preview and hiding, each in a thread whose stack has exactly the bytes that the bindings state. A stack that is too
//! small ends the program.

use crate::inputs::{HideInput, JoinInput};
use crate::proved;
use std::thread::Builder;

/// Answers all inputs, each a table and the length of its answer buffer.
pub fn answer_all(inputs: Vec<(Vec<u8>, usize)>) {
    for_each(inputs, |(table, room)| {
        proved::analyse(&table, &mut vec![0; room]);
    });
}

/// Makes and previews all joins.
pub fn join_all(joins: Vec<JoinInput>) {
    for_each(joins, |JoinInput { first, second, added, room }| {
        proved::join(&first, &second, &added, &mut vec![0; room]);
        proved::preview(&first, &second, &added, &mut vec![0; proved::ANSWER_BYTES]);
    });
}

/// Hides all ports.
pub fn hide_all(hides: Vec<HideInput>) {
    for_each(hides, |HideInput { table, port, room }| {
        proved::hide(&table, port, &mut vec![0; room]);
    });
}

fn for_each<T: Send + 'static>(given: Vec<T>, call: impl Fn(T) + Send + 'static) {
    let all = move || given.into_iter().for_each(call);
    Builder::new().stack_size(proved::STACK_BYTES).spawn(all).unwrap().join().unwrap();
}
