//! The proved side: the analysis, the join, the preview and hiding of the static library, through its Rust wrapper.

#[path = "../bindings/vundayre.rs"]
mod vundayre;

use crate::analysis::Outcome;
use crate::join::Joined;
pub use vundayre::{ANSWER_BYTES, STACK_BYTES, TABLE_BYTES};

pub fn analyse(table: &[u8], answer: &mut [u8]) -> Outcome {
    let answer = vundayre::analyse(table, answer);
    Outcome { number: answer.number, place: answer.place, written: answer.records.len() }
}

pub fn join(first: &[u8], second: &[u8], added: &[u8], out: &mut [u8]) -> Joined {
    let joined = vundayre::join(first, second, added, out);
    Joined { number: joined.number, place: joined.place, input: joined.input, written: joined.table.len() }
}

pub fn preview(first: &[u8], second: &[u8], added: &[u8], answer: &mut [u8]) -> Joined {
    let preview = vundayre::preview(first, second, added, answer);
    Joined { number: preview.number, place: preview.place, input: preview.input, written: preview.records.len() }
}

pub fn hide(table: &[u8], port: u64, out: &mut [u8]) -> Outcome {
    let hidden = vundayre::hide(table, port, out);
    Outcome { number: hidden.number, place: hidden.place, written: hidden.table.len() }
}

/// What a preview does, by a join into this buffer and an analysis of what was written there.
pub fn join_and_analyse(first: &[u8], second: &[u8], added: &[u8], out: &mut [u8; TABLE_BYTES], answer: &mut [u8]) -> Joined {
    let joined = join(first, second, added, out);
    if joined.number != 0 {
        return joined;
    }
    let Outcome { number, place, written } = analyse(&out[..joined.written], answer);
    Joined { number, place, input: 0, written }
}
