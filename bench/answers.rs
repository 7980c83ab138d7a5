//! Writing the records of an answer.

use crate::analysis::{Blocked, Floor, Period, Step, Timing, Weighed};
use crate::model::Model;

/// Kind 18.
pub fn write_loop(answer: &mut [u8], steps: &[Step]) -> usize {
    write_numbers(answer, 18, steps.len() * 2, steps.iter().flat_map(|step| [step.link, u16::from(step.against)]))
}

/// Stands for a port in the floor zero.
const NO_PORT: u16 = 65_535;

/// The floor, kind 20 or 19, and the block, kind 19.
pub fn write_blocked(answer: &mut [u8], blocked: &Blocked) -> usize {
    let floor = match &blocked.floor {
        Floor::Port(port) => write_numbers(answer, 20, 1, std::iter::once(*port as u16)),
        Floor::Cycle(cycle) => write_cycle(answer, cycle),
        Floor::Zero => write_numbers(answer, 20, 1, std::iter::once(NO_PORT)),
    };
    floor + write_cycle(&mut answer[floor..], &blocked.block)
}

fn write_cycle(answer: &mut [u8], links: &[u16]) -> usize {
    write_numbers(answer, 19, links.len(), links.iter().copied())
}

/// A record of a kind that holds numbers of two bytes.
fn write_numbers(answer: &mut [u8], kind: u16, count: usize, numbers: impl Iterator<Item = u16>) -> usize {
    let head = [2 + 2 * count as u16, kind];
    for (place, number) in answer.chunks_exact_mut(2).zip(head.into_iter().chain(numbers)) {
        place.copy_from_slice(&number.to_le_bytes());
    }
    4 + 2 * count
}

/// Kind 16 for each port, then kind 17 for each buffer.
pub fn write_consistent(answer: &mut [u8], model: &Model, weighed: &Weighed, timing: &Timing) -> usize {
    let Timing { periods, starts } = timing;
    let Weighed { components, weights } = weighed;
    let (ports, buffers) = answer.split_at_mut(24 * model.ports.len());
    for (p, place) in ports.chunks_exact_mut(24).enumerate() {
        let lowest = components.lowest(p);
        let Period { a, b } = periods[lowest];
        let mut record = [0; 24];
        record[0..2].copy_from_slice(&22u16.to_le_bytes());
        record[2..4].copy_from_slice(&16u16.to_le_bytes());
        record[4..6].copy_from_slice(&(lowest as u16).to_le_bytes());
        record[6..8].copy_from_slice(&(weights[p] as u16).to_le_bytes());
        record[8..12].copy_from_slice(&a.to_le_bytes());
        record[12..16].copy_from_slice(&b.to_le_bytes());
        record[16..24].copy_from_slice(&starts[p].to_le_bytes());
        place.copy_from_slice(&record);
    }
    let mut written = ports.len();
    for ((number, link), place) in model.buffers().zip(buffers.chunks_exact_mut(14)) {
        let (from, to) = link.ends();
        let Period { a, b } = periods[components.lowest(from)];
        let lack = starts[from] + i64::from(link.ticks) * i64::from(b) - starts[to];
        let size = if lack <= 0 { 0 } else { (lack as u64).div_ceil(weights[from] * u64::from(a)) };
        let mut record = [0; 14];
        record[0..2].copy_from_slice(&12u16.to_le_bytes());
        record[2..4].copy_from_slice(&17u16.to_le_bytes());
        record[4..6].copy_from_slice(&(number as u16).to_le_bytes());
        record[6..14].copy_from_slice(&size.to_le_bytes());
        place.copy_from_slice(&record);
        written += 14;
    }
    written
}
