//! The join in ordinary Rust: the records are checked, then copied; only the second table's ends are written anew.

use crate::model::{read_inputs, u16_at, Fault, Link, Port, Taker};

/// What a join or its preview came to: the number, its place and input, and how many bytes it wrote.
pub struct Joined {
    pub number: u64,
    pub place: usize,
    pub input: u64,
    pub written: usize,
}

/// Only counts the records.
struct Counted {
    ports: usize,
    links: usize,
}

impl Taker for Counted {
    fn ports(&self) -> usize {
        self.ports
    }

    fn links(&self) -> usize {
        self.links
    }

    fn take_port(&mut self, _: Port) {
        self.ports += 1;
    }

    fn take_link(&mut self, _: Link) {
        self.links += 1;
    }
}

/// All bytes of the out buffer but the written ones keep their values.
pub fn join(first: &[u8], second: &[u8], added: &[u8], out: &mut [u8]) -> Joined {
    match try_join(first, second, added, out) {
        Ok(written) => Joined { number: 0, place: 0, input: 0, written },
        Err((Fault { number, place }, input)) => Joined { number, place, input, written: 0 },
    }
}

/// The bytes written, or the fault and its input; 16 has place and input 0.
fn try_join(first: &[u8], second: &[u8], added: &[u8], out: &mut [u8]) -> Result<usize, (Fault, u64)> {
    let mut counted = Counted { ports: 0, links: 0 };
    let by = read_inputs(first, second, added, &mut counted)?;
    let (first_ports, first_links) = first.split_at(PORT_SIZE * by);
    let (second_ports, second_links) = second.split_at(PORT_SIZE * (counted.ports - by));
    let parts = [first_ports, second_ports, first_links, second_links, added];
    let written = parts.iter().map(|part| part.len()).sum();
    if out.len() < written {
        return Err((Fault { number: 16, place: 0 }, 0));
    }
    let mut rest = out;
    for (i, part) in parts.into_iter().enumerate() {
        let (place, next) = rest.split_at_mut(part.len());
        place.copy_from_slice(part);
        if i == 3 {
            move_ends(place, by as u16);
        }
        rest = next;
    }
    Ok(written)
}

const PORT_SIZE: usize = 8;

/// Gives from and to of each link so much higher numbers.
fn move_ends(mut links: &mut [u8], by: u16) {
    while !links.is_empty() {
        let (link, next) = links.split_at_mut(2 + u16_at(links, 0) as usize);
        for end in [4, 6] {
            let moved = u16_at(link, end) + by;
            link[end..end + 2].copy_from_slice(&moved.to_le_bytes());
        }
        links = next;
    }
}
