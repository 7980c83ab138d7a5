//! Hiding a port in ordinary Rust: the table is read and analysed, kept records are copied from its bytes, and the new connections written behind
//! them.

use crate::analysis::{self, Method, Outcome};
use crate::model::{gcd, u16_at, Fault, Link, Model, Port, MOST_EVENTS, MOST_LINKS, MOST_OVER, MOST_PART, MOST_TICKS};

const PORT_SIZE: usize = 8;
const MADE_SIZE: usize = 24;

/// A connection that stands for one into the hidden port and one out of it.
struct Made {
    from: u8,
    to: u8,
    num: u16,
    den: u16,
    ticks: i32,
    events: i32,
    over: u32,
}

impl Made {
    /// None where a value leaves its range.
    fn new(first: &Link, second: &Link) -> Option<Self> {
        let [first_num, first_den, num, den] = [first.num, first.den, second.num, second.den].map(i64::from);
        let (num, den) = reduced(first_num * num, first_den * den);
        let ticks = first.ticks + second.ticks;
        let (first_over, second_over) = (i64::from(first.over), i64::from(second.over));
        // the second delay is divided by the first ratio
        let events = i64::from(first.events) * second_over * first_num + i64::from(second.events) * first_over * first_den;
        let (events, over) = reduced(events, first_over * second_over * first_num);
        let fits = is_part(num)
            && is_part(den)
            && ticks.abs() <= MOST_TICKS
            && over <= i64::from(MOST_OVER)
            && events.abs() <= i64::from(MOST_EVENTS) * over;
        fits.then_some(Made {
            from: first.from,
            to: second.to,
            num: num as u16,
            den: den as u16,
            ticks,
            events: events as i32,
            over: over as u32,
        })
    }

    fn record(&self, hidden: usize) -> [u8; MADE_SIZE] {
        let mut record = [0; MADE_SIZE];
        let numbers = [22, 4, down(self.from.into(), hidden), down(self.to.into(), hidden), self.num, self.den];
        for (place, number) in record.chunks_exact_mut(2).zip(numbers) {
            place.copy_from_slice(&number.to_le_bytes());
        }
        record[12..16].copy_from_slice(&self.ticks.to_le_bytes());
        record[16..20].copy_from_slice(&self.events.to_le_bytes());
        record[20..].copy_from_slice(&self.over.to_le_bytes());
        record
    }
}

/// In lowest terms; the second is above zero.
fn reduced(num: i64, den: i64) -> (i64, i64) {
    let common = gcd(num.unsigned_abs(), den as u64) as i64;
    (num / common, den / common)
}

fn is_part(x: i64) -> bool {
    x <= i64::from(MOST_PART)
}

/// The number of a port once the hidden one is gone.
fn down(port: u16, hidden: usize) -> u16 {
    port - u16::from(port as usize > hidden)
}

/// All bytes of the out buffer but the written ones keep their values.
pub fn hide<M: Method>(table: &[u8], port: u64, out: &mut [u8]) -> Outcome {
    match try_hide::<M>(table, port, out) {
        Ok(written) => Outcome { number: 0, place: 0, written },
        Err(Fault { number, place }) => Outcome { number, place, written: 0 },
    }
}

fn try_hide<M: Method>(table: &[u8], port: u64, out: &mut [u8]) -> Result<usize, Fault> {
    let refused = |number| Fault { number, place: 0 };
    let model = analysis::consistent::<M>(table)?;
    let hidden = port as usize;
    let (into, from) = sides(&model, hidden).ok_or(refused(18))?;
    let lowered = lowered_rate(&model, hidden, &into);
    if lowered.is_some_and(|(_, rate)| rate.is_none()) {
        return Err(refused(19));
    }
    let mut made = Vec::with_capacity(MOST_LINKS.min(into.len() * from.len()));
    for first in &into {
        for second in &from {
            let link = Made::new(first, second).ok_or(refused(19))?;
            // more are 7, once all are tried
            if made.len() < MOST_LINKS {
                made.push(link);
            }
        }
    }
    if model.links.len() - into.len() - from.len() + into.len() * from.len() > MOST_LINKS {
        return Err(refused(7));
    }
    let (ports, links) = table.split_at(PORT_SIZE * model.ports.len());
    let kept = || records(links).filter(|link| ends(link).into_iter().all(|end| end as usize != hidden));
    let written = ports.len() - PORT_SIZE + kept().map(<[u8]>::len).sum::<usize>() + MADE_SIZE * made.len();
    let out = out.get_mut(..written).ok_or(refused(16))?;
    let (out_ports, mut rest) = out.split_at_mut(ports.len() - PORT_SIZE);
    let (before, after) = (&ports[..PORT_SIZE * hidden], &ports[PORT_SIZE * (hidden + 1)..]);
    out_ports[..before.len()].copy_from_slice(before);
    out_ports[before.len()..].copy_from_slice(after);
    if let Some((sender, Some(rate))) = lowered {
        let at = PORT_SIZE * usize::from(down(sender, hidden));
        out_ports[at + 4..at + 6].copy_from_slice(&rate.num.to_le_bytes());
        out_ports[at + 6..at + 8].copy_from_slice(&rate.den.to_le_bytes());
    }
    for link in kept() {
        let (place, next) = rest.split_at_mut(link.len());
        place.copy_from_slice(link);
        for (end, at) in ends(link).into_iter().zip([4, 6]) {
            place[at..at + 2].copy_from_slice(&down(end, hidden).to_le_bytes());
        }
        rest = next;
    }
    for (place, link) in rest.chunks_exact_mut(MADE_SIZE).zip(&made) {
        place.copy_from_slice(&link.record(hidden));
    }
    Ok(written)
}

/// The connections into a port and those out of it; none where it cannot be hidden.
fn sides(model: &Model, port: usize) -> Option<(Vec<&Link>, Vec<&Link>)> {
    let (mut into, mut from) = (Vec::new(), Vec::new());
    for link in &model.links {
        match (link.from as usize == port, link.to as usize == port) {
            (false, false) => (),
            _ if link.is_buffer => return None,
            (true, true) => return None,
            (false, true) => into.push(link),
            (true, false) => from.push(link),
        }
    }
    (!into.is_empty() && !from.is_empty()).then_some((into, from))
}

/// The lowest-numbered sender where its rate is lowered, and the rate that it then has, none where that leaves its range.
fn lowered_rate(model: &Model, port: usize, into: &[&Link]) -> Option<(u16, Option<Port>)> {
    let first = into.iter().min_by_key(|link| link.from)?;
    let (hidden, own) = (model.ports[port], model.ports[first.from as usize]);
    let num = i64::from(hidden.num) * i64::from(first.den);
    let den = i64::from(hidden.den) * i64::from(first.num);
    // 0/0 is no limit: a hidden one lowers nothing, and the sender's is above every rate
    let lowers = hidden.num > 0 && (own.num == 0 || num * i64::from(own.den) < i64::from(own.num) * den);
    lowers.then(|| {
        let (num, den) = reduced(num, den);
        let fits = is_part(num) && is_part(den);
        (first.from.into(), fits.then_some(Port { num: num as u16, den: den as u16 }))
    })
}

/// The records of links.
fn records(mut links: &[u8]) -> impl Iterator<Item = &[u8]> {
    std::iter::from_fn(move || {
        (!links.is_empty()).then(|| {
            let (link, next) = links.split_at(2 + u16_at(links, 0) as usize);
            links = next;
            link
        })
    })
}

/// From and to of a link's record.
fn ends(link: &[u8]) -> [u16; 2] {
    [4, 6].map(|at| u16_at(link, at))
}
