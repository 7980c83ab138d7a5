//! The analysis of document 01 and the preview of a join in ordinary Rust, apart from the parts in which the two implementations differ.

use crate::answers;
use crate::join::Joined;
use crate::model::{each, read, read_inputs, Components, Fault, Model, Port, MOST_EVENTS, MOST_PORTS, MOST_WEIGHT};

const LEAST_ANSWER: usize = 5_120;

/// A cycle has at most this D, above zero or below. At 1 divided by more than this, E decides whether it is positive, and D where E is 0:
/// as at every a/b between there and zero.
const MOST_D: u32 = MOST_PORTS as u32 * MOST_EVENTS as u32 * MOST_WEIGHT as u32;

/// The parts in which the implementations differ.
pub trait Method {
    /// Joins the components, which are ports alone, and sets the weights, which are 1.
    fn weigh(model: &Model, weighed: &mut Weighed) -> Result<(), Unweighed>;

    /// Prepares the model's connections for `settle`.
    fn new(model: &Model, weighed: &Weighed) -> Self;

    /// Turns to the next component.
    fn choose(&mut self, members: u64);

    /// Sets the least starts, times b, of the component's ports at a/b, or answers a cycle that is positive there.
    fn settle(&mut self, period: Period, starts: &mut [i64; MOST_PORTS]) -> Result<(), Cycle>;
}

pub struct Weighed {
    pub components: Components,
    pub weights: [u64; MOST_PORTS],
}

/// Why there are no weights: a loop of links whose ratios disagree, or a weight above the limit.
pub enum Unweighed {
    Disagreeing(Vec<Step>),
    Heavy,
}

#[derive(Clone, Copy)]
pub struct Step {
    pub link: u16,
    pub against: bool,
}

/// The connections of a cycle in walking order, the sum of their ticks, and that of their events times the sender's weight.
pub struct Cycle {
    pub links: Vec<u16>,
    pub ticks: i32,
    pub events: i32,
}

impl Cycle {
    /// From link, ticks and events of its connections, the last of them first.
    pub fn backwards(connections: impl Iterator<Item = (u16, i32, i32)>) -> Self {
        let mut cycle = Cycle { links: Vec::with_capacity(MOST_PORTS), ticks: 0, events: 0 };
        for (link, ticks, events) in connections {
            cycle.links.push(link);
            cycle.ticks += ticks;
            cycle.events += events;
        }
        cycle.links.reverse();
        cycle
    }
}

/// a/b of a component, in lowest terms.
#[derive(Clone, Copy)]
pub struct Period {
    pub a: u32,
    pub b: u32,
}

impl Period {
    fn reduced(a: u32, b: u32) -> Self {
        match gcd(a, b) {
            1 => Period { a, b },
            common => Period { a: a / common, b: b / common },
        }
    }

    /// What a delay comes to, times b.
    pub fn delay(self, ticks: i32, events: i32) -> i64 {
        i64::from(ticks) * i64::from(self.b) + i64::from(events) * i64::from(self.a)
    }
}

pub fn gcd(mut x: u32, mut y: u32) -> u32 {
    while y != 0 {
        (x, y) = (y, x % y);
    }
    x
}

/// What stands under every period: the limit that a/b is, or zero.
pub enum Floor {
    Port(usize),
    Cycle(Vec<u16>),
    Zero,
}

/// Why a component has no period.
pub struct Blocked {
    pub floor: Floor,
    pub block: Vec<u16>,
}

/// For each component, at its lowest port, its a/b; for each port its start times b.
pub struct Timing {
    pub periods: [Period; MOST_PORTS],
    pub starts: [i64; MOST_PORTS],
}

/// What an analysis answers: the number, its place, and how many bytes it wrote.
pub struct Outcome {
    pub number: u64,
    pub place: usize,
    pub written: usize,
}

/// All bytes of the answer but the written ones keep their values.
pub fn analyse<M: Method>(table: &[u8], answer: &mut [u8]) -> Outcome {
    if answer.len() < LEAST_ANSWER {
        return Outcome { number: 1, place: 0, written: 0 };
    }
    match read(table) {
        Ok(model) => {
            let (number, written) = decide::<M>(&model, answer);
            Outcome { number, place: 0, written }
        }
        Err(Fault { number, place }) => Outcome { number, place, written: 0 },
    }
}

/// The preview of a join: its inputs are read into one model, and that is analysed. All bytes of the answer but the written ones keep their
/// values.
pub fn preview<M: Method>(first: &[u8], second: &[u8], added: &[u8], answer: &mut [u8]) -> Joined {
    let mut model = Model::for_bytes(first.len() + second.len() + added.len());
    if let Err((Fault { number, place }, input)) = read_inputs(first, second, added, &mut model) {
        return Joined { number, place, input, written: 0 };
    }
    // a fault of an input comes before the short buffer
    let (number, written) = if answer.len() < LEAST_ANSWER { (1, 0) } else { decide::<M>(&model, answer) };
    Joined { number, place: 0, input: 0, written }
}

/// The model of a consistent table, or what the analysis says of another.
pub fn consistent<M: Method>(table: &[u8]) -> Result<Model, Fault> {
    let model = read(table)?;
    match decide::<M>(&model, &mut [0; LEAST_ANSWER]) {
        (0, _) => Ok(model),
        (number, _) => Err(Fault { number, place: 0 }),
    }
}

/// The number of a model that was read without a fault, and the bytes written.
fn decide<M: Method>(model: &Model, answer: &mut [u8]) -> (u64, usize) {
    if model.ports.is_empty() {
        return (12, 0);
    }
    let mut weighed = Weighed { components: Components::ALONE, weights: [1; MOST_PORTS] };
    match M::weigh(model, &mut weighed) {
        Ok(()) => (),
        Err(Unweighed::Disagreeing(steps)) => return (13, answers::write_loop(answer, &steps)),
        Err(Unweighed::Heavy) => return (14, 0),
    }
    let mut timing = Timing { periods: [Period { a: 0, b: 0 }; MOST_PORTS], starts: [0; MOST_PORTS] };
    let mut method = M::new(model, &weighed);
    let mut all_least = true;
    for name in weighed.components.names(model.ports.len()) {
        let members = weighed.components.members(name);
        method.choose(members);
        let limit = greatest_limit(model, &weighed.weights, members);
        match least_period(&mut method, limit, &mut timing.starts) {
            Ok(Some(period)) => timing.periods[name] = period,
            // a later component may have no period at all, and that comes first
            Ok(None) => all_least = false,
            Err(blocked) => return (15, answers::write_blocked(answer, &blocked)),
        }
    }
    if !all_least {
        return (17, 0);
    }
    (0, answers::write_consistent(answer, model, &weighed, &timing))
}

/// The greatest of the rate limits, denominator over numerator times weight, and its port; none where no port has a rate.
fn greatest_limit(model: &Model, weights: &[u64; MOST_PORTS], members: u64) -> Option<(usize, Period)> {
    let mut greatest = None;
    let (mut a, mut b) = (0, 1);
    for p in each(members) {
        let Port { num, den } = model.ports[p];
        let (limit_a, limit_b) = (u64::from(den), u64::from(num) * weights[p]);
        // 0/0 is above nothing
        if limit_a * b > a * limit_b {
            (greatest, a, b) = (Some(p), limit_a, limit_b);
        }
    }
    greatest.map(|port| (port, Period::reduced(a as u32, b as u32)))
}

/// The least a/b of a component, from the rate limit of a port or from zero on, or none where each has a smaller one below it; its least
/// starts, times b, in starts.
fn least_period<M: Method>(
    method: &mut M,
    limit: Option<(usize, Period)>,
    starts: &mut [i64; MOST_PORTS],
) -> Result<Option<Period>, Blocked> {
    let (mut floor, mut period) = match limit {
        Some((port, period)) => (Floor::Port(port), period),
        None => (Floor::Zero, Period { a: 1, b: MOST_D + 1 }),
    };
    while let Err(cycle) = method.settle(period, starts) {
        if cycle.events >= 0 {
            return Err(Blocked { floor, block: cycle.links });
        }
        // positive with events below zero: so the ticks are above zero, and this a/b is greater
        period = Period::reduced(cycle.ticks as u32, -cycle.events as u32);
        floor = Floor::Cycle(cycle.links);
    }
    Ok(match floor {
        Floor::Zero => None,
        Floor::Port(_) | Floor::Cycle(_) => Some(period),
    })
}
