//! The method of the proved code in ordinary Rust: components by labels, ratios by rows of prime exponents, least periods by
//! rounds of starts, each of which uses only the starts before it.

use crate::analysis::{self, Cycle, Method, Outcome, Period, Step, Unweighed, Weighed};
use crate::exponents::{multiply, COLUMNS, PRIME, PRIMES};
use crate::hide;
use crate::join::Joined;
use crate::model::{each, Components, Link, Model, MOST_PORTS, MOST_WEIGHT};

pub fn analyse(table: &[u8], answer: &mut [u8]) -> Outcome {
    analysis::analyse::<Rounds>(table, answer)
}

pub fn preview(first: &[u8], second: &[u8], added: &[u8], answer: &mut [u8]) -> Joined {
    analysis::preview::<Rounds>(first, second, added, answer)
}

pub fn hide(table: &[u8], port: u64, out: &mut [u8]) -> Outcome {
    hide::hide::<Rounds>(table, port, out)
}

/// Labels each port with the lowest port joined to it: passes over the links give both ends the smaller label, until one changes
/// nothing.
fn join(model: &Model, components: &mut Components) {
    let Components { labels, sets } = components;
    let mut changed = true;
    while changed {
        changed = false;
        for link in &model.links {
            let (from, to) = link.ends();
            let (p, q) = (labels[from], labels[to]);
            if p != q {
                labels[from] = p.min(q);
                labels[to] = p.min(q);
                changed = true;
            }
        }
    }
    for (port, &label) in labels[..model.ports.len()].iter().enumerate() {
        sets[label as usize] |= 1 << port;
    }
}

/// So many exponents fill a vector register.
const LANES: usize = 8;

type Exponents = [i16; LANES];

/// The length of a row with room for the primes of all ratios that are not 1.
fn width(model: &Model) -> usize {
    let ratios = model.links.iter().filter(|link| link.num != link.den);
    let columns = ratios.map(|link| COLUMNS[link.num as usize].max(COLUMNS[link.den as usize])).max();
    (columns.unwrap_or(0) as usize).div_ceil(LANES)
}

/// The ports as they are reached from the lowest of each component over the links, with their rows of exponents.
struct Forest {
    /// for each port how many were reached before it; its row stands at that place
    reach: [u8; MOST_PORTS],
    /// for each port the link by which it was reached
    via: [u16; MOST_PORTS],
    /// how many components there are; their lowest ports are reached first
    roots: usize,
    rows: Vec<Exponents>,
    /// the length of a row
    width: usize,
}

const NO_LINK: u16 = u16::MAX;

impl Forest {
    /// Passes over the links reach the other end of each link that has one end reached, until all ports are reached.
    fn new(model: &Model, labels: &[u8], width: usize) -> Self {
        let ports = labels.len();
        let (reach, via) = ([0; MOST_PORTS], [NO_LINK; MOST_PORTS]);
        let mut forest = Forest { reach, via, roots: 0, rows: Vec::with_capacity(ports * width), width };
        let mut reached: u64 = 0;
        for root in (0..ports).filter(|&port| labels[port] as usize == port) {
            forest.reach[root] = forest.roots as u8;
            forest.roots += 1;
            reached |= 1 << root;
        }
        forest.rows.resize(forest.roots * width, [0; LANES]);
        let mut count = forest.roots;
        while count < ports {
            for (number, link) in model.links.iter().enumerate() {
                let (from, to) = link.ends();
                let next = match (reached >> from & 1, reached >> to & 1) {
                    (1, 0) => {
                        forest.append(from, link.den, link.num);
                        to
                    }
                    (0, 1) => {
                        forest.append(to, link.num, link.den);
                        from
                    }
                    _ => continue,
                };
                forest.reach[next] = count as u8;
                forest.via[next] = number as u16;
                reached |= 1 << next;
                count += 1;
            }
        }
        forest
    }

    fn row(&self, port: usize) -> &[Exponents] {
        let first = self.reach[port] as usize * self.width;
        &self.rows[first..first + self.width]
    }

    /// Appends the row of a port, times and divided by these numbers.
    fn append(&mut self, port: usize, times: u16, by: u16) {
        let first = self.reach[port] as usize * self.width;
        let new = self.rows.len();
        self.rows.extend_from_within(first..first + self.width);
        shift(&mut self.rows[new..], times, by);
    }

    /// The first link whose ends' rows do not fit its ratio. Those by which ports were reached fit.
    fn conflict(&self, links: &[Link]) -> Option<usize> {
        let mut shifted = [[0; LANES]; PRIMES / LANES];
        let shifted = &mut shifted[..self.width];
        links.iter().enumerate().position(|(number, link)| {
            let (from, to) = link.ends();
            if self.via[from] == number as u16 || self.via[to] == number as u16 {
                return false;
            }
            if link.num == link.den {
                return !same(self.row(from), self.row(to));
            }
            for (x, y) in shifted.iter_mut().zip(self.row(from)) {
                *x = *y;
            }
            shift(shifted, link.den, link.num);
            !same(shifted, self.row(to))
        })
    }

    /// The loop that a link closes: from its two ends back over the links by which they were reached, always from the end that
    /// was reached later, until both are one port.
    fn loop_of(&self, links: &[Link], last: usize) -> Vec<Step> {
        let (mut down_to, mut up_from) = links[last].ends();
        let mut up = vec![Step { link: last as u16, against: false }];
        let mut down = Vec::new();
        while up_from != down_to {
            let is_up = self.reach[up_from] > self.reach[down_to];
            let port = if is_up { &mut up_from } else { &mut down_to };
            let link = self.via[*port];
            let (from, to) = links[link as usize].ends();
            let is_sender = from == *port;
            *port = if is_sender { to } else { from };
            if is_up {
                up.push(Step { link, against: !is_sender });
            } else {
                down.push(Step { link, against: is_sender });
            }
        }
        up.extend(down.into_iter().rev());
        up
    }

    /// Sets the weights: each row less the component's least exponent of every prime, multiplied out.
    fn weigh(&self, labels: &[u8], weights: &mut [u64; MOST_PORTS]) -> Result<(), Unweighed> {
        // the rows of the roots, which are zero
        let mut least = self.rows[..self.roots * self.width].to_vec();
        for (port, &label) in labels.iter().enumerate() {
            let first = self.reach[label as usize] as usize * self.width;
            let least = &mut least[first..first + self.width];
            for (x, y) in least.as_flattened_mut().iter_mut().zip(self.row(port).as_flattened()) {
                *x = (*x).min(*y);
            }
        }
        for (port, &label) in labels.iter().enumerate() {
            let first = self.reach[label as usize] as usize * self.width;
            weights[port] = quotient(self.row(port), &least[first..first + self.width]).ok_or(Unweighed::Heavy)?;
        }
        Ok(())
    }
}

/// Multiplies and divides the number that a row stands for.
fn shift(row: &mut [Exponents], times: u16, by: u16) {
    if times != by {
        let row = row.as_flattened_mut();
        multiply(row, times, 1);
        multiply(row, by, -1);
    }
}

fn same(row: &[Exponents], other: &[Exponents]) -> bool {
    row.iter().zip(other).all(|(x, y)| x == y)
}

/// The number that a row stands for, divided by that of another row with no greater exponent; none where it is above the limit
/// for weights.
fn quotient(row: &[Exponents], least: &[Exponents]) -> Option<u64> {
    let mut product = 1;
    for ((row, least), primes) in row.iter().zip(least).zip(PRIME.chunks_exact(LANES)) {
        if row == least {
            continue;
        }
        for ((&row, &least), &prime) in row.iter().zip(least).zip(primes) {
            for _ in least..row {
                product *= u64::from(prime);
                if product > MOST_WEIGHT {
                    return None;
                }
            }
        }
    }
    Some(product)
}

/// Multiplies the weights of each component by what the events of its connections still lack, one connection after the other.
fn make_whole(model: &Model, weighed: &mut Weighed) -> Result<(), Unweighed> {
    for link in model.links.iter().filter(|link| link.over > 1) {
        let from = link.from as usize;
        let factor = link.lacking(weighed.weights[from]);
        if factor == 1 {
            continue;
        }
        for port in each(weighed.components.members(from)) {
            weighed.weights[port] *= factor;
            if weighed.weights[port] > MOST_WEIGHT {
                return Err(Unweighed::Heavy);
            }
        }
    }
    Ok(())
}

/// A connection. Its ends are given by their places among the ports of the component.
#[derive(Clone, Copy, Default)]
struct Edge {
    /// what it costs at the a/b that is tried, times b
    cost: i64,
    ticks: i32,
    /// events times the sender's weight
    events: i32,
    link: u16,
    from: u8,
    to: u8,
}

/// The connections of all components, and the component whose period is searched.
struct Rounds {
    /// those of a component stand together
    edges: Vec<Edge>,
    /// where the edges of each component begin, in the order of the components, and where those of the last end
    first: [u16; MOST_PORTS + 1],
    /// how many components were chosen, this one included
    chosen: usize,
    members: u64,
    /// the starts after each round, those of zero rounds first
    rows: Vec<i64>,
}

impl Method for Rounds {
    fn weigh(model: &Model, weighed: &mut Weighed) -> Result<(), Unweighed> {
        join(model, &mut weighed.components);
        let width = width(model);
        if width > 0 {
            let labels = &weighed.components.labels[..model.ports.len()];
            let forest = Forest::new(model, labels, width);
            if let Some(link) = forest.conflict(&model.links) {
                return Err(Unweighed::Disagreeing(forest.loop_of(&model.links, link)));
            }
            forest.weigh(labels, &mut weighed.weights)?;
        }
        make_whole(model, weighed)
    }

    fn new(model: &Model, weighed: &Weighed) -> Self {
        // for each port its component's place among the components, and its own place in the component
        let (mut component, mut place) = ([0; MOST_PORTS], [0; MOST_PORTS]);
        for (i, name) in weighed.components.names(model.ports.len()).enumerate() {
            for (own, port) in each(weighed.components.members(name)).enumerate() {
                (component[port], place[port]) = (i, own as u8);
            }
        }
        let mut first = [0; MOST_PORTS + 1];
        for (_, link) in model.connections() {
            first[component[link.from as usize] + 1] += 1;
        }
        for i in 0..MOST_PORTS {
            first[i + 1] += first[i];
        }
        let mut edges = vec![Edge::default(); first[MOST_PORTS] as usize];
        let mut next = first;
        for (number, link) in model.connections() {
            let (from, to) = link.ends();
            let at = &mut next[component[from]];
            let events = link.weighed_events(weighed.weights[from]);
            let (link, ticks) = (number as u16, link.ticks);
            edges[*at as usize] = Edge { cost: 0, ticks, events, link, from: place[from], to: place[to] };
            *at += 1;
        }
        Rounds { edges, first, chosen: 0, members: 0, rows: Vec::new() }
    }

    fn choose(&mut self, members: u64) {
        self.chosen += 1;
        self.members = members;
    }

    fn settle(&mut self, period: Period, starts: &mut [i64; MOST_PORTS]) -> Result<(), Cycle> {
        let ports = self.members.count_ones() as usize;
        let edges = &mut self.edges[self.first[self.chosen - 1] as usize..self.first[self.chosen] as usize];
        if edges.is_empty() {
            return Ok(());
        }
        for edge in &mut *edges {
            edge.cost = period.delay(edge.ticks, edge.events);
        }
        self.rows.clear();
        self.rows.reserve((ports + 1) * ports);
        self.rows.resize(ports, 0);
        for round in 0..ports {
            self.rows.extend_from_within(round * ports..);
            let (before, new) = self.rows.split_at_mut((round + 1) * ports);
            let old = &before[round * ports..];
            let mut grew = false;
            for edge in &*edges {
                let asked = old[edge.from as usize] + edge.cost;
                let start = &mut new[edge.to as usize];
                if asked > *start {
                    *start = asked;
                    grew = true;
                }
            }
            if !grew {
                for (port, &start) in each(self.members).zip(&*new) {
                    starts[port] = start;
                }
                return Ok(());
            }
        }
        Err(cycle_back(edges, &self.rows, ports))
    }
}

const NOT_MET: u8 = u8::MAX;

/// From the lowest port that the last round raised, back through the rounds, each time over an edge that gave the port its start,
/// to the first port that comes again. What lies between is a positive cycle.
fn cycle_back(edges: &[Edge], rows: &[i64], ports: usize) -> Cycle {
    let row = |round: usize| &rows[round * ports..(round + 1) * ports];
    let mut port = (0..ports).find(|&port| row(ports - 1)[port] < row(ports)[port]).unwrap();
    // the edges walked over, and for each port how many were walked over before it was met
    let mut steps = [&edges[0]; MOST_PORTS];
    let mut met = [NOT_MET; MOST_PORTS];
    for (step, round) in (0..ports).rev().enumerate() {
        met[port] = step as u8;
        let (old, start) = (row(round), row(round + 1)[port]);
        let is_tight = |edge: &&Edge| edge.to as usize == port && old[edge.from as usize] + edge.cost == start;
        steps[step] = edges.iter().find(is_tight).unwrap();
        port = steps[step].from as usize;
        if met[port] != NOT_MET {
            let cycle = steps[met[port] as usize..=step].iter();
            return Cycle::backwards(cycle.map(|edge| (edge.link, edge.ticks, edge.events)));
        }
    }
    unreachable!("more ports came than the component has")
}
