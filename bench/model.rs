//! The model of a table: its types, and reading it from bytes.

pub const MOST_PORTS: usize = 64;
pub const MOST_LINKS: usize = 256;
pub const MOST_PART: u16 = 1_000;
pub const MOST_TICKS: i32 = 10_000_000;
pub const MOST_EVENTS: i32 = 1_000;
pub const MOST_OVER: u32 = 10_000;
pub const MOST_WEIGHT: u64 = 10_000;

/// The parts of a port's maximum rate, 0 and 0 where it has none.
#[derive(Clone, Copy)]
pub struct Port {
    pub num: u16,
    pub den: u16,
}

/// A connection, or a buffer, whose events stay zero. The events are divided by `over`, which is 1 but for kind 4.
#[derive(Clone, Copy)]
pub struct Link {
    pub from: u8,
    pub to: u8,
    pub num: u16,
    pub den: u16,
    pub is_buffer: bool,
    pub ticks: i32,
    pub events: i32,
    pub over: u16,
}

impl Link {
    pub fn ends(&self) -> (usize, usize) {
        (self.from as usize, self.to as usize)
    }

    /// The events times the sender's weight, at which they are whole.
    pub fn weighed_events(&self, weight: u64) -> i32 {
        if self.over == 1 {
            return self.events * weight as i32;
        }
        (i64::from(self.events) * weight as i64 / i64::from(self.over)) as i32
    }

    /// What a weight lacks for the events times it to be whole.
    pub fn lacking(&self, weight: u64) -> u64 {
        let over = u64::from(self.over);
        over / gcd(u64::from(self.events.unsigned_abs()) * weight % over, over)
    }

    /// With so much higher ends.
    fn moved(self, by: usize) -> Self {
        Link { from: self.from + by as u8, to: self.to + by as u8, ..self }
    }
}

pub struct Model {
    pub ports: Vec<Port>,
    pub links: Vec<Link>,
}

impl Model {
    /// An empty one with room for the records of so many bytes.
    pub fn for_bytes(bytes: usize) -> Self {
        // a port takes 8 bytes, the shortest link 16
        Model { ports: Vec::with_capacity(MOST_PORTS.min(bytes / 8)), links: Vec::with_capacity(MOST_LINKS.min(bytes / 16)) }
    }

    /// The connections with their numbers.
    pub fn connections(&self) -> impl Iterator<Item = (usize, &Link)> {
        self.links.iter().enumerate().filter(|(_, link)| !link.is_buffer)
    }

    pub fn buffers(&self) -> impl Iterator<Item = (usize, &Link)> {
        self.links.iter().enumerate().filter(|(_, link)| link.is_buffer)
    }
}

/// The ports of a set, lowest first.
pub fn each(mut set: u64) -> impl Iterator<Item = usize> {
    std::iter::from_fn(move || {
        if set == 0 {
            return None;
        }
        let port = set.trailing_zeros() as usize;
        set &= set - 1;
        Some(port)
    })
}

/// The components of a model, or of some of its links: the ports of a component have one label, and each label its set of ports.
pub struct Components {
    pub labels: [u8; MOST_PORTS],
    pub sets: [u64; MOST_PORTS],
}

impl Components {
    /// Every port in a component of its own.
    pub const ALONE: Components = {
        let mut components = Components { labels: [0; MOST_PORTS], sets: [0; MOST_PORTS] };
        let mut port = 0;
        while port < MOST_PORTS {
            components.labels[port] = port as u8;
            components.sets[port] = 1 << port;
            port += 1;
        }
        components
    };

    pub fn members(&self, port: usize) -> u64 {
        self.sets[self.labels[port] as usize]
    }

    /// The port that names the component.
    pub fn lowest(&self, port: usize) -> usize {
        self.members(port).trailing_zeros() as usize
    }

    /// The ports that name components, of so many ports.
    pub fn names(&self, ports: usize) -> impl Iterator<Item = usize> + '_ {
        (0..ports).filter(|&port| self.lowest(port) == port)
    }
}

/// The number of an input's first fault, and the byte at which the faulty record begins.
pub struct Fault {
    pub number: u64,
    pub place: usize,
}

/// Takes the records that are read, and counts them.
pub trait Taker {
    fn ports(&self) -> usize;
    fn links(&self) -> usize;
    fn take_port(&mut self, port: Port);
    fn take_link(&mut self, link: Link);
}

impl Taker for Model {
    fn ports(&self) -> usize {
        self.ports.len()
    }

    fn links(&self) -> usize {
        self.links.len()
    }

    fn take_port(&mut self, port: Port) {
        self.ports.push(port);
    }

    fn take_link(&mut self, link: Link) {
        self.links.push(link);
    }
}

/// How an input stands behind what was taken before it.
#[derive(Clone, Copy)]
pub struct Behind {
    /// its from and to count from this port on, those of the taken links from 0
    pub port: usize,
    /// ports come only while there are so many links; none come where there is no number
    pub links: Option<usize>,
}

impl Behind {
    pub const NOTHING: Behind = Behind { port: 0, links: Some(0) };
}

/// The model of a table, or its first fault.
pub fn read(table: &[u8]) -> Result<Model, Fault> {
    let mut model = Model::for_bytes(table.len());
    read_on(table, Behind::NOTHING, &mut model)?;
    Ok(model)
}

/// Takes the records of a join's inputs in turn. Answers how many ports are the first table's, or the first fault and its input.
#[inline(always)]
pub fn read_inputs(first: &[u8], second: &[u8], added: &[u8], taker: &mut impl Taker) -> Result<usize, (Fault, u64)> {
    read_on(first, Behind::NOTHING, taker).map_err(|fault| (fault, 1))?;
    let first_ports = taker.ports();
    read_on(second, Behind { port: first_ports, links: Some(taker.links()) }, taker).map_err(|fault| (fault, 2))?;
    read_on(added, Behind { port: 0, links: None }, taker).map_err(|fault| (fault, 3))?;
    Ok(first_ports)
}

/// Takes the records of an input, or answers its first fault.
#[inline(always)]
pub fn read_on(input: &[u8], behind: Behind, taker: &mut impl Taker) -> Result<(), Fault> {
    let mut at = 0;
    while at < input.len() {
        match read_record(&input[at..], behind, taker) {
            Ok(size) => at += size,
            Err(number) => return Err(Fault { number, place: at }),
        }
    }
    Ok(())
}

/// Takes the first record. Answers its size in bytes, or the number of its fault.
#[inline(always)]
fn read_record(rest: &[u8], behind: Behind, taker: &mut impl Taker) -> Result<usize, u64> {
    if rest.len() < 2 {
        return Err(2);
    }
    let length = u16_at(rest, 0) as usize;
    if length < 2 || length > rest.len() - 2 {
        return Err(2);
    }
    let record = &rest[2..2 + length];
    match u16_at(record, 0) {
        1 => {
            let record: &[u8; 6] = record.try_into().map_err(|_| 4u64)?;
            if behind.links != Some(taker.links()) {
                return Err(5);
            }
            if taker.ports() == MOST_PORTS {
                return Err(6);
            }
            taker.take_port(read_port(record)?);
        }
        2 => {
            let record: &[u8; 18] = record.try_into().map_err(|_| 4u64)?;
            if taker.links() == MOST_LINKS {
                return Err(7);
            }
            let mut link = read_link(record, taker.ports() - behind.port, false)?;
            link.events = i32_at(record, 14);
            if !(-MOST_EVENTS..=MOST_EVENTS).contains(&link.events) {
                return Err(11);
            }
            taker.take_link(link.moved(behind.port));
        }
        3 => {
            let record: &[u8; 14] = record.try_into().map_err(|_| 4u64)?;
            if taker.links() == MOST_LINKS {
                return Err(7);
            }
            taker.take_link(read_link(record, taker.ports() - behind.port, true)?.moved(behind.port));
        }
        4 => {
            let record: &[u8; 22] = record.try_into().map_err(|_| 4u64)?;
            if taker.links() == MOST_LINKS {
                return Err(7);
            }
            let mut link = read_link(record, taker.ports() - behind.port, false)?;
            let over = i32_at(record, 18) as u32;
            link.events = i32_at(record, 14);
            if !(1..=MOST_OVER).contains(&over) || link.events.unsigned_abs() > MOST_EVENTS as u32 * over {
                return Err(11);
            }
            link.over = over as u16;
            taker.take_link(link.moved(behind.port));
        }
        _ => return Err(3),
    }
    Ok(2 + length)
}

fn read_port(record: &[u8; 6]) -> Result<Port, u64> {
    let (num, den) = (u16_at(record, 2), u16_at(record, 4));
    if (num, den) != (0, 0) && !(is_part(num) && is_part(den)) {
        return Err(8);
    }
    Ok(Port { num, den })
}

/// What connections and buffers share.
#[inline(always)]
fn read_link(record: &[u8], ports: usize, is_buffer: bool) -> Result<Link, u64> {
    let (from, to) = (u16_at(record, 2), u16_at(record, 4));
    if from as usize >= ports || to as usize >= ports {
        return Err(9);
    }
    let (num, den) = (u16_at(record, 6), u16_at(record, 8));
    if !is_part(num) || !is_part(den) {
        return Err(10);
    }
    let ticks = i32_at(record, 10);
    if !(-MOST_TICKS..=MOST_TICKS).contains(&ticks) {
        return Err(11);
    }
    Ok(Link { from: from as u8, to: to as u8, num, den, is_buffer, ticks, events: 0, over: 1 })
}

pub fn gcd(x: u64, y: u64) -> u64 {
    if x == 0 {
        y
    } else {
        gcd(y % x, x)
    }
}

fn is_part(x: u16) -> bool {
    (1..=MOST_PART).contains(&x)
}

pub fn u16_at(bytes: &[u8], at: usize) -> u16 {
    u16::from_le_bytes([bytes[at], bytes[at + 1]])
}

fn i32_at(bytes: &[u8], at: usize) -> i32 {
    i32::from_le_bytes([bytes[at], bytes[at + 1], bytes[at + 2], bytes[at + 3]])
}
