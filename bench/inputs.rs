//! The inputs of the comparison, the same in every run, and the models that are timed.

/// splitmix64.
pub struct Random(u64);

impl Random {
    pub fn new(seed: u64) -> Self {
        Random(seed)
    }

    fn next(&mut self) -> u64 {
        self.0 = self.0.wrapping_add(0x9e37_79b9_7f4a_7c15);
        let mut z = self.0;
        z = (z ^ (z >> 30)).wrapping_mul(0xbf58_476d_1ce4_e5b9);
        z = (z ^ (z >> 27)).wrapping_mul(0x94d0_49bb_1331_11eb);
        z ^ (z >> 31)
    }

    fn below(&mut self, n: usize) -> usize {
        (self.next() % n as u64) as usize
    }

    fn within(&mut self, least: i32, most: i32) -> i32 {
        least + self.below((most - least + 1) as usize) as i32
    }

    fn percent(&mut self, chance: usize) -> bool {
        self.below(100) < chance
    }

    fn pick<T: Copy>(&mut self, from: &[T]) -> T {
        from[self.below(from.len())]
    }
}

/// A connection, or a buffer, which has no events. Of kind 4 the events are divided by `over`.
#[derive(Clone)]
struct Link {
    from: usize,
    to: usize,
    ratio: (u16, u16),
    ticks: i32,
    events: Option<i32>,
    over: Option<u32>,
}

fn connection(from: usize, to: usize, ticks: i32, events: i32) -> Link {
    Link { from, to, ratio: (1, 1), ticks, events: Some(events), over: None }
}

fn buffer(from: usize, to: usize, ticks: i32) -> Link {
    Link { from, to, ratio: (1, 1), ticks, events: None, over: None }
}

/// The rates of the ports, and the links.
#[derive(Clone)]
struct Model {
    ports: Vec<(u16, u16)>,
    links: Vec<Link>,
}

impl Model {
    fn new(ports: usize, rate: (u16, u16)) -> Self {
        Model { ports: vec![rate; ports], links: Vec::new() }
    }

    /// Gives the links the ratios of these weights.
    fn weighted(mut self, weights: &[u16]) -> Self {
        for link in &mut self.links {
            link.ratio = (weights[link.from], weights[link.to]);
        }
        self
    }

    /// Gives the connections twelfths of events, up to two more or less than they had.
    fn in_parts(mut self) -> Self {
        for (number, link) in self.links.iter_mut().enumerate() {
            if let Some(events) = &mut link.events {
                *events = 12 * *events + number as i32 % 5 - 2;
                link.over = Some(12);
            }
        }
        self
    }

    fn table(&self) -> Vec<u8> {
        let mut bytes = Vec::new();
        for &(num, den) in &self.ports {
            put(&mut bytes, &[6, 1, num, den]);
        }
        for link in &self.links {
            let (length, kind) = match (link.events, link.over) {
                (None, _) => (14, 3),
                (_, None) => (18, 2),
                _ => (22, 4),
            };
            put(&mut bytes, &[length, kind, link.from as u16, link.to as u16, link.ratio.0, link.ratio.1]);
            bytes.extend(link.ticks.to_le_bytes());
            bytes.extend(link.events.iter().flat_map(|events| events.to_le_bytes()));
            if kind == 4 {
                bytes.extend(link.over.iter().flat_map(|over| over.to_le_bytes()));
            }
        }
        bytes
    }
}

fn put(bytes: &mut Vec<u8>, numbers: &[u16]) {
    bytes.extend(numbers.iter().flat_map(|n| n.to_le_bytes()));
}

/// A table and the length of its answer buffer.
pub fn random_input(random: &mut Random) -> (Vec<u8>, usize) {
    let room = if random.percent(95) { 5_120 } else { random.pick(&[5_119, 5_120, 6_000, 0]) };
    let table = match random.below(100) {
        0..=64 => random_model(random).table(),
        65..=74 => edge_model(random).table(),
        75..=94 => {
            let table = random_model(random).table();
            damaged(random, table)
        }
        95..=97 => random_records(random),
        _ => random_bytes(random),
    };
    (table, room)
}

fn random_model(random: &mut Random) -> Model {
    let (ports, links) = random_size(random);
    let mut model = match random.below(11) {
        0..=2 => tight(random, ports, links),
        3..=4 => random_delays(random, ports, links),
        5 => falling(random, ports, links),
        6 => rising(random, ports, links),
        7 => chain_with_ways_back(random, ports),
        8 => rings(random, ports, links),
        9 => greatest(random, ports.max(3), links),
        _ => long_products(random, ports),
    };
    model.links.truncate(256);
    if random.percent(25) {
        give_fractions(random, &mut model);
    }
    if random.percent(20) {
        for i in (1..model.links.len()).rev() {
            model.links.swap(i, random.below(i + 1));
        }
    }
    model
}

/// Small models mostly, but also every other size up to 64 ports and 256 links.
fn random_size(random: &mut Random) -> (usize, usize) {
    let ports = match random.below(10) {
        0..=4 => 1 + random.below(6),
        5..=7 => 1 + random.below(24),
        8 => 1 + random.below(64),
        _ => 64,
    };
    let most = (ports * random.pick(&[1, 2, 4])).min(256);
    let links = match random.below(10) {
        0..=7 => random.below(most + 1),
        8 => most,
        _ => random.below(257),
    };
    (ports, links)
}

fn random_rate(random: &mut Random) -> (u16, u16) {
    let any = (1 + random.below(1_000) as u16, 1 + random.below(1_000) as u16);
    random.pick(&[(1, 1), (1, 1), (1_000, 1), (1_000, 1), (2, 5), any])
}

fn random_rates(random: &mut Random, ports: usize) -> Model {
    let is_fast = random.percent(50);
    let ports = (0..ports).map(|_| if is_fast { (1_000, 1) } else { random_rate(random) }).collect();
    let mut model = Model { ports, links: Vec::new() };
    take_rates(random, &mut model);
    model
}

/// Takes the rates from a third of all ports: from none of a model, from some, or from all.
fn take_rates(random: &mut Random, model: &mut Model) {
    let chance = random.pick(&[0, 0, 33, 33, 100]);
    for port in &mut model.ports {
        if random.percent(chance) {
            *port = NO_RATE;
        }
    }
}

const NO_RATE: (u16, u16) = (0, 0);

fn random_weights(random: &mut Random, ports: usize) -> Vec<u16> {
    let most = random.pick(&[1, 1, 2, 4, 12, 30, 1_000]);
    // many divisors, so that the smallest weights stay below 10,000
    let divisors = [1, 2, 3, 4, 5, 6, 8, 10, 12, 15, 20, 24, 30, 40, 60, 120, 125, 250, 500, 1_000];
    let fitting: Vec<u16> = divisors.into_iter().filter(|&w| w <= most).collect();
    (0..ports).map(|_| if most == 30 { 1 + random.below(30) as u16 } else { random.pick(&fitting) }).collect()
}

/// The ratios of these weights, not always in lowest terms; now and then one that disagrees.
fn give_ratios(random: &mut Random, model: &mut Model, weights: &[u16]) {
    for link in &mut model.links {
        let (num, den) = (weights[link.from], weights[link.to]);
        let factor = 1 + random.below(1_000 / num.max(den) as usize) as u16;
        link.ratio = (num * factor, den * factor);
    }
    if !model.links.is_empty() && random.percent(8) {
        let spoiled = random.below(model.links.len());
        let num = &mut model.links[spoiled].ratio.0;
        *num = if *num == 1_000 { 999 } else { *num + 1 };
    }
}

/// Gives some connections a fraction of events, in lowest terms or not; some of them are whole.
fn give_fractions(random: &mut Random, model: &mut Model) {
    let any = 1 + random.below(10_000) as i32;
    let overs = random.pick(&[[1, 1, 1], [1, 2, 2], [2, 3, 6], [4, 5, 10], [1, 16, 625], [7, 97, 101], [1, 5_000, 10_000], [1, 2, any]]);
    let moves = random.percent(80);
    for link in &mut model.links {
        let Some(events) = link.events.filter(|_| random.percent(40)) else {
            continue;
        };
        let over = random.pick(&overs);
        let moved = if moves && events.abs() < 1_000 { random.within(-over, over) } else { 0 };
        link.events = Some(events * over + moved);
        link.over = Some(over as u32);
    }
}

/// Every connection is met exactly at one a/b by chosen starts, so that each cycle adds up to zero there; some are then moved.
fn tight(random: &mut Random, ports: usize, links: usize) -> Model {
    let weights = random_weights(random, ports);
    let mut model = random_rates(random, ports);
    let (a, b) = (random.within(1, 9), random.within(1, 3));
    let starts: Vec<i32> = (0..ports).map(|_| random.within(0, 1_000)).collect();
    let most_events = random.pick(&[1, 4, 300]);
    for _ in 0..links {
        let (from, to) = (random.below(ports), random.below(ports));
        let events = b * random.within(-most_events, most_events);
        let ticks = starts[to] - starts[from] - events / b * i32::from(weights[from]) * a;
        let events = (!random.percent(15)).then_some(events);
        model.links.push(Link { from, to, ratio: (1, 1), ticks, events, over: None });
    }
    give_ratios(random, &mut model, &weights);
    if !model.links.is_empty() && random.percent(50) {
        let moved = random.below(model.links.len());
        model.links[moved].ticks += random.pick(&[-1, 1]);
    }
    model
}

/// Delays of either sign, small or as large as they may be.
fn random_delays(random: &mut Random, ports: usize, links: usize) -> Model {
    let weights = random_weights(random, ports);
    let mut model = random_rates(random, ports);
    let (ticks, events) = random.pick(&[(9, 4), (1_000, 40), (10_000_000, 1_000)]);
    for _ in 0..links {
        let (from, to) = (random.below(ports), random.below(ports));
        let delay = random.within(-ticks, ticks);
        let credit = (!random.percent(20)).then(|| random.within(-events, events / 3));
        model.links.push(Link { from, to, ratio: (1, 1), ticks: delay, events: credit, over: None });
    }
    give_ratios(random, &mut model, &weights);
    model
}

/// No events above zero: a period exists unless a cycle without events is positive.
fn falling(random: &mut Random, ports: usize, links: usize) -> Model {
    let mut model = random_delays(random, ports, links);
    for link in &mut model.links {
        link.events = link.events.map(|events| if events == 0 { -1 } else { -events.abs() });
    }
    model
}

/// Many limits from below, and a few from above that may block.
fn rising(random: &mut Random, ports: usize, links: usize) -> Model {
    let mut model = falling(random, ports, links);
    for _ in 0..1 + random.below(3) {
        if !model.links.is_empty() {
            let at = random.below(model.links.len());
            let link = &mut model.links[at];
            link.events = link.events.map(|events| -events);
            link.ticks = -link.ticks.abs();
        }
    }
    model
}

/// A chain with a way back for each link, as through a store of few events.
fn chain_with_ways_back(random: &mut Random, ports: usize) -> Model {
    let weights = random_weights(random, ports);
    let mut model = random_rates(random, ports);
    let reversed = random.percent(30);
    for p in 1..ports {
        let (from, to) = if reversed { (p, p - 1) } else { (p - 1, p) };
        model.links.push(connection(from, to, random.within(0, 50), 0));
        model.links.push(connection(to, from, random.within(0, 5), -random.within(1, 8)));
        if random.percent(30) {
            model.links.push(buffer(from, to, random.within(-50, 50)));
        }
    }
    give_ratios(random, &mut model, &weights);
    model
}

/// Rings over neighbouring ports, some of them joined by a buffer.
fn rings(random: &mut Random, ports: usize, links: usize) -> Model {
    let weights = random_weights(random, ports);
    let mut model = random_rates(random, ports);
    let mut first = 0;
    while first < ports {
        let size = (1 + random.below(16)).min(ports - first);
        for i in 0..size {
            let events = if i + 1 == size { -random.within(1, 20) } else { random.within(-1, 1) };
            model.links.push(connection(first + i, first + (i + 1) % size, random.within(-5, 100), events));
        }
        if first > 0 && random.percent(50) {
            model.links.push(buffer(first - 1, first, random.within(-100, 100)));
        }
        first += size;
    }
    for _ in 0..links.saturating_sub(model.links.len()) {
        model.links.push(connection(random.below(ports), random.below(ports), -random.within(0, 500), -random.within(0, 9)));
    }
    give_ratios(random, &mut model, &weights);
    model
}

/// A ring whose weights and delays are about as large as they may be, so that gains and starts are too.
fn greatest(random: &mut Random, ports: usize, links: usize) -> Model {
    let mut model = Model::new(ports, (1_000, 1));
    // port 0 weighs 1, port 1 weighs 10, and each other port ten times this
    let tens: Vec<u16> = (0..ports).map(|_| random.within(990, 1_000) as u16).collect();
    model.links.push(Link { ratio: (1, 10), ..connection(0, 1, 0, 0) });
    model.links.push(Link { ratio: (1, tens[2]), ..connection(1, 2, -10_000_000, 0) });
    for p in 2..ports {
        let next = if p + 1 < ports { p + 1 } else { 2 };
        let (ticks, events) = (random.within(9_999_000, 10_000_000), -random.within(997, 1_000));
        model.links.push(Link { ratio: (tens[p], tens[next]), ..connection(p, next, ticks, events) });
    }
    let most_events = random.pick(&[-990, 1_000]);
    for _ in 0..links {
        let (from, to) = (2 + random.below(ports - 2), 2 + random.below(ports - 2));
        let (ticks, events) = (random.within(-10_000_000, 10_000_000), random.within(-1_000, most_events));
        model.links.push(Link { ratio: (tens[from], tens[to]), ..connection(from, to, ticks, events) });
    }
    take_rates(random, &mut model);
    model
}

/// Ratios of 1000/1 and back, whose products outgrow every machine integer; the last link closes a loop, exactly or almost.
fn long_products(random: &mut Random, ports: usize) -> Model {
    let mut model = Model::new(ports, (1, 1));
    take_rates(random, &mut model);
    let mut height = 0;
    for p in 1..ports {
        let up = random.percent(50);
        height += if up { 1 } else { -1 };
        let ratio = if up { (1_000, 1) } else { (1, 1_000) };
        model.links.push(Link { ratio, ..connection(p - 1, p, 0, 0) });
    }
    let back = match height {
        -1 => (1_000, 1),
        0 => (1, 1),
        1 => (1, 1_000),
        _ => return model,
    };
    let almost = (back.0, if back.1 == 1_000 { 999 } else { back.1 + 1 });
    let ratio = random.pick(&[back, back, almost]);
    model.links.push(Link { ratio, ..connection(ports - 1, 0, 0, 0) });
    model
}

/// Fields at and just past their limits, and one port, link or weight too many.
fn edge_model(random: &mut Random) -> Model {
    let mut model = random_model(random);
    match random.below(12) {
        0 => model.ports = vec![(1, 1); random.pick(&[64, 65])],
        1 => {
            let link = connection(0, 0, 0, -1);
            model.links.resize(random.pick(&[256, 257]), link);
        }
        2 => {
            let port = random.below(model.ports.len());
            model.ports[port] = random.pick(&[NO_RATE, (0, 1), (1, 0), (0, 1_000), (1_000, 1_000), (1_001, 1), (1, 1_001)]);
        }
        3 => {
            let weights = random.pick(&[[1_000, 100, 10], [1_000, 101, 10], [999, 1_000, 7]]);
            let chain = [(0, 1, (1_000, 1)), (1, 2, (weights[2], 1)), (0, 2, (weights[0], weights[1]))];
            model = Model::new(3, (1, 1));
            for (from, to, ratio) in &chain[..random.within(2, 3) as usize] {
                model.links.push(Link { ratio: *ratio, ..connection(*from, *to, 5, 0) });
            }
        }
        _ if model.links.is_empty() => (),
        choice => {
            let at = random.below(model.links.len());
            let link = &mut model.links[at];
            match choice {
                4 => link.from = random.pick(&[model.ports.len() - 1, model.ports.len(), 65_535]),
                5 => link.to = random.pick(&[model.ports.len() - 1, model.ports.len(), 256]),
                6 => link.ratio.0 = random.pick(&[0, 1_000, 1_001]),
                7 => link.ratio.1 = random.pick(&[0, 1_000, 65_535]),
                8 => link.ratio = (0, 0),
                9 => link.ticks = random.pick(&[-10_000_001, -10_000_000, 10_000_000, 10_000_001, i32::MIN]),
                10 => link.events = link.events.map(|_| random.pick(&[-1_001, -1_000, 1_000, 1_001, i32::MAX])),
                _ => {
                    let edges = [(0, 0), (1, 0), (0, 1), (2_000, 2), (2_001, 2), (-2_001, 2), (10_000_000, 10_000), (-10_000_001, 10_000), (0, 10_001)];
                    let (events, over) = random.pick(&edges);
                    (link.events, link.over) = (Some(events), Some(random.pick(&[over, over, over, u32::MAX])));
                }
            }
        }
    }
    model
}

/// A table with a byte changed, its end cut off, or bytes more than it had. It has some bytes.
fn damaged(random: &mut Random, mut table: Vec<u8>) -> Vec<u8> {
    match random.below(6) {
        0..=2 => {
            for _ in 0..1 + random.below(2) {
                let at = random.below(table.len());
                table[at] = random.pick(&[0, 1, 2, 3, 255, table[at] ^ 1, table[at].wrapping_add(1)]);
            }
        }
        3 => table.truncate(random.below(table.len() + 1)),
        // a port behind the links, where there are any
        4 => put(&mut table, &[6, 1, random.pick(&[0, 1]), 1]),
        _ => {
            for _ in 0..1 + random.below(24) {
                table.push(random.pick(&[0, 0, 1, 2, 3, 4, 6, 14, 18, 22, 200]));
            }
        }
    }
    table
}

/// Records of right and wrong kinds and lengths with small numbers in them.
fn random_records(random: &mut Random) -> Vec<u8> {
    let mut bytes = Vec::new();
    for _ in 0..random.below(12) {
        let kind = random.pick(&[0, 1, 1, 2, 3, 4, 5, 256]);
        let right = [0, 6, 18, 14, 22].get(kind as usize).copied().unwrap_or(6);
        let length = if random.percent(90) { right } else { random.below(24) as u16 };
        put(&mut bytes, &[length, kind]);
        for _ in 0..(length.max(2) - 2) / 2 {
            put(&mut bytes, &[random.pick(&[0, 1, 1, 1, 2, 3])]);
        }
    }
    bytes
}

fn random_bytes(random: &mut Random) -> Vec<u8> {
    (0..random.below(300)).map(|_| random.next() as u8).collect()
}

/// The inputs of a join and the length of its out buffer.
pub struct JoinInput {
    pub first: Vec<u8>,
    pub second: Vec<u8>,
    pub added: Vec<u8>,
    pub room: usize,
}

/// One model cut in two, any two, or two about as large as they may be together, and links between the ports of both; some inputs, now and then
/// all, empty, and some faulty.
pub fn random_join(random: &mut Random) -> JoinInput {
    let models = match random.below(100) {
        0 => std::array::from_fn(|_| Model::new(0, NO_RATE)),
        1..=49 => cut(random),
        50..=74 => {
            let models = [random_model(random), random_model(random)];
            linked(random, models)
        }
        _ => {
            let models = halves(random);
            linked(random, models)
        }
    };
    let mut inputs = models.map(|model| model.table());
    for input in &mut inputs {
        match random.below(20) {
            0 => input.clear(),
            1 if !input.is_empty() => *input = damaged(random, std::mem::take(input)),
            2 => *input = random_input(random).0,
            _ => (),
        }
    }
    let size: usize = inputs.iter().map(Vec::len).sum();
    let shorter = random.below(size + 1);
    let room = random.pick(&[6_656, 6_656, size, size + 1, size.saturating_sub(1), shorter]);
    let [first, second, added] = inputs;
    JoinInput { first, second, added, room }
}

/// A model as two and added links between them, so that the join often is consistent.
fn cut(random: &mut Random) -> [Model; 3] {
    let whole = random_model(random);
    let at = random.below(whole.ports.len() + 1);
    let (first, second) = whole.ports.split_at(at);
    let mut parts = [first, second, &[]].map(|ports| Model { ports: ports.to_vec(), links: Vec::new() });
    for link in whole.links {
        match (link.from.checked_sub(at), link.to.checked_sub(at)) {
            (None, None) => parts[0].links.push(link),
            (Some(from), Some(to)) => parts[1].links.push(Link { from, to, ..link }),
            _ => parts[2].links.push(link),
        }
    }
    parts
}

/// Two models and any links between their ports.
fn linked(random: &mut Random, [first, second]: [Model; 2]) -> [Model; 3] {
    let count = random.pick(&[0, 1, 3, 20]);
    let links = random_delays(random, first.ports.len() + second.ports.len(), count).links;
    [first, second, Model { ports: Vec::new(), links }]
}

/// Models that together have 64 or 65 ports and now and then 256 or 257 links.
fn halves(random: &mut Random) -> [Model; 2] {
    let most_ports = random.pick(&[64, 64, 64, 65]);
    let most_links = random.pick(&[64, 236, 253, 255, 256, 257]);
    let (ports, links) = (1 + random.below(63), random.below(most_links + 1));
    [random_delays(random, ports, links), random_delays(random, most_ports - ports, most_links - links)]
}

/// A table, the port to hide, and the length of the out buffer.
pub struct HideInput {
    pub table: Vec<u8>,
    pub port: u64,
    pub room: usize,
}

/// Any model, mostly without what bars hiding; a port with connections on both sides, any other, or none of the table; and some tables faulty.
pub fn random_hide(random: &mut Random) -> HideInput {
    let mut model = if random.percent(5) { edge_model(random) } else { random_model(random) };
    if random.percent(90) {
        model.links.retain(|link| link.from != link.to && (link.events.is_some() || random.percent(10)));
    }
    let passed: Vec<usize> = model.links.iter().map(|link| link.to).filter(|&port| model.links.iter().any(|link| link.from == port)).collect();
    let port = match random.below(20) {
        0 => random.pick(&[model.ports.len() as u64, 64, 256, 65_536, 1 << 32, u64::MAX]),
        1..=14 if !passed.is_empty() => random.pick(&passed) as u64,
        _ => random.below(model.ports.len()) as u64,
    };
    let size = hidden_size(&model, port as usize);
    let table = if random.percent(5) { damaged(random, model.table()) } else { model.table() };
    let shorter = random.below(size + 1);
    let room = random.pick(&[6_656, 6_656, 6_656, size, size, size + 1, size.saturating_sub(1), shorter]);
    HideInput { table, port, room }
}

/// The length of the table without a port, if it can be hidden.
fn hidden_size(model: &Model, port: usize) -> usize {
    let into = model.links.iter().filter(|link| link.to == port).count();
    let from = model.links.iter().filter(|link| link.from == port).count();
    let kept = model.links.iter().filter(|link| link.from != port && link.to != port).cloned().collect();
    Model { ports: model.ports[1..].to_vec(), links: kept }.table().len() + 24 * into * from
}

/// The hidings that are timed, each with its name and a word on what it is.
pub fn hide_workloads() -> Vec<(&'static str, &'static str, HideInput)> {
    let mut random = Random::new(65);
    let mut full = Model::new(64, (1, 1));
    for p in 1..64 {
        full.links.push(connection(p - 1, p, 2, 0));
    }
    full.links.extend([connection(20, 32, 3, 0), connection(32, 50, 4, 0)]);
    while full.links.len() < 256 {
        let (p, q) = (random.below(64), random.below(64));
        if p != 32 && q != 32 {
            let events = if p < q { 0 } else { -random.within(10, 60) };
            full.links.push(connection(p, q, random.within(1, 50), events));
        }
    }
    let mut pairs = Model::new(3, (1, 1));
    for ticks in 0..128 {
        pairs.links.extend([connection(0, 1, ticks, 0), connection(1, 2, ticks, 0)]);
    }
    let named = |name, what, model: &Model, port| (name, what, HideInput { table: model.table(), port, room: 6_656 });
    vec![
        named("full table", "64 ports, 256 connections, of the hidden port two into it and two out of it", &full, 32),
        named("many pairs", "3 ports, 128 connections into the hidden one and 128 out of it: 16,384 are tried", &pairs, 1),
    ]
}

/// The join that is timed: tables of 32 ports and 128 connections each, which together are as large as a table may be; none added.
pub fn join_workload() -> JoinInput {
    let mut random = Random::new(32);
    let mut half = || {
        let mut model = Model::new(32, (1, 1));
        while model.links.len() < 128 {
            let (p, q) = (random.below(32), random.below(32));
            let events = if p < q { 0 } else { -random.within(10, 60) };
            model.links.push(connection(p, q, random.within(1, 50), events));
        }
        model.table()
    };
    JoinInput { first: half(), second: half(), added: Vec::new(), room: 6_656 }
}

/// The small join whose preview is timed: document 01's models A and D; none added.
pub fn small_join() -> JoinInput {
    let d = Model { links: vec![connection(0, 0, -5, 1)], ..Model::new(1, (1, 5)) };
    JoinInput { first: worked_example().table(), second: d.table(), added: Vec::new(), room: 6_656 }
}

/// What is timed: a name, a word on what it is, and the table.
pub struct Workload {
    pub name: &'static str,
    pub what: &'static str,
    pub table: Vec<u8>,
}

pub fn workloads() -> Vec<Workload> {
    // weights up to 60 in turn, and the same for each neighbour's way back
    let weights: Vec<u16> = [1, 2, 6, 12, 60, 30, 10, 5].into_iter().cycle().take(64).collect();
    let named = |name, what, model: &Model| Workload { name, what, table: model.table() };
    vec![
        named("worked example", "2 ports, 3 links: document 01's printed table", &worked_example()),
        named("unjoined", "64 ports, no link", &Model::new(64, (2, 5))),
        named("chain", "64 ports, 189 links: forward, way back, buffer; ratios 1", &chain()),
        named("chain, ratios", "the same with weights from 1 to 60", &chain().weighted(&weights)),
        named("ring", "64 ports, 128 links: a ring and buffers along it; ratios 1", &ring()),
        named("ring, ratios", "the same with weights from 1 to 60", &ring().weighted(&weights)),
        named("ring, parts", "the ring with twelfths of events in kind 4", &ring().in_parts()),
        named("dense", "64 ports, 256 links: 232 connections, 24 buffers; ratios 1", &dense()),
        named("dense, ratios", "the same with weights from 1 to 60", &dense().weighted(&weights)),
        named("many periods", "64 ports, 255 connections: 192 limits, each tried in turn", &many_periods()),
    ]
}

fn worked_example() -> Model {
    Model { links: vec![connection(0, 1, 3, 0), connection(1, 0, 0, -2), buffer(1, 0, 4)], ..Model::new(2, (1, 1)) }
}

fn chain() -> Model {
    let mut model = Model::new(64, (1, 2));
    for p in 0..63 {
        model.links.push(connection(p, p + 1, 3 + p as i32 % 5, 0));
        model.links.push(connection(p + 1, p, 1, -4));
        model.links.push(buffer(p, p + 1, 40));
    }
    model
}

fn ring() -> Model {
    let mut model = Model::new(64, (1, 1));
    for p in 0..64 {
        let next = (p + 1) % 64;
        model.links.push(connection(p, next, 10 + p as i32 % 7, if next == 0 { -20 } else { 0 }));
        model.links.push(buffer(next, p, 5));
    }
    model
}

/// Connections between ports taken at random: forward ones with ticks, backward ones with credit.
fn dense() -> Model {
    let mut random = Random::new(64);
    let mut model = Model::new(64, (1, 1));
    for p in 1..64 {
        model.links.push(connection(p - 1, p, 2, 0));
    }
    while model.links.len() < 256 {
        let (p, q) = (random.below(64), random.below(64));
        let ticks = random.within(1, 50);
        model.links.push(match model.links.len() % 8 {
            0 => buffer(p, q, ticks),
            _ if p < q => connection(p, q, ticks, 0),
            _ => connection(p, q, ticks, -random.within(10, 60)),
        });
    }
    model
}

/// Cycles of one connection each. Three at each port, the lowest limit the steepest, so that it gains most until it is passed; limits rise from
/// port to port, and the last links are those of port 0, so that a search from either end meets them lowest first.
fn many_periods() -> Model {
    let mut model = Model::new(64, (1_000, 1));
    for p in 1..64 {
        // joins the ports and never raises a start
        model.links.push(connection(p - 1, p, -10_000_000, -1_000));
    }
    for p in (0..64).rev() {
        for (i, events) in [1_000, 30, 1].into_iter().enumerate() {
            let limit = 2 + 3 * p as i32 + i as i32;
            model.links.push(connection(p, p, events * limit, -events));
        }
    }
    model
}
