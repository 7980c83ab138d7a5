//! Checks what 13 and 15 show. Which loop, floor and block is free; that they are such is not.

/// A connection, or a buffer, which has no events; they are divided by `over`.
struct Link {
    from: usize,
    to: usize,
    num: i64,
    den: i64,
    ticks: i64,
    events: Option<i64>,
    over: i64,
}

struct Model {
    /// numerator and denominator of the rates, 0 and 0 where there is none
    ports: Vec<(i64, i64)>,
    links: Vec<Link>,
}

/// Reads a table that is known to be well-formed.
fn read(table: &[u8]) -> Model {
    let u16_at = |at: usize| i64::from(u16::from_le_bytes(table[at..at + 2].try_into().unwrap()));
    let i32_at = |at: usize| i64::from(i32::from_le_bytes(table[at..at + 4].try_into().unwrap()));
    let mut model = Model { ports: Vec::new(), links: Vec::new() };
    let mut at = 0;
    while at < table.len() {
        let kind = u16_at(at + 2);
        if kind == 1 {
            model.ports.push((u16_at(at + 4), u16_at(at + 6)));
        } else {
            model.links.push(Link {
                from: u16_at(at + 4) as usize,
                to: u16_at(at + 6) as usize,
                num: u16_at(at + 8),
                den: u16_at(at + 10),
                ticks: i32_at(at + 12),
                events: (kind != 3).then(|| i32_at(at + 16)),
                over: if kind == 4 { i32_at(at + 20) } else { 1 },
            });
        }
        at += 2 + u16_at(at) as usize;
    }
    model
}

/// The records of an answer that hold numbers of two bytes: kind and numbers.
fn records(written: &[u8]) -> Result<Vec<(u16, Vec<usize>)>, String> {
    if written.len() % 2 != 0 {
        return Err("an odd number of bytes".into());
    }
    let numbers: Vec<u16> = written.chunks_exact(2).map(|pair| u16::from_le_bytes([pair[0], pair[1]])).collect();
    let mut records = Vec::new();
    let mut rest = &numbers[..];
    while let Some((&length, after)) = rest.split_first() {
        let count = length as usize / 2;
        if length < 2 || length % 2 != 0 || count > after.len() {
            return Err(format!("a record of length {length}"));
        }
        let (record, next) = after.split_at(count);
        records.push((record[0], record[1..].iter().map(|&n| n as usize).collect()));
        rest = next;
    }
    Ok(records)
}

/// Number 13: one closed loop, no port and no link twice, ratios whose product is not 1.
pub fn check_loop(table: &[u8], written: &[u8]) -> Result<(), String> {
    let model = read(table);
    let records = records(written)?;
    let [(18, numbers)] = &records[..] else {
        return Err("not one loop".into());
    };
    if numbers.len() % 2 != 0 {
        return Err("a loop step without a direction".into());
    }
    let mut steps = Vec::new();
    for step in numbers.chunks_exact(2) {
        let link = model.links.get(step[0]).ok_or("a link that is not there")?;
        match step[1] {
            0 => steps.push((step[0], link.from, link.to, link.num, link.den)),
            1 => steps.push((step[0], link.to, link.from, link.den, link.num)),
            _ => return Err("a direction that is not 0 or 1".into()),
        }
    }
    check_closed(&steps.iter().map(|&(number, from, to, ..)| (number, from, to)).collect::<Vec<_>>())?;
    let mut exponents = [0; 1_001];
    for &(.., num, den) in &steps {
        add_exponents(&mut exponents, num, 1);
        add_exponents(&mut exponents, den, -1);
    }
    if exponents.iter().all(|&e| e == 0) {
        return Err("the ratios of the loop agree".into());
    }
    Ok(())
}

fn add_exponents(exponents: &mut [i32; 1_001], mut n: i64, times: i32) {
    let mut prime = 2;
    while n > 1 {
        while n % prime == 0 {
            exponents[prime as usize] += times;
            n /= prime;
        }
        prime += 1;
    }
}

/// Steps (link, from, to) that lead on to each other and back, with no port and no link twice.
fn check_closed(steps: &[(usize, usize, usize)]) -> Result<(), String> {
    let Some(&(_, first, _)) = steps.first() else {
        return Err("no step".into());
    };
    let next = steps.iter().skip(1).map(|step| step.1).chain([first]);
    if steps.iter().zip(next).any(|(step, next)| step.2 != next) {
        return Err("steps that do not lead on to each other".into());
    }
    let twice = |i: usize| steps[..i].iter().any(|step| step.0 == steps[i].0 || step.1 == steps[i].1);
    if (0..steps.len()).any(twice) {
        return Err("a port or a link twice".into());
    }
    Ok(())
}

/// What 15 shows: the lowest port of the component, and of the floor whether it is zero.
pub struct Shown {
    pub component: usize,
    pub zero_floor: bool,
}

/// Number 15: a floor and a block of one component, the block with D zero or more and positive at the floor; above the floor zero, which only
/// a component without a rate has, positive everywhere.
pub fn check_blocked(table: &[u8], written: &[u8]) -> Result<Shown, String> {
    let model = read(table);
    let records = records(written)?;
    let [(floor_kind, floor), (19, block)] = &records[..] else {
        return Err("not a floor and a block".into());
    };
    let block_port = cycle_port(&model, block)?;
    let weights = weights_from(&model, block_port);
    let (block_ticks, block_events) = sums(&model, &weights, block)?;
    if block_events < 0 {
        return Err("a block with D below zero".into());
    }
    let component = weights.iter().position(|&w| w > 0).unwrap();
    let (a, b) = match (floor_kind, &floor[..]) {
        (20, &[65_535]) => {
            if model.ports.iter().zip(&weights).any(|(&(num, _), &w)| num > 0 && w > 0) {
                return Err("the floor zero of a component with a rate".into());
            }
            if block_ticks < 0 || block_ticks == 0 && block_events == 0 {
                return Err("a block that is not positive everywhere above zero".into());
            }
            return Ok(Shown { component, zero_floor: true });
        }
        (20, &[port]) if port < model.ports.len() => {
            let (num, den) = model.ports[port];
            if num == 0 {
                return Err("a floor of a port without a rate".into());
            }
            (den, num * weights[port])
        }
        (19, cycle) => {
            cycle_port(&model, cycle)?;
            let (ticks, events) = sums(&model, &weights, cycle)?;
            if ticks <= 0 || events >= 0 {
                return Err("a floor that is no lower limit above zero".into());
            }
            (ticks, -events)
        }
        _ => return Err("no floor".into()),
    };
    // a port of another component has weight 0
    if b == 0 {
        return Err("a floor of another component than the block".into());
    }
    if i128::from(block_ticks) * i128::from(b) + i128::from(block_events) * i128::from(a) <= 0 {
        return Err("a block that is not positive at the floor".into());
    }
    Ok(Shown { component, zero_floor: false })
}

/// Checks that the links are connections and form a cycle, and answers a port of it.
fn cycle_port(model: &Model, cycle: &[usize]) -> Result<usize, String> {
    let mut steps = Vec::new();
    for &number in cycle {
        match model.links.get(number) {
            Some(link) if link.events.is_some() => steps.push((number, link.from, link.to)),
            _ => return Err("a cycle with a link that is no connection".into()),
        }
    }
    check_closed(&steps)?;
    Ok(steps[0].1)
}

/// E and D of a cycle in the component that has weights.
fn sums(model: &Model, weights: &[i64], cycle: &[usize]) -> Result<(i64, i64), String> {
    let (mut ticks, mut events) = (0, 0);
    for link in cycle.iter().map(|&number| &model.links[number]) {
        if weights[link.from] == 0 {
            return Err("a floor of another component than the block".into());
        }
        ticks += link.ticks;
        events += link.events.unwrap_or(0) * weights[link.from] / link.over;
    }
    Ok((ticks, events))
}

/// The whole weights of a port's component, at which its events are whole too, and 0 elsewhere. Ratios are known to agree, and weights to stay
/// within 10,000.
fn weights_from(model: &Model, port: usize) -> Vec<i64> {
    let mut parts = vec![None; model.ports.len()];
    parts[port] = Some((1, 1));
    let mut grew = true;
    while grew {
        grew = false;
        for link in &model.links {
            match (parts[link.from], parts[link.to]) {
                (Some((num, den)), None) => parts[link.to] = Some(reduced(num * link.den, den * link.num)),
                (None, Some((num, den))) => parts[link.from] = Some(reduced(num * link.num, den * link.den)),
                _ => continue,
            }
            grew = true;
        }
    }
    let multiple = |x: i64, y: i64| x / gcd(x, y) * y;
    let common = parts.iter().flatten().fold(1, |product, &(_, den)| multiple(product, den));
    let weights: Vec<i64> = parts.iter().map(|part| part.map_or(0, |(num, den)| num * (common / den))).collect();
    let lacking = |link: &Link| link.over / gcd((link.events.unwrap_or(0) * weights[link.from]).abs(), link.over);
    let factor = model.links.iter().filter(|link| weights[link.from] > 0).map(lacking).fold(1, multiple);
    weights.into_iter().map(|weight| weight * factor).collect()
}

fn reduced(num: i64, den: i64) -> (i64, i64) {
    let common = gcd(num, den);
    (num / common, den / common)
}

fn gcd(x: i64, y: i64) -> i64 {
    if y == 0 {
        x
    } else {
        gcd(y, x % y)
    }
}
