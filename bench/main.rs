//! Compares the proved analysis with two ordinary ones, and the proved join, its preview and hiding with ordinary ones: first that all answer the
//! same, then how long they take.

mod analysis;
mod answers;
mod exponents;
mod hide;
mod in_place;
mod inputs;
mod join;
mod model;
mod ordinary;
mod proved;
mod stack;
mod validate;

use analysis::Outcome;
use inputs::{HideInput, JoinInput};
use join::Joined;
use std::hint::black_box;
use std::process::exit;
use std::time::Instant;
use validate::Shown;

type Analyse = fn(&[u8], &mut [u8]) -> Outcome;
type Join = fn(&[u8], &[u8], &[u8], &mut [u8]) -> Joined;
type Hide = fn(&[u8], u64, &mut [u8]) -> Outcome;

const SIDES: [(&str, Analyse); 3] =
    [("proved", proved::analyse), ("ordinary", ordinary::analyse), ("in place", in_place::analyse)];
const JOIN_SIDES: [(&str, Join); 2] = [("proved", proved::join), ("ordinary", join::join)];
const PREVIEW_SIDES: [(&str, Join); 2] = [("proved", proved::preview), ("ordinary", ordinary::preview)];
const HIDE_SIDES: [(&str, Hide); 2] = [("proved", proved::hide), ("ordinary", ordinary::hide)];
const COMPARED: usize = 100_000;
const COMPARED_JOINS: usize = 50_000;
const COMPARED_HIDES: usize = 50_000;
/// The answer buffers of the compared previews, by turns.
const PREVIEW_ROOMS: [usize; 4] = [0, 5_119, 5_120, 6_000];
const SEED: u64 = 20_261_115;
/// A sample of many short calls is at least about this long, so that reading the clock does not show.
const SAMPLE_NANOSECONDS: f64 = 5_000.0;
/// About how long one workload takes, all sides together.
const WORKLOAD_NANOSECONDS: f64 = 2e9;
const MOST_SAMPLES: f64 = 10_000.0;

fn main() {
    compare();
    compare_joins();
    compare_previews();
    compare_hides();
    fit_stack();
    time();
    time_join();
    time_previews();
    time_hides();
}

fn compare() {
    let mut random = inputs::Random::new(SEED);
    let mut counts = [0; 18];
    let (mut free, mut same, mut zero_floors) = (0, 0, 0);
    for _ in 0..COMPARED {
        let (table, room) = inputs::random_input(&mut random);
        match same_answer(&table, room) {
            Ok(agreed) => {
                counts[agreed.number as usize] += 1;
                zero_floors += usize::from(agreed.zero_floor);
                if let Some(same_records) = agreed.same_records {
                    free += 1;
                    same += usize::from(same_records);
                }
            }
            Err(why) => {
                println!("{why}\nanswer buffer: {room} bytes\ntable: {}", hex(&table));
                exit(1);
            }
        }
    }
    println!("compared: {COMPARED} inputs, no difference in number, place, bytes written or any byte of the answer buffer");
    println!("between proved, ordinary and in place; for 13 and 15, where which records are shown is free, each side's were");
    println!("checked instead, and proved and ordinary show the same ones in {same} of {free} cases");
    // 16 is of joins
    for (number, count) in counts.iter().enumerate().filter(|&(number, _)| number != 16) {
        println!("  answer {number:2}: {count:6}");
    }
    println!("  of 15, proved shows the floor zero: {zero_floors}");
}

fn hex(bytes: &[u8]) -> String {
    bytes.iter().map(|byte| format!("{byte:02x}")).collect()
}

fn compare_joins() {
    let counts = count_joins(same_join, |_, given| given.room);
    println!("compared: {COMPARED_JOINS} joins, no difference in number, place, input, bytes written or any byte of the out buffer between");
    println!("proved and ordinary; how often each number came, in all and for a record of the first input, the second and the added records");
    print_counts(&counts);
}

fn compare_previews() {
    let counts = count_joins(same_preview, |turn, _| PREVIEW_ROOMS[turn % PREVIEW_ROOMS.len()]);
    let [none, short, least, more] = PREVIEW_ROOMS;
    println!("compared: {COMPARED_JOINS} previews with answer buffers of {none}, {short}, {least} and {more} bytes by turns, no difference in");
    println!("number, place, input, bytes written or any byte of the answer buffer between proved and the proved join and then analysis,");
    println!("nor between proved and ordinary, but for the records of 13 and 15, which are free; how often each number came, as above");
    print_counts(&counts);
    // 16 is of joins
    if let Some(number) = (0..counts.len()).find(|&number| number != 16 && counts[number] == [0; 4]) {
        println!("number {number} did not come");
        exit(1);
    }
}

/// For each number how often it concerned no record, and a record of each input.
type Counts = [[usize; 4]; 18];

fn print_counts(counts: &Counts) {
    for (number, count) in counts.iter().enumerate().filter(|&(_, count)| *count != [0; 4]) {
        let [_, first, second, added] = count;
        println!("  number {number:2}: {:6}{first:6}{second:6}{added:6}", count.iter().sum::<usize>());
    }
}

/// Compares the sides on random joins, each with so much room, and counts what they answer.
fn count_joins(same: fn(&JoinInput, usize) -> Result<(u64, u64), String>, room: fn(usize, &JoinInput) -> usize) -> Counts {
    let mut random = inputs::Random::new(SEED);
    let mut counts = Counts::default();
    for turn in 0..COMPARED_JOINS {
        let given = inputs::random_join(&mut random);
        let room = room(turn, &given);
        match same(&given, room) {
            Ok((number, input)) => counts[number as usize][input as usize] += 1,
            Err(why) => {
                let JoinInput { first, second, added, .. } = given;
                println!("{why}\nbuffer: {room} bytes\nfirst: {}\nsecond: {}\nadded: {}", hex(&first), hex(&second), hex(&added));
                exit(1);
            }
        }
    }
    counts
}

fn compare_hides() {
    let mut random = inputs::Random::new(SEED);
    let mut counts = [0; 20];
    for _ in 0..COMPARED_HIDES {
        let given = inputs::random_hide(&mut random);
        match same_hide(&given) {
            Ok(number) => counts[number as usize] += 1,
            Err(why) => {
                println!("{why}\nport: {}\nbuffer: {} bytes\ntable: {}", given.port, given.room, hex(&given.table));
                exit(1);
            }
        }
    }
    println!("compared: {COMPARED_HIDES} hidings, no difference in number, place, bytes written or any byte of the out buffer between proved and");
    println!("ordinary; how often each number came");
    // there is no answer buffer that could be short
    for (number, &count) in counts.iter().enumerate().filter(|&(number, _)| number != 1) {
        println!("  number {number:2}: {count:6}");
        if count == 0 {
            exit(1);
        }
    }
}

/// What one side of a join, of a preview or of hiding came to: number, place, input, which hiding has not, and bytes written; and its buffer.
struct Called {
    side: &'static str,
    numbers: [u64; 4],
    buffer: Vec<u8>,
}

/// Calls a side of a join or of a preview.
fn call((side, join): (&'static str, Join), given: &JoinInput, room: usize) -> Result<Called, String> {
    call_into(side, room, |buffer| join(&given.first, &given.second, &given.added, buffer))
}

/// Calls a side with so many bytes of room. It must not change bytes past the written ones.
fn call_into(side: &'static str, room: usize, called: impl FnOnce(&mut [u8]) -> Joined) -> Result<Called, String> {
    let pattern: Vec<u8> = (0..room).map(|i| (i * 31 + room) as u8).collect();
    let mut buffer = pattern.clone();
    let Joined { number, place, input, written } = called(&mut buffer);
    if written > room || buffer[written..] != pattern[written..] {
        return Err(format!("number {number}: {side} changes bytes past the {written} written"));
    }
    Ok(Called { side, numbers: [number, place as u64, input, written as u64], buffer })
}

/// The number and the input of two sides, or how they differ. What they write may differ where it is free.
fn same_call(one: &Called, other: &Called, is_free: bool) -> Result<(u64, u64), String> {
    let fixed = if is_free { 3 } else { 4 };
    if one.numbers[..fixed] != other.numbers[..fixed] {
        let said = |called: &Called| format!("{} answers {:?}", called.side, called.numbers);
        return Err(format!("number, place, input and bytes: {}, {}", said(one), said(other)));
    }
    let [number, _, input, _] = one.numbers;
    if !is_free && one.buffer != other.buffer {
        return Err(format!("number {number}: {} and {} write different bytes", one.side, other.side));
    }
    Ok((number, input))
}

/// The number and the input that both sides answer with so many bytes of room, or how they differ.
fn same_join(given: &JoinInput, room: usize) -> Result<(u64, u64), String> {
    let [proved, ordinary] = JOIN_SIDES.map(|side| call(side, given, room));
    same_call(&proved?, &ordinary?, false)
}

/// The same of a preview, and of the proved join and analysis one after the other. With 13 and 15 ordinary may show something else.
fn same_preview(given: &JoinInput, room: usize) -> Result<(u64, u64), String> {
    let [proved, ordinary] = PREVIEW_SIDES.map(|side| call(side, given, room));
    let proved = proved?;
    let in_turn: Join = |first, second, added, answer| {
        proved::join_and_analyse(first, second, added, &mut [0; proved::TABLE_BYTES], answer)
    };
    same_call(&proved, &call(("join and analysis", in_turn), given, room)?, false)?;
    same_call(&proved, &ordinary?, matches!(proved.numbers[0], 13 | 15))
}

/// The number that both sides answer to a hiding, or how they differ.
fn same_hide(HideInput { table, port, room }: &HideInput) -> Result<u64, String> {
    let [proved, ordinary] = HIDE_SIDES.map(|(side, hide)| {
        call_into(side, *room, |buffer| {
            let Outcome { number, place, written } = hide(table, *port, buffer);
            Joined { number, place, input: 0, written }
        })
    });
    let (number, _) = same_call(&proved?, &ordinary?, false)?;
    Ok(number)
}

fn fit_stack() {
    let mut random = inputs::Random::new(SEED);
    let workloads = inputs::workloads().into_iter().map(|workload| (workload.table, proved::ANSWER_BYTES));
    let inputs: Vec<_> = workloads.chain((0..COMPARED).map(|_| inputs::random_input(&mut random))).collect();
    let joins: Vec<_> = (0..COMPARED_JOINS).map(|_| inputs::random_join(&mut random)).chain([inputs::join_workload()]).collect();
    let hide_workloads = inputs::hide_workloads().into_iter().map(|(_, _, given)| given);
    let hides: Vec<_> = hide_workloads.chain((0..COMPARED_HIDES).map(|_| inputs::random_hide(&mut random))).collect();
    let (count, join_count, hide_count) = (inputs.len(), joins.len(), hides.len());
    stack::answer_all(inputs);
    stack::join_all(joins);
    stack::hide_all(hides);
    println!("stack: {count} inputs answered, {join_count} joins made and previewed, {hide_count} ports hidden by proved in threads with a stack");
    println!("of {} bytes", proved::STACK_BYTES);
}

/// What one side answers.
struct Answered {
    side: &'static str,
    number: u64,
    place: usize,
    written: Vec<u8>,
}

/// What all sides answer.
struct Agreed {
    number: u64,
    /// where which records are shown is free, whether the first two sides show the same
    same_records: Option<bool>,
    /// whether the first side shows the floor zero
    zero_floor: bool,
}

/// What all sides answer, or how they differ.
fn same_answer(table: &[u8], room: usize) -> Result<Agreed, String> {
    let pattern: Vec<u8> = (0..room).map(|i| (i * 31 + table.len()) as u8).collect();
    let mut sides = Vec::with_capacity(SIDES.len());
    for (side, analyse) in SIDES {
        let mut answer = pattern.clone();
        let Outcome { number, place, written } = analyse(table, &mut answer);
        if written > room || answer[written..] != pattern[written..] {
            return Err(format!("answer {number}: {side} changes bytes past the {written} written"));
        }
        answer.truncate(written);
        sides.push(Answered { side, number, place, written: answer });
    }
    let proved = &sides[0];
    if let Some(other) = sides.iter().find(|other| (other.number, other.place) != (proved.number, proved.place)) {
        let said = |answered: &Answered| format!("{} answers {} at {}", answered.side, answered.number, answered.place);
        return Err(format!("{}, {}", said(proved), said(other)));
    }
    let mut zero_floor = false;
    match proved.number {
        13 => {
            for Answered { side, written, .. } in &sides {
                validate::check_loop(table, written).map_err(|why| format!("{side} shows {why}"))?;
            }
        }
        15 => {
            let mut shown = Vec::with_capacity(sides.len());
            for Answered { side, written, .. } in &sides {
                shown.push(validate::check_blocked(table, written).map_err(|why| format!("{side} shows {why}"))?);
            }
            let components: Vec<usize> = shown.iter().map(|&Shown { component, .. }| component).collect();
            if components.iter().any(|&component| component != components[0]) {
                return Err(format!("answer 15: the sides show components {components:?}"));
            }
            zero_floor = shown[0].zero_floor;
        }
        number => {
            if let Some(other) = sides.iter().find(|other| other.written != proved.written) {
                return Err(format!("answer {number}: {} and {} write different bytes", proved.side, other.side));
            }
        }
    }
    let is_free = matches!(proved.number, 13 | 15);
    Ok(Agreed { number: proved.number, same_records: is_free.then(|| proved.written == sides[1].written), zero_floor })
}

fn time() {
    println!("\ntimes in nanoseconds per call; no side's answer buffer is cleared between calls");
    println!("a sample is so many calls in a row, the sides' samples alternate, the worst is the slowest sample's mean call");
    print_heading("workload", "answer");
    println!("{:>12}{:>9}", "in place", "ratio");
    let workloads = inputs::workloads();
    for workload in &workloads {
        time_workload(workload);
    }
    println!("ordinary: the same method as proved, in ordinary optimised Rust");
    println!("ratio, worst: proved over ordinary, of the medians and of the worsts; below 1 the proved side is faster");
    println!("in place: another search, over only the ports that grew and with an early look for a cycle; its median");
    println!("ratio: proved over in place, of the medians");
    println!("inputs, each table with an answer buffer of 5,120 bytes:");
    for workload in &workloads {
        println!("  {:16}{} ({} bytes)", workload.name, workload.what, workload.table.len());
    }
}

fn time_workload(workload: &inputs::Workload) {
    let table = &workload.table[..];
    let number = match same_answer(table, proved::ANSWER_BYTES) {
        Ok(agreed) => agreed.number,
        Err(why) => {
            println!("{}: {why}", workload.name);
            exit(1);
        }
    };
    let mut answers = [[0; proved::ANSWER_BYTES]; SIDES.len()];
    let measured = measure(|side, calls| {
        let (answer, analyse) = (&mut answers[side], SIDES[side].1);
        sample(calls, || {
            black_box(analyse(black_box(table), black_box(&mut *answer)));
        })
    });
    let Measured { calls, samples, times: [proved, ordinary, (in_place, _)] } = measured;
    print_sides(workload.name, number, (calls, samples), proved, ordinary);
    println!("{in_place:>12.0}{:>9.2}", proved.0 / in_place);
}

fn time_join() {
    let given = inputs::join_workload();
    let JoinInput { first, second, added, room } = &given;
    println!("\njoin of two tables of 32 ports and 128 connections each ({} and {} bytes), no added records", first.len(), second.len());
    println!("into {room} bytes, and read alone; times in nanoseconds per call, sampled as above, all by turns");
    for room in [*room, 0] {
        if let Err(why) = same_join(&given, room) {
            println!("{why}");
            exit(1);
        }
    }
    // a byte behind the last record is the fault of a table that is read to its end
    let cut = [first, second].map(|half| [&half[..], &[0]].concat());
    for half in &cut {
        if !same_answer(half, proved::ANSWER_BYTES).is_ok_and(|agreed| agreed.number == 2) {
            println!("a byte behind a table is not the number 2");
            exit(1);
        }
    }
    let mut out = [0; proved::TABLE_BYTES];
    let mut answer = [0; proved::ANSWER_BYTES];
    // proved and ordinary join, the same into a buffer of 0 bytes, and proved and ordinary read both tables
    let measured = measure(|side, calls| {
        let (join, analyse) = (JOIN_SIDES[side % 2].1, SIDES[side % 2].1);
        let out = if side < 2 { &mut out[..*room] } else { &mut [][..] };
        if side < 4 {
            return sample(calls, || {
                black_box(join(black_box(first), black_box(second), black_box(added), black_box(&mut *out)));
            });
        }
        sample(calls, || {
            for half in &cut {
                black_box(analyse(black_box(half), black_box(&mut answer)));
            }
        })
    });
    let Measured { calls, samples, times: [join, ordinary_join, none, ordinary_none, read, ordinary_read] } = measured;
    print_heading("", "number");
    println!();
    for (name, number, proved, ordinary) in
        [("join", 0, join, ordinary_join), ("join, no room", 16, none, ordinary_none), ("reading", 2, read, ordinary_read)]
    {
        print_sides(name, number, (calls, samples), proved, ordinary);
        println!();
    }
    println!("join, no room: the same join into a buffer of 0 bytes reads all inputs, works out the size and writes nothing");
    println!("reading: the two tables read one after the other by the analysis, each with a byte behind it, which is refused with 2");
    println!("ordinary: the records are checked, then copied; only the second table's ends are written anew");
    println!("join / reading, of the medians: proved {:.2}, ordinary {:.2}", join.0 / read.0, ordinary_join.0 / ordinary_read.0);
    println!("join / join, no room: proved {:.2}, ordinary {:.2}", join.0 / none.0, ordinary_join.0 / ordinary_none.0);
}

fn time_previews() {
    println!("\npreviews of joins with no added records, each with an answer buffer of 5,120 bytes");
    println!("times in nanoseconds per call, sampled as above, all by turns");
    print_heading("join", "number");
    println!("{:>16}{:>9}", "join, analysis", "ratio");
    let joins = [
        ("two halves", "32 ports and 128 connections each", inputs::join_workload()),
        ("small", "2 ports and 3 links, 1 port and 1 link: document 01's models A and D", inputs::small_join()),
    ];
    for (name, _, given) in &joins {
        time_preview(name, given);
    }
    println!("ordinary: the inputs are read into one model, and that is analysed by the same method as proved");
    println!("join, analysis: the proved join into {} bytes and the proved analysis one after the other; their median", proved::TABLE_BYTES);
    println!("ratio: the proved preview over these, of the medians; below 1 the preview is faster");
    println!("inputs:");
    for (name, what, JoinInput { first, second, .. }) in &joins {
        println!("  {name:16}{what} ({} and {} bytes)", first.len(), second.len());
    }
}

fn time_preview(name: &str, given: &JoinInput) {
    let (number, _) = same_preview(given, proved::ANSWER_BYTES).unwrap_or_else(|why| {
        println!("{name}: {why}");
        exit(1);
    });
    let JoinInput { first, second, added, .. } = given;
    let mut out = [0; proved::TABLE_BYTES];
    let mut answer = [0; proved::ANSWER_BYTES];
    // proved and ordinary preview, and the proved join and analysis
    let measured = measure(|side, calls| match PREVIEW_SIDES.get(side) {
        Some((_, preview)) => sample(calls, || {
            black_box(preview(black_box(first), black_box(second), black_box(added), black_box(&mut answer)));
        }),
        None => sample(calls, || {
            let (first, second, added) = (black_box(first), black_box(second), black_box(added));
            black_box(proved::join_and_analyse(first, second, added, black_box(&mut out), black_box(&mut answer)));
        }),
    });
    let Measured { calls, samples, times: [proved, ordinary, (in_turn, _)] } = measured;
    print_sides(name, number, (calls, samples), proved, ordinary);
    println!("{in_turn:>16.0}{:>9.2}", proved.0 / in_turn);
}

fn time_hides() {
    println!("\nhiding a port of a table into {} bytes, and the analysis of that table alone", proved::TABLE_BYTES);
    println!("times in nanoseconds per call, sampled as above, all by turns");
    print_heading("", "number");
    println!();
    let workloads = inputs::hide_workloads();
    for (name, _, given) in &workloads {
        time_hide(name, given);
    }
    println!("ordinary: the table is read and analysed by the same method as proved, kept records are copied");
    println!("tables:");
    for (name, what, HideInput { table, .. }) in &workloads {
        println!("  {name:16}{what} ({} bytes)", table.len());
    }
}

fn time_hide(name: &str, given: &HideInput) {
    let HideInput { table, port, .. } = given;
    let checked = same_hide(given).and_then(|number| Ok((number, same_answer(table, proved::ANSWER_BYTES)?.number)));
    let (number, own_number) = checked.unwrap_or_else(|why| {
        println!("{name}: {why}");
        exit(1);
    });
    let mut out = [0; proved::TABLE_BYTES];
    let mut answer = [0; proved::ANSWER_BYTES];
    // proved and ordinary hide, and proved and ordinary analyse
    let measured = measure(|side, calls| {
        let (hide, analyse) = (HIDE_SIDES[side % 2].1, SIDES[side % 2].1);
        if side < 2 {
            return sample(calls, || {
                black_box(hide(black_box(table), black_box(*port), black_box(&mut out)));
            });
        }
        sample(calls, || {
            black_box(analyse(black_box(table), black_box(&mut answer)));
        })
    });
    let Measured { calls, samples, times: [hide, ordinary_hide, analysis, ordinary_analysis] } = measured;
    print_sides(name, number, (calls, samples), hide, ordinary_hide);
    println!();
    print_sides("  analysis", own_number, (calls, samples), analysis, ordinary_analysis);
    println!();
    println!("  hiding / analysis, of the medians: proved {:.2}, ordinary {:.2}", hide.0 / analysis.0, ordinary_hide.0 / ordinary_analysis.0);
}

fn print_heading(name: &str, number: &str) {
    print!("{name:16}{number:>6}{:>7}{:>8}", "calls", "samples");
    print!("{:>12}{:>12}{:>12}{:>12}{:>9}{:>9}", "proved", "worst", "ordinary", "worst", "ratio", "worst");
}

/// What is under the heading: of each side the median and the worst, and their ratios.
fn print_sides(name: &str, number: u64, (calls, samples): (usize, usize), proved: (f64, f64), ordinary: (f64, f64)) {
    print!("{name:16}{number:>6}{calls:>7}{samples:>8}");
    print!("{:>12.0}{:>12.0}{:>12.0}{:>12.0}", proved.0, proved.1, ordinary.0, ordinary.1);
    print!("{:>9.2}{:>9.2}", proved.0 / ordinary.0, proved.1 / ordinary.1);
}

/// How many calls a sample has, how many samples were taken of each side, and each side's median and worst.
struct Measured<const N: usize> {
    calls: usize,
    samples: usize,
    times: [(f64, f64); N],
}

/// Takes samples of N sides by turns; `take` answers the nanoseconds per call of so many calls of a side.
fn measure<const N: usize>(mut take: impl FnMut(usize, usize) -> f64) -> Measured<N> {
    // first calls, to warm the caches and to see how long one takes
    let rough: [f64; N] = std::array::from_fn(|side| take(side, 50).min(take(side, 50)));
    let calls = (SAMPLE_NANOSECONDS / rough.into_iter().fold(f64::MAX, f64::min)).ceil() as usize;
    let samples = (WORKLOAD_NANOSECONDS / (rough.iter().sum::<f64>() * calls as f64)).clamp(100.0, MOST_SAMPLES) as usize;
    let mut times: [Vec<f64>; N] = std::array::from_fn(|_| Vec::with_capacity(samples));
    for turn in 0..samples {
        // each side is first by turns
        for side in (0..N).map(|side| (turn + side) % N) {
            times[side].push(take(side, calls));
        }
    }
    Measured { calls, samples, times: times.map(median_and_worst) }
}

/// Nanoseconds per call.
fn sample(calls: usize, mut call: impl FnMut()) -> f64 {
    let begin = Instant::now();
    for _ in 0..calls {
        call();
    }
    begin.elapsed().as_nanos() as f64 / calls as f64
}

fn median_and_worst(mut times: Vec<f64>) -> (f64, f64) {
    times.sort_by(f64::total_cmp);
    (times[times.len() / 2], times[times.len() - 1])
}
