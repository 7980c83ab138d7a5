//! Joins three named files, the first table, the second and the added records, previews the join, and prints what came of each: the number,
//! its place and input, and the bytes written.

use std::fs::File;

#[path = "../../bindings/vundayre.rs"]
mod vundayre;
mod whole;

fn main() -> std::io::Result<()> {
    let mut given = Vec::new();
    for name in std::env::args().skip(1) {
        let Some(bytes) = whole::read_whole(File::open(name)?)? else {
            return Ok(());
        };
        given.push(bytes);
    }
    let [first, second, added] = &given[..] else {
        eprintln!("usage: join FIRST SECOND ADDED");
        std::process::exit(2);
    };
    let mut out = [0; vundayre::TABLE_BYTES];
    let vundayre::Joined { number, place, input, table } = vundayre::join(first, second, added, &mut out);
    println!("Rust: joined {number} at {place} of input {input}, {} bytes", table.len());
    let mut answer = [0; vundayre::ANSWER_BYTES];
    let vundayre::Preview { number, place, input, records } = vundayre::preview(first, second, added, &mut answer);
    println!("Rust: preview {number} at {place} of input {input}, {} bytes", records.len());
    Ok(())
}
