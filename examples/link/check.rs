//! Prints what the check says of the table on standard input: the number, its place, and the bytes of its records.

#[path = "../../bindings/vundayre.rs"]
mod vundayre;
mod whole;

fn main() -> std::io::Result<()> {
    let Some(table) = whole::read_whole(std::io::stdin())? else {
        return Ok(());
    };
    let mut answer = [0; vundayre::ANSWER_BYTES];
    let vundayre::Answer { number, place, records } = vundayre::analyse(&table, &mut answer);
    println!("Rust: answer {number} at {place}, {} bytes", records.len());
    Ok(())
}
