//! Hides the port that its argument names in the table on standard input, and prints what came of it: the number, its place and the bytes
//! written.

#[path = "../../bindings/vundayre.rs"]
mod vundayre;
mod whole;

fn main() -> std::io::Result<()> {
    let Some(given) = whole::read_whole(std::io::stdin())? else {
        return Ok(());
    };
    let Some(Ok(port)) = std::env::args().nth(1).map(|word| word.parse()) else {
        eprintln!("usage: hide PORT < TABLE");
        std::process::exit(2);
    };
    let mut out = [0; vundayre::TABLE_BYTES];
    let vundayre::Hidden { number, place, table } = vundayre::hide(&given, port, &mut out);
    println!("Rust: hidden {number} at {place}, {} bytes", table.len());
    Ok(())
}
