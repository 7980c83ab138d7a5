//! What the programs in Rust share: reading a whole input.

use std::io::{Read, Result};

/// More bytes are not taken; one more is read, so that a longer input shows.
const MOST_BYTES: usize = 65_536;

/// The bytes of an input; none where it is too long, which is then said.
pub fn read_whole(input: impl Read) -> Result<Option<Vec<u8>>> {
    let mut bytes = Vec::new();
    input.take(MOST_BYTES as u64 + 1).read_to_end(&mut bytes)?;
    if bytes.len() > MOST_BYTES {
        println!("Rust: answer long");
        return Ok(None);
    }
    Ok(Some(bytes))
}
