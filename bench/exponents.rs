//! Numbers up to 1,000 as products of primes.

use crate::model::MOST_PART;

/// So many primes are below 1,000.
pub const PRIMES: usize = 168;

/// For each number up to 1,000 its least prime factor, as that prime's place among the primes, and the number divided by it.
const FACTORS: [(u8, u16); MOST_PART as usize + 1] = {
    let mut factors = [(0, 0); MOST_PART as usize + 1];
    let mut place = 0;
    let mut n = 2;
    while n < factors.len() {
        if factors[n].1 == 0 {
            let mut multiple = n;
            while multiple < factors.len() {
                if factors[multiple].1 == 0 {
                    factors[multiple] = (place, (multiple / n) as u16);
                }
                multiple += n;
            }
            place += 1;
        }
        n += 1;
    }
    factors
};

/// The primes in order.
pub const PRIME: [u16; PRIMES] = {
    let mut primes = [0; PRIMES];
    let mut n = 2;
    while n < FACTORS.len() {
        if FACTORS[n].1 == 1 {
            primes[FACTORS[n].0 as usize] = n as u16;
        }
        n += 1;
    }
    primes
};

/// For each number up to 1,000 how many primes there are up to its greatest prime factor.
pub const COLUMNS: [u8; MOST_PART as usize + 1] = {
    let mut columns = [0; MOST_PART as usize + 1];
    let mut n = 2;
    while n < columns.len() {
        let (place, rest) = FACTORS[n];
        columns[n] = if rest == 1 { place + 1 } else { columns[rest as usize] };
        n += 1;
    }
    columns
};

/// Adds `times` to the exponents of a row for each prime factor of a number.
pub fn multiply(row: &mut [i16], mut n: u16, times: i16) {
    while n > 1 {
        let (place, rest) = FACTORS[n as usize];
        row[place as usize] += times;
        n = rest;
    }
}
