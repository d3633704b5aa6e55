//! Does the same as `charstrings.rt.txt`, over the Rust crate. An argument is the number of rounds.

use postscript::type2::Program;
use std::env;
use std::io;
use std::time::Instant;

/// The default number of rounds.
const ROUNDS: u32 = 10;

/// Steps through a program, drops its operations, and counts them.
fn step_through(code: &[u8], global: &[Vec<u8>], local: &[Vec<u8>]) -> io::Result<u64> {
    let mut program = Program::new(code, global, local);
    let mut count = 0u64;
    while program.next()?.is_some() {
        count += 1;
    }
    Ok(count)
}

/// Decodes hex digits.
fn decode(digits: &str) -> Vec<u8> {
    let places = (0..digits.len()).step_by(2);
    places.map(|i| u8::from_str_radix(&digits[i..i + 2], 16).unwrap()).collect()
}

fn main() -> io::Result<()> {
    let rounds = env::args().nth(1).map_or(ROUNDS, |word| word.parse().unwrap());
    let (mut codes, mut global, mut local) = (vec![], vec![], vec![]);
    for line in io::stdin().lines() {
        let line = line?;
        if let Some((word, digits)) = line.split_once(' ') {
            match word {
                "global" => global.push(decode(digits)),
                "local" => local.push(decode(digits)),
                _ => codes.push(decode(digits)),
            }
        }
    }
    let mut count = 0;
    let mut least = u128::MAX;
    for _ in 0..rounds {
        let start = Instant::now();
        count = 0;
        for code in &codes {
            count += step_through(code, &global, &local)?;
        }
        least = least.min(start.elapsed().as_nanos());
    }
    println!("{count} {least}");
    Ok(())
}
