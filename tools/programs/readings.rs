//! Four programs over the Rust crate. A feature of the package chooses one, so that none contains the code of another:
//!
//! - `fonts` and `dictionaries` do the same as `fonts.rt.txt` and `dictionaries.rt.txt`;
//! - `lists` makes a list of the exact size for each item of some INDEXes, and nothing else;
//! - `maps` makes the map of a DICT, with a list of the exact size for the operands of each operator, and nothing else.
//!
//! A line of the input is a kind and a name with a colon between them, bytes in hex, and, for `lists`, the offsets of INDEXes in them. The
//! program prints the first word, the number of items or operators, and the least time in nanoseconds. `lists` and `maps` find the sizes
//! before the clock starts.

use std::io;

#[cfg(feature = "fonts")]
mod timed {
    use postscript::Tape;
    use postscript::compact1::FontSet;
    use postscript::compact1::index::Index;
    use std::io::{self, Cursor};
    use std::time::Instant;

    /// The number of timed rounds.
    const ROUNDS: u32 = 10;

    /// Reads and drops a font, and counts its glyphs.
    fn read_font(bytes: &[u8]) -> io::Result<u64> {
        let font = Cursor::new(bytes).take::<FontSet>()?;
        let mut count = 0u64;
        for strings in &font.char_strings {
            count = count.saturating_add(strings.len() as u64);
        }
        Ok(count)
    }

    /// Reads and drops an INDEX, and counts its items.
    fn read_index(bytes: &[u8]) -> io::Result<u64> {
        let index = Cursor::new(bytes).take::<Index>()?;
        Ok(index.len() as u64)
    }

    /// Reads and drops a font or an INDEX.
    fn read(kind: &str, bytes: &[u8]) -> io::Result<u64> {
        if kind == "font" { read_font(bytes) } else { read_index(bytes) }
    }

    /// Returns the number of items of a font or an INDEX, and the least time of a reading.
    pub fn time(name: &str, bytes: &[u8], _: &[&str]) -> io::Result<(u64, u128)> {
        let kind = name.split(':').next().unwrap();
        let mut count = 0;
        let mut least = u128::MAX;
        for _ in 0..ROUNDS {
            let start = Instant::now();
            count = read(kind, bytes)?;
            least = least.min(start.elapsed().as_nanos());
        }
        Ok((count, least))
    }
}

#[cfg(feature = "dictionaries")]
mod timed {
    use postscript::Tape;
    use postscript::compact1::Operations;
    use std::io::{self, Cursor};
    use std::time::Instant;

    /// The number of timed rounds.
    const ROUNDS: u32 = 10;

    /// The number of readings in a round.
    const READINGS: u64 = 5_000;

    /// Reads and drops a DICT `READINGS` times, and adds up its operators.
    fn read_often(bytes: &[u8]) -> io::Result<u64> {
        let mut count = 0u64;
        for _ in 0..READINGS {
            let operations = Cursor::new(bytes).take::<Operations>()?;
            count = count.saturating_add(operations.0.len() as u64);
        }
        Ok(count)
    }

    /// Returns the number of operators of a DICT, and the least time of a reading.
    pub fn time(_: &str, bytes: &[u8], _: &[&str]) -> io::Result<(u64, u128)> {
        let mut count = 0;
        let mut least = u128::MAX;
        for _ in 0..ROUNDS {
            let start = Instant::now();
            count = read_often(bytes)?;
            least = least.min(start.elapsed().as_nanos());
        }
        Ok((count / READINGS, least / u128::from(READINGS)))
    }
}

#[cfg(feature = "lists")]
mod timed {
    use std::hint::black_box;
    use std::io;
    use std::ops::Range;
    use std::time::Instant;

    /// The number of timed rounds.
    const ROUNDS: u32 = 10;

    /// Decodes a big-endian number.
    fn number(bytes: &[u8]) -> usize {
        bytes.iter().fold(0, |n, b| n * 256 + usize::from(*b))
    }

    /// Returns the ranges of the items of an INDEX.
    fn items_of(bytes: &[u8], place: usize) -> Vec<Range<usize>> {
        let count = number(&bytes[place..place + 2]);
        if count == 0 {
            return vec![];
        }
        let size = usize::from(bytes[place + 2]);
        let first = place + 3;
        let base = first + (count + 1) * size - 1;
        let offset = |i| base + number(&bytes[first + i * size..first + (i + 1) * size]);
        (0..count).map(|i| offset(i)..offset(i + 1)).collect()
    }

    /// Makes a list for each item.
    fn lists(bytes: &[u8], items: &[Range<usize>]) -> Vec<Vec<u8>> {
        items.iter().map(|item| bytes[item.clone()].to_vec()).collect()
    }

    /// Returns the number of items of the INDEXes at some offsets, and the least time of making and dropping all their lists.
    pub fn time(_: &str, bytes: &[u8], places: &[&str]) -> io::Result<(u64, u128)> {
        let indices: Vec<_> = places.iter().map(|place| items_of(bytes, place.parse().unwrap())).collect();
        let mut least = u128::MAX;
        for _ in 0..ROUNDS {
            let start = Instant::now();
            let all: Vec<Vec<Vec<u8>>> = indices.iter().map(|items| lists(bytes, items)).collect();
            drop(black_box(all));
            least = least.min(start.elapsed().as_nanos());
        }
        Ok((indices.iter().map(Vec::len).sum::<usize>() as u64, least))
    }
}

#[cfg(feature = "maps")]
mod timed {
    use postscript::Tape;
    use postscript::compact1::Operations;
    use std::collections::HashMap;
    use std::hint::black_box;
    use std::io::{self, Cursor};
    use std::time::Instant;

    /// The number of timed rounds.
    const ROUNDS: u32 = 10;

    /// The number of maps made in a round.
    const READINGS: u64 = 5_000;

    /// An operand of the same size as this repository's: a mantissa and an exponent.
    type Operand = (i64, i32);

    /// Returns the operators of a DICT, numbered, each with a list of as many operands as it has.
    fn operands_of(bytes: &[u8]) -> io::Result<Vec<(u16, Vec<Operand>)>> {
        let operations = Cursor::new(bytes).take::<Operations>()?;
        Ok((0u16..).zip(operations.0.values()).map(|(i, operands)| (i, vec![(1, 0); operands.len()])).collect())
    }

    /// Makes and drops the map of a DICT `READINGS` times, and adds up its operators.
    fn make_often(lists: &[(u16, Vec<Operand>)]) -> u64 {
        let mut count = 0u64;
        for _ in 0..READINGS {
            let mut map: HashMap<u16, Vec<Operand>> = HashMap::with_capacity(lists.len());
            for (operator, operands) in lists {
                map.insert(*operator, operands.clone());
            }
            count = count.saturating_add(black_box(&map).len() as u64);
        }
        count
    }

    /// Returns the number of operators of a DICT, and the least time of making its map.
    pub fn time(_: &str, bytes: &[u8], _: &[&str]) -> io::Result<(u64, u128)> {
        let lists = operands_of(bytes)?;
        let mut count = 0;
        let mut least = u128::MAX;
        for _ in 0..ROUNDS {
            let start = Instant::now();
            count = make_often(&lists);
            least = least.min(start.elapsed().as_nanos());
        }
        Ok((count / READINGS, least / u128::from(READINGS)))
    }
}

/// Decodes hex digits.
fn decode(digits: &str) -> Vec<u8> {
    let places = (0..digits.len()).step_by(2);
    places.map(|i| u8::from_str_radix(&digits[i..i + 2], 16).unwrap()).collect()
}

fn main() -> io::Result<()> {
    for line in io::stdin().lines() {
        let line = line?;
        let words: Vec<&str> = line.split(' ').collect();
        if let [name, digits, places @ ..] = words.as_slice() {
            let (count, nanos) = timed::time(name, &decode(digits), places)?;
            println!("{name} {count} {nanos}");
        }
    }
    Ok(())
}
