//! Writes one font file of another by the Rust crate, for tools/evidence/doors.py. The arguments are those of doors.c, apart from the
//! features, which are the crate's own.
use postscript::{Font, Names, VariableFont};
use std::error::Error;

/// A tag of four bytes.
fn tag(word: &str) -> Result<[u8; 4], Box<dyn Error>> {
    Ok(word.as_bytes().try_into()?)
}

/// The values of axes.
fn place(words: &str) -> Result<Vec<([u8; 4], f64)>, Box<dyn Error>> {
    let pairs = words.split(',').filter_map(|word| word.split_once('='));
    pairs.map(|(axis, value)| Ok((tag(axis)?, value.parse()?))).collect()
}

/// Characters in hex.
fn characters(words: &str) -> Result<Vec<char>, Box<dyn Error>> {
    words.split(',').map(|word| Ok(char::try_from(u32::from_str_radix(word, 16)?)?)).collect()
}

/// The file that the words name.
fn written(words: &[&str]) -> Result<Vec<u8>, Box<dyn Error>> {
    let file = std::fs::read(words[1])?;
    match words {
        ["flat", ..] => Ok(Font::from_file(&file, 0)?.flat_file()?),
        ["instance", _, _, rounded, place_of] => {
            let place = VariableFont::from_file(&file, 0)?.at(&place(place_of)?)?;
            Ok(if *rounded == "1" { place.rounded_file()? } else { place.file()? })
        }
        ["subset", _, _, keeps, names, _, tables, asked] => {
            let tables = tables.split(',').map(tag).collect::<Result<Vec<_>, _>>()?;
            let names = if *names == "1" { Names::Short } else { Names::WithLicence };
            let font = Font::from_file(&file, 0)?;
            let subset = font.subset_file().characters(characters(asked)?).tables(&tables);
            Ok(subset.names(names).keep_numbers(*keeps == "1").write()?)
        }
        _ => Err("wrong arguments".into()),
    }
}

fn main() -> Result<(), Box<dyn Error>> {
    let words: Vec<String> = std::env::args().skip(1).collect();
    let words: Vec<&str> = words.iter().map(String::as_str).collect();
    Ok(std::fs::write(words[2], written(&words)?)?)
}
