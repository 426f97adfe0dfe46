//! Words in a file: as little-endian bytes, or in decimal.

use crate::limits;
use crate::text::{quoted, shown, whole, Fault, Source};

/// What the bytes of a file of words are.
pub enum Bytes {
    Words(Vec<u16>),
    /// An odd count, and how many whole words there are. Document 01 refuses it with 1 before anything else.
    Odd(usize),
}

/// The words of the bytes that are looked at.
pub fn from_bytes(bytes: &[u8]) -> Bytes {
    let looked = &bytes[..bytes.len().min(limits::LOOKED_AT)];
    if looked.len() % 2 == 1 {
        return Bytes::Odd(looked.len() / 2);
    }
    Bytes::Words(looked.chunks_exact(2).map(|pair| u16::from_le_bytes([pair[0], pair[1]])).collect())
}

pub fn to_bytes(words: &[u16]) -> Vec<u8> {
    words.iter().flat_map(|word| word.to_le_bytes()).collect()
}

pub fn to_decimal(words: &[u16]) -> String {
    words.iter().map(u16::to_string).collect::<Vec<_>>().join(" ") + "\n"
}

/// Words in decimal, 0 to 65535, with blanks or line ends between them. A bar may stand alone and a comma behind a number, to help the eye.
/// Otherwise what is wrong, and where.
pub fn from_decimal(name: &str, bytes: &[u8]) -> Result<Vec<u16>, String> {
    let (source, mut faults) = Source::of(name, bytes);
    let mut words = Vec::new();
    if !faults.is_empty() {
        return Err(shown(&source, &faults));
    }
    for line in 0..source.lines.len() {
        for word in source.words(line).into_iter().filter(|word| word.text != "|") {
            match whole(word.text.strip_suffix(',').unwrap_or(word.text), &(0..=u16::MAX.into())) {
                Ok(number) => words.push(number as u16),
                Err(why) => faults
                    .push(Fault::new(word.at, format!("a word is a whole number from 0 to {}; {} {why}", u16::MAX, quoted(word.text)))),
            }
        }
        if !faults.is_empty() {
            return Err(shown(&source, &faults));
        }
    }
    Ok(words)
}
