//! Whole numbers as they may be written: digits, - before a negative one, no zeros in front, and nothing else.

use std::ops::RangeInclusive;

/// The number, or what is wrong with the word, to be read after it: "`007` is written 7".
pub fn whole(text: &str, range: &RangeInclusive<i64>) -> Result<i64, String> {
    let digits = text.strip_prefix('-').unwrap_or(text);
    if digits.is_empty() || !digits.bytes().all(|b| b.is_ascii_digit()) {
        return Err("is no whole number in decimal digits".to_string());
    }
    if digits.len() > 1 && digits.starts_with('0') || text == "-0" {
        return Err(format!("is written {}", shortest(text)));
    }
    // What does not fit 64 bits is out of every range.
    match text.parse() {
        Ok(n) if range.contains(&n) => Ok(n),
        _ => Err("is outside".to_string()),
    }
}

/// Without zeros in front.
fn shortest(text: &str) -> String {
    let digits = text.trim_start_matches('-').trim_start_matches('0');
    match (digits, text.starts_with('-')) {
        ("", _) => "0".to_string(),
        (digits, true) => format!("-{digits}"),
        (digits, false) => digits.to_string(),
    }
}

/// Whether a word is meant as a number: no name begins as one does.
pub fn looks_like_one(text: &str) -> bool {
    text.trim_start_matches(['-', '+']).starts_with(|c: char| c.is_ascii_digit())
}
