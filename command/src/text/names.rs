//! Names: what may be one, and which declared name a mistyped one is nearest to.

use super::fault::quoted;

/// Letters, digits and underscores, no digit first.
pub fn is_name(text: &str) -> bool {
    let mut bytes = text.bytes();
    bytes.next().is_some_and(|b| b.is_ascii_alphabetic() || b == b'_') && bytes.all(|b| b.is_ascii_alphanumeric() || b == b'_')
}

/// What is wrong with a word where a name should stand.
pub fn not_a_name(text: &str) -> String {
    if text.is_empty() {
        return "a name is missing".to_string();
    }
    let odd = text.chars().find(|c| !c.is_ascii()).map_or(String::new(), |c| format!(" (it has the character U+{:04X})", c as u32));
    format!("{} is no name{odd}: a name has letters a to z and A to Z, digits and underscores, no digit first", quoted(text))
}

/// The name that a mistyped one is nearest to: of the same letters in another case, or at most two letters away.
pub fn nearest<'n>(text: &str, names: impl Iterator<Item = &'n str>) -> Option<&'n str> {
    const FARTHEST: usize = 2;
    // Comparing long words would take long.
    const LONGEST: usize = 64;
    if text.len() > LONGEST {
        return None;
    }
    let low = text.to_lowercase();
    let compared = names.filter(|name| name.len() <= LONGEST).map(|name| (distance(&low, &name.to_lowercase()), name));
    let near = compared.min_by_key(|(d, _)| *d)?;
    (near.0 <= FARTHEST && 2 * near.0 < text.len()).then_some(near.1)
}

/// How many letters have to be put in, left out or changed.
fn distance(a: &str, b: &str) -> usize {
    let b: Vec<char> = b.chars().collect();
    let mut row: Vec<usize> = (0..=b.len()).collect();
    for (i, x) in a.chars().enumerate() {
        let mut corner = row[0];
        row[0] = i + 1;
        for (j, y) in b.iter().enumerate() {
            let changed = corner + usize::from(x != *y);
            corner = row[j + 1];
            row[j + 1] = changed.min(row[j] + 1).min(corner + 1);
        }
    }
    row[b.len()]
}
