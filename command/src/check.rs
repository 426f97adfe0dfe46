//! What the command holds of every conversion before it trusts it. The proved reader takes the words; an independent printer turns them back into
//! the readable form, and that text gives the same words; and with the file's own names the printed text says the file again, word for word.

use crate::grammar::numbers;
use crate::printer::print;
use crate::proved::{self, Refusal};
use crate::table::Table;
use crate::text::{self, Fault, Named, Source, Span};
use std::collections::HashMap;

/// How a conversion failed its check. None of these has an input that is known.
#[derive(Debug, PartialEq, Eq)]
pub enum Unsound {
    /// The proved reader refuses the words.
    Refused(Refusal),
    /// The words cannot be taken apart.
    NoTable,
    /// The printed text gives other words.
    OtherWords,
    /// The printed text is not the file.
    OtherText,
}

impl std::fmt::Display for Unsound {
    fn fmt(&self, f: &mut std::fmt::Formatter) -> std::fmt::Result {
        match self {
            Unsound::Refused(refusal) => write!(f, "the proved reader answers: {refusal}"),
            Unsound::NoTable => write!(f, "its words cannot be taken apart"),
            Unsound::OtherWords => write!(f, "its words, printed and read again, are others"),
            Unsound::OtherText => write!(f, "its words, printed with its names, say something else"),
        }
    }
}

impl Unsound {
    /// How it is shown: at the word that the proved reader refuses, else at the end of the file.
    pub fn fault(&self, source: &Source, places: &[Span]) -> Fault {
        let at = match self {
            Unsound::Refused(refusal) => places.get(refusal.place).copied(),
            _ => None,
        };
        Fault::new(at.unwrap_or(source.end()), format!("skarnuth's own check of this conversion failed, and nothing is written: {self}"))
    }
}

/// Checks the words that a file was turned into, and takes them apart.
pub fn conversion(bytes: &[u8], words: &[u16], names: &[Named]) -> Result<Table, Unsound> {
    proved::read(words).map_err(Unsound::Refused)?;
    let table = Table::of(words).ok_or(Unsound::NoTable)?;
    let (_, again) = text::read("", print(&table, &numbers(&table)).as_bytes());
    if again.map(|reading| reading.words).ok().as_deref() != Some(words) {
        return Err(Unsound::OtherWords);
    }
    if !fits(&table, names) || said(bytes) != said(print(&table, names).as_bytes()) {
        return Err(Unsound::OtherText);
    }
    Ok(table)
}

/// Whether there is a name for each symbol and attribute.
fn fits(table: &Table, names: &[Named]) -> bool {
    names.len() == table.symbols.len() && table.symbols.iter().zip(names).all(|(symbol, named)| symbol.attributes == named.attributes.len())
}

/// What a text says: its lines by kind, as words without comments. An occurrence of a symbol that stands once in its rule has no number.
#[derive(PartialEq, Eq)]
struct Said {
    start: Vec<String>,
    symbols: Vec<Vec<String>>,
    rules: Vec<Vec<String>>,
}

fn said(bytes: &[u8]) -> Said {
    let text = String::from_utf8_lossy(bytes);
    let mut said = Said { start: Vec::new(), symbols: Vec::new(), rules: Vec::new() };
    let mut once = HashMap::new();
    for line in text.trim_start_matches('\u{feff}').lines() {
        let words: Vec<&str> = line.split_whitespace().take_while(|w| !w.starts_with('#')).collect();
        let owned = |words: &[&str]| words.iter().map(|w| w.to_string()).collect();
        match words.first() {
            None => {}
            Some(&"start") => said.start.extend(words.iter().map(|w| w.to_string())),
            Some(&"nonterminal") | Some(&"terminal") => said.symbols.push(owned(&words)),
            Some(&"rule") => {
                once = standing(&words);
                said.rules.push(owned(&words));
            }
            Some(_) => said.rules.push(words.iter().map(|w| plain(w, &once)).collect()),
        }
    }
    said
}

/// How often each name stands in a rule's header.
fn standing<'a>(words: &[&'a str]) -> HashMap<&'a str, usize> {
    let mut count = HashMap::new();
    for &word in words[1..].iter().filter(|&&w| w != "=") {
        *count.entry(word).or_insert(0) += 1;
    }
    count
}

/// `lines#1.highest` as `lines.highest`, where lines stands once.
fn plain(word: &str, count: &HashMap<&str, usize>) -> String {
    if let Some((symbol, rest)) = word.split_once("#1.") {
        if count.get(symbol) == Some(&1) {
            return format!("{symbol}.{rest}");
        }
    }
    word.to_string()
}
