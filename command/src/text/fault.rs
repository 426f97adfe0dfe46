//! What is wrong with a readable table, and where. Each is shown as file:line:column, what was expected, the line, and a caret.

use super::source::{invisible, Source, Span};
use std::fmt::Write as _;

/// A mistake in a readable table. The other places are lines that help to understand it, as the first declaration of a name.
#[derive(Debug, Clone)]
pub struct Fault {
    pub at: Span,
    pub text: String,
    pub others: Vec<Vec<Span>>,
}

/// How many are shown at once; the rest are counted.
const MOST_SHOWN: usize = 20;
/// How many are looked for: a file with so many mistakes is no table, and need not be read to its end.
pub const MOST: usize = 1000;
/// How much of a long line is shown.
const WIDEST: usize = 100;

impl Fault {
    pub fn new(at: Span, text: impl Into<String>) -> Fault {
        Fault { at, text: text.into(), others: Vec::new() }
    }

    /// With another line shown below: its spans stand on one line.
    pub fn beside(mut self, spans: Vec<Span>) -> Fault {
        self.others.push(spans);
        self
    }
}

/// A word of the file as messages have it: within quotes, and cut where it is very long.
pub fn quoted(word: &str) -> String {
    const LONGEST: usize = 60;
    match word.char_indices().nth(LONGEST) {
        None => format!("`{word}`"),
        Some((end, _)) => format!("`{}...`", &word[..end]),
    }
}

/// All of them, in the order of the file.
pub fn shown(source: &Source, faults: &[Fault]) -> String {
    let mut sorted: Vec<&Fault> = faults.iter().collect();
    sorted.sort_by_key(|f| f.at);
    let mut out = String::new();
    for fault in sorted.iter().take(MOST_SHOWN) {
        out += &one(source, fault);
    }
    if sorted.len() > MOST_SHOWN {
        let least = if sorted.len() >= MOST { "at least " } else { "" };
        let _ = writeln!(out, "{}: and {least}{} more", source.name, sorted.len() - MOST_SHOWN);
    }
    out
}

fn one(source: &Source, fault: &Fault) -> String {
    let line = source.lines.get(fault.at.line).map_or("", String::as_str);
    let mut out = format!("{}:{}:{}: {}\n", source.name, fault.at.line + 1, column(line, fault.at.from), fault.text);
    out += &marked(source, &[fault.at]);
    for spans in &fault.others {
        out += &marked(source, spans);
    }
    out
}

/// Columns count characters, from 1.
fn column(line: &str, byte: usize) -> usize {
    1 + line.char_indices().take_while(|(at, _)| *at < byte).count()
}

/// A line with carets below some of its parts.
fn marked(source: &Source, spans: &[Span]) -> String {
    let Some(first) = spans.first() else { return String::new() };
    let line = source.lines.get(first.line).map_or("", String::as_str);
    let characters: Vec<char> = line.chars().map(|c| if c.is_control() || invisible(c) { '\u{fffd}' } else { c }).collect();
    let mut marks = vec![' '; characters.len() + 1];
    for span in spans {
        let from = column(line, span.from) - 1;
        let to = (column(line, span.to) - 1).max(from + 1);
        marks[from.min(characters.len())..to.min(characters.len() + 1)].fill('^');
    }
    let from = (column(line, first.from) - 1).saturating_sub(WIDEST / 2);
    let from = if characters.len() <= WIDEST { 0 } else { from };
    let part = |from: usize, all: &[char]| all.iter().skip(from).take(WIDEST).collect::<String>();
    let (before, after) = (if from > 0 { "..." } else { "" }, if characters.len() > from + WIDEST { "..." } else { "" });
    let number = format!("{:5}", first.line + 1);
    let text = format!("{number} | {before}{}{after}", part(from, &characters));
    let carets = format!("{:5} | {}{}", "", " ".repeat(before.len()), part(from, &marks));
    format!("{}\n{}\n", text.trim_end(), carets.trim_end())
}
