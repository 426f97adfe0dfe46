//! What a readable table means: its names are looked up, document 01's rules are held at the line, and the words are laid out.

mod declarations;
mod functions;
mod layout;
mod occurrences;
mod rules;

use super::fault::{quoted, Fault};
use super::source::{Source, Span, Word};
use super::syntax::{self, Line};
use crate::limits;
use std::collections::HashSet;

/// A readable table that is whole: its words, where each stands in the file, and the names.
#[derive(Debug)]
pub struct Reading {
    pub words: Vec<u16>,
    /// Where each word stands, and one place more for the end.
    pub places: Vec<Span>,
    pub symbols: Vec<Named>,
    pub rules: Vec<RuleLines>,
}

/// A symbol's name and those of its attributes.
#[derive(Debug, Clone)]
pub struct Named {
    pub name: String,
    pub attributes: Vec<String>,
}

/// The line of a rule's header and of each of its functions, from 0.
#[derive(Debug, Clone)]
pub struct RuleLines {
    pub header: usize,
    pub functions: Vec<usize>,
}

struct Symbol<'a> {
    name: Word<'a>,
    terminal: bool,
    attributes: Vec<syntax::Attribute<'a>>,
    /// Whether its declaration could be read; otherwise it may have attributes that are not known.
    whole: bool,
}

struct Rule {
    header: Span,
    /// The symbols, the left side first, and where they stand.
    parts: Vec<(usize, Span)>,
    /// Whether the header could be read; otherwise its functions are not looked at.
    whole: bool,
    functions: Vec<Function>,
    /// Where each occurrence is defined.
    defined: [Option<Span>; limits::OCCURRENCES],
    /// Whether every function could be read; otherwise nothing is said of missing ones.
    complete: bool,
}

struct Function {
    target: (usize, Span),
    operation: (usize, Span),
    arguments: Vec<(u16, Span)>,
}

/// What a function would belong to.
enum Above {
    Nothing,
    Declaration(usize),
    /// A rule's header in a comment.
    Commented(usize),
    /// A line that could not be read, and may have been a header.
    Unknown,
    Rule(usize),
}

struct Reader<'a, 'b> {
    source: &'a Source,
    faults: &'b mut Vec<Fault>,
    symbols: Vec<Symbol<'a>>,
    start: Option<Word<'a>>,
    /// Whether there is a start line, be it readable or not.
    started: bool,
    rules: Vec<Rule>,
    /// Whether there are more symbols, or more rules, than a table may have.
    full: bool,
    long: bool,
    /// Words of lines that could not be read: names among them may be declared there.
    unread: HashSet<&'a str>,
}

/// The reading of the lines, or nothing where there is a fault.
pub fn meaning<'a>(source: &'a Source, lines: &[Line<'a>], faults: &mut Vec<Fault>) -> Option<Reading> {
    let mut reader = Reader {
        source,
        faults,
        symbols: Vec::new(),
        start: None,
        started: false,
        rules: Vec::new(),
        full: false,
        long: false,
        unread: HashSet::new(),
    };
    reader.declarations(lines);
    reader.rules(lines);
    reader.whole_table();
    if !reader.faults.is_empty() {
        return None;
    }
    reader.laid_out()
}

impl<'a> Reader<'a, '_> {
    fn fault(&mut self, at: Span, text: impl Into<String>) {
        self.faults.push(Fault::new(at, text));
    }

    fn whole_table(&mut self) {
        let end = self.source.end();
        if self.symbols.is_empty() && self.unread.is_empty() {
            self.fault(end, "no symbol is declared: nonterminal NAME s.ATTRIBUTE i.ATTRIBUTE ..");
        }
        if self.rules.is_empty() && self.unread.is_empty() {
            self.fault(end, "there is no rule: rule LEFT = RIGHT ..");
        }
        match self.start {
            None if !self.started && self.unread.is_empty() => self.fault(end, "there is no start symbol: start NAME"),
            None => {}
            Some(name) => self.start_class(name),
        }
        for r in 0..self.rules.len() {
            self.missing(r);
        }
    }

    fn start_class(&mut self, name: Word<'a>) {
        let Some(x) = self.declared(name) else { return };
        let symbol = &self.symbols[x];
        let declared = symbol.name.at;
        if symbol.terminal {
            let text = format!("{} is a terminal, and the start symbol is a nonterminal", quoted(name.text));
            self.faults.push(Fault::new(name.at, text).beside(vec![declared]));
        } else if let Some(inherited) = symbol.attributes.iter().find(|a| a.inherited) {
            let text = format!("{} has an inherited attribute, and the start symbol has none: nothing stands above it", quoted(name.text));
            self.faults.push(Fault::new(name.at, text).beside(vec![inherited.at]));
        }
    }

    /// What the rule must define and does not.
    fn missing(&mut self, r: usize) {
        let rule = &self.rules[r];
        if !rule.whole || !rule.complete || !rule.parts.iter().all(|p| self.symbols[p.0].whole) {
            return;
        }
        let occurrences = rule
            .parts
            .iter()
            .enumerate()
            .flat_map(|(i, p)| (0..self.symbols[p.0].attributes.len()).map(move |a| limits::ATTRIBUTES * i + a));
        let missing: Vec<usize> = occurrences.filter(|&o| self.defining(r, o) && rule.defined[o].is_none()).collect();
        let Some(&first) = missing.first() else { return };
        let names: Vec<String> = missing.iter().map(|&o| self.named(r, o)).collect();
        let at = rule.parts[first / limits::ATTRIBUTES].1;
        self.fault(at, format!("this rule has no function for {}", names.join(", ")));
    }
}
