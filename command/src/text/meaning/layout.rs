//! The words of a table that has no fault, and where each stands in the file.

use super::{Named, Reader, Reading, Rule, RuleLines, Symbol};
use crate::text::source::Span;

impl Reader<'_, '_> {
    pub(super) fn laid_out(&self) -> Option<Reading> {
        let start = self.start?;
        let number = self.symbols.iter().position(|s| s.name.text == start.text)?;
        let mut out = Words { words: Vec::new(), places: Vec::new() };
        let top = Span { line: 0, from: 0, to: 0 };
        out.push(self.symbols.len(), top);
        out.push(self.rules.len(), top);
        out.push(number, start.at);
        for symbol in &self.symbols {
            let inherited = symbol.attributes.iter().enumerate().filter(|(_, a)| a.inherited);
            out.push(usize::from(symbol.terminal), symbol.name.at);
            out.push(symbol.attributes.len(), symbol.name.at);
            out.push(inherited.map(|(a, _)| 1 << a).sum(), symbol.name.at);
        }
        for rule in &self.rules {
            out.rule(rule);
        }
        out.places.push(self.source.end());
        Some(Reading { words: out.words, places: out.places, symbols: self.names(), rules: self.lines() })
    }

    fn names(&self) -> Vec<Named> {
        let named =
            |s: &Symbol| Named { name: s.name.text.to_string(), attributes: s.attributes.iter().map(|a| a.name.to_string()).collect() };
        self.symbols.iter().map(named).collect()
    }

    fn lines(&self) -> Vec<RuleLines> {
        let lines = |r: &Rule| RuleLines { header: r.header.line, functions: r.functions.iter().map(|f| f.target.1.line).collect() };
        self.rules.iter().map(lines).collect()
    }
}

struct Words {
    words: Vec<u16>,
    places: Vec<Span>,
}

impl Words {
    fn push(&mut self, word: usize, at: Span) {
        self.words.push(word as u16);
        self.places.push(at);
    }

    fn rule(&mut self, rule: &Rule) {
        let (left, right) = (rule.parts[0], &rule.parts[1..]);
        self.push(left.0, left.1);
        self.push(right.len(), rule.header);
        for &(x, at) in right {
            self.push(x, at);
        }
        self.push(rule.functions.len(), rule.header);
        for function in &rule.functions {
            self.push(function.target.0, function.target.1);
            self.push(function.operation.0, function.operation.1);
            for &(word, at) in &function.arguments {
                self.push(word.into(), at);
            }
        }
    }
}
