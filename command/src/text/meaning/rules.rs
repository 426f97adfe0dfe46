//! The headers of the rules, and which rule a function belongs to.

use super::{Above, Reader, Rule};
use crate::limits;
use crate::text::fault::{quoted, Fault, MOST};
use crate::text::names::nearest;
use crate::text::source::{Source, Span, Word};
use crate::text::syntax::{self, Line};

impl<'a> Reader<'a, '_> {
    /// Goes down the lines and hands each function to the rule above it.
    pub(super) fn rules(&mut self, lines: &[Line<'a>]) {
        let mut above = Above::Nothing;
        for (at, line) in lines.iter().enumerate() {
            if self.faults.len() >= MOST {
                return;
            }
            above = match line {
                Line::Nothing => above,
                Line::CommentedHeader => Above::Commented(at),
                Line::Start(_) | Line::Symbol(_) => Above::Declaration(at),
                Line::Unknown => self.unknown(above),
                Line::Header(header) => self.header(at, header),
                Line::Function(function) => self.below(above, function),
            }
        }
    }

    /// A line that may have been a function of the rule above, or the header of another.
    fn unknown(&mut self, above: Above) -> Above {
        if let Above::Rule(r) = above {
            self.rules[r].complete = false;
        }
        Above::Unknown
    }

    fn header(&mut self, at: usize, line: &syntax::Header<'a>) -> Above {
        let header = self.source.words(at).first().map_or(self.source.end_of(at), |w| w.at);
        if self.rules.len() == limits::RULES {
            if !self.long {
                self.fault(header, format!("a table has at most {} rules; this is number {}", limits::RULES, limits::RULES + 1));
            }
            self.long = true;
            return Above::Unknown;
        }
        let mut rule = Rule {
            header,
            parts: Vec::new(),
            whole: line.whole,
            functions: Vec::new(),
            defined: [None; limits::OCCURRENCES],
            complete: true,
        };
        if let Some(left) = line.left {
            self.left(&mut rule, left);
        }
        if let Some(extra) = line.right.get(limits::RIGHT) {
            self.fault(extra.at, format!("a right side has at most {} symbols; this is number {}", limits::RIGHT, limits::RIGHT + 1));
            rule.whole = false;
        }
        for &word in line.right.iter().take(limits::RIGHT) {
            match self.declared(word) {
                Some(x) => rule.parts.push((x, word.at)),
                None => rule.whole = false,
            }
        }
        self.rules.push(rule);
        Above::Rule(self.rules.len() - 1)
    }

    fn left(&mut self, rule: &mut Rule, word: Word<'a>) {
        let Some(x) = self.declared(word) else {
            rule.whole = false;
            return;
        };
        if self.symbols[x].terminal {
            let declared = self.symbols[x].name.at;
            let text = format!("{} is a terminal, and a rule's left side is a nonterminal", quoted(word.text));
            self.faults.push(Fault::new(word.at, text).beside(vec![declared]));
            rule.whole = false;
        }
        rule.parts.push((x, word.at));
    }

    /// The number of a symbol. Nothing is said where its declaration may stand in a line that could not be read.
    pub(super) fn declared(&mut self, word: Word<'a>) -> Option<usize> {
        let found = self.symbols.iter().position(|s| s.name.text == word.text);
        if found.is_none() && !self.unread.contains(word.text) {
            let near = nearest(word.text, self.symbols.iter().map(|s| s.name.text));
            let near = near.map_or(String::new(), |name| format!("; did you mean {name}?"));
            self.fault(word.at, format!("no symbol {} is declared{near}", quoted(word.text)));
        }
        found
    }

    /// A function below something: looked at where that is a rule.
    fn below(&mut self, above: Above, line: &syntax::Function<'a>) -> Above {
        let lost = "a function stands below the header of its rule";
        match above {
            Above::Rule(r) => {
                self.function(r, line);
                return above;
            }
            Above::Unknown => {}
            Above::Nothing => self.fault(line.at, format!("{lost}, and no rule stands above this one")),
            Above::Declaration(at) => {
                let text = format!("{lost}; this one stands below a declaration");
                self.faults.push(Fault::new(line.at, text).beside(vec![whole_line(self.source, at)]));
            }
            Above::Commented(at) => {
                let text =
                    format!("{lost}; the header above this one is a comment: make this a comment too, or move it below its own header");
                self.faults.push(Fault::new(line.at, text).beside(vec![whole_line(self.source, at)]));
            }
        }
        // Said once, not for each function that follows.
        Above::Unknown
    }
}

/// From the first word of a line to the last.
pub(super) fn whole_line(source: &Source, line: usize) -> Span {
    let words = source.words(line);
    let from = words.first().map_or(0, |w| w.at.from);
    Span { line, from, to: words.last().map_or(from, |w| w.at.to) }
}
