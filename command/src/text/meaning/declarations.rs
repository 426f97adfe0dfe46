//! The start symbol, the symbols and their attributes: each declared once, within the limits.

use super::{Reader, Symbol};
use crate::limits;
use crate::text::fault::{quoted, Fault, MOST};
use crate::text::source::Word;
use crate::text::syntax::{self, Line};

impl<'a> Reader<'a, '_> {
    pub(super) fn declarations(&mut self, lines: &[Line<'a>]) {
        for (at, line) in lines.iter().enumerate() {
            if self.faults.len() >= MOST {
                return;
            }
            match line {
                Line::Start(name) => self.start(*name),
                Line::Symbol(symbol) => self.symbol(at, symbol),
                Line::Unknown => self.unread.extend(self.source.words(at).iter().map(|w| w.text)),
                _ => {}
            }
        }
    }

    fn start(&mut self, name: Option<Word<'a>>) {
        self.started = true;
        let Some(name) = name else { return };
        match self.start {
            Some(first) => self.faults.push(Fault::new(name.at, "a second start: a table has one").beside(vec![first.at])),
            None => self.start = Some(name),
        }
    }

    fn symbol(&mut self, at: usize, line: &syntax::Symbol<'a>) {
        let Some(name) = line.name else {
            self.unread.extend(self.source.words(at).iter().map(|w| w.text));
            return;
        };
        if let Some(first) = self.symbols.iter().find(|s| s.name.text == name.text) {
            let first = first.name.at;
            self.faults.push(Fault::new(name.at, format!("{} is declared a second time", quoted(name.text))).beside(vec![first]));
            return;
        }
        if self.symbols.len() == limits::SYMBOLS {
            // Said once; uses of the symbol are then not looked at.
            if !self.full {
                self.fault(name.at, format!("a table has at most {} symbols; this is number {}", limits::SYMBOLS, limits::SYMBOLS + 1));
            }
            self.full = true;
            self.unread.insert(name.text);
            return;
        }
        let mut symbol = Symbol { name, terminal: line.terminal, attributes: Vec::new(), whole: line.whole };
        for attribute in line.attributes.iter().take(limits::ATTRIBUTES) {
            self.attribute(&mut symbol, attribute);
        }
        if let Some(extra) = line.attributes.get(limits::ATTRIBUTES) {
            let text = format!("a symbol has at most {} attributes; this is number {}", limits::ATTRIBUTES, limits::ATTRIBUTES + 1);
            self.fault(extra.at, text);
            symbol.whole = false;
        }
        self.symbols.push(symbol);
    }

    fn attribute(&mut self, symbol: &mut Symbol<'a>, attribute: &syntax::Attribute<'a>) {
        let before = self.faults.len();
        if let Some(first) = symbol.attributes.iter().find(|a| a.name == attribute.name) {
            let text = format!("{} has an attribute {} already", quoted(symbol.name.text), quoted(attribute.name));
            self.faults.push(Fault::new(attribute.at, text).beside(vec![first.at]));
            return;
        }
        if symbol.terminal && attribute.inherited {
            let text = "a terminal has synthesized attributes (s.) only: their values come with the tree";
            self.fault(attribute.at, text);
        }
        symbol.whole &= self.faults.len() == before;
        symbol.attributes.push(syntax::Attribute { ..*attribute });
    }
}
