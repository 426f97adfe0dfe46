//! Occurrences of attributes in a rule: which one a word means, whether it is the rule's to define, and what it is called.

use super::rules::whole_line;
use super::{Reader, Symbol};
use crate::limits;
use crate::text::fault::{quoted, Fault};
use crate::text::names::nearest;
use crate::text::syntax;

impl<'a> Reader<'a, '_> {
    /// The number of an occurrence in a rule.
    pub(super) fn occurrence(&mut self, r: usize, o: syntax::Occurrence<'a>) -> Option<usize> {
        let rule = &self.rules[r];
        let places: Vec<usize> = (0..rule.parts.len()).filter(|&i| self.symbols[rule.parts[i].0].name.text == o.symbol).collect();
        let spans = |places: &[usize]| places.iter().map(|&i| rule.parts[i].1).collect::<Vec<_>>();
        let position = match (o.number, &places[..]) {
            (_, []) => {
                self.faults.extend(self.not_in_rule(r, o));
                return None;
            }
            (None, [i]) => *i,
            (None, several) => {
                let readings: Vec<String> = (1..=several.len()).map(|k| format!("{}#{k}.{}", o.symbol, o.attribute)).collect();
                let text = format!("{} could be {}: write which is meant", quoted(o.word.text), readings.join(" or "));
                self.faults.push(Fault::new(o.word.at, text).beside(spans(several)));
                return None;
            }
            (Some(k), several) => match several.get(k.saturating_sub(1)) {
                Some(i) => *i,
                None => {
                    let text = format!("{}: {} stands {} in this rule", quoted(o.word.text), o.symbol, times(several.len()));
                    self.faults.push(Fault::new(o.word.at, text).beside(spans(several)));
                    return None;
                }
            },
        };
        let symbol = &self.symbols[rule.parts[position].0];
        match symbol.attributes.iter().position(|a| a.name == o.attribute) {
            Some(a) => Some(limits::ATTRIBUTES * position + a),
            None => {
                self.faults.extend(no_attribute(symbol, o));
                None
            }
        }
    }

    /// The symbol of an occurrence does not stand in the rule.
    fn not_in_rule(&self, r: usize, o: syntax::Occurrence<'a>) -> Option<Fault> {
        if self.unread.contains(o.symbol) {
            return None;
        }
        let rule = &self.rules[r];
        let near = nearest(o.symbol, rule.parts.iter().map(|p| self.symbols[p.0].name.text));
        let near = near.map_or(String::new(), |name| format!("; did you mean {name}?"));
        let declared = if self.symbols.iter().any(|s| s.name.text == o.symbol) { "" } else { " and is not declared" };
        let text = format!("{}: {} does not stand in this rule{declared}{near}", quoted(o.word.text), quoted(o.symbol));
        Some(Fault::new(o.word.at, text).beside(vec![whole_line(self.source, rule.header.line)]))
    }

    fn inherited(&self, r: usize, occurrence: usize) -> bool {
        let (x, _) = self.rules[r].parts[occurrence / limits::ATTRIBUTES];
        self.symbols[x].attributes[occurrence % limits::ATTRIBUTES].inherited
    }

    /// A rule defines the synthesized attributes of its left side and the inherited ones of its right side.
    pub(super) fn defining(&self, r: usize, occurrence: usize) -> bool {
        self.inherited(r, occurrence) == (occurrence >= limits::ATTRIBUTES)
    }

    pub(super) fn not_defining(&self, r: usize, occurrence: usize) -> String {
        let name = self.named(r, occurrence);
        let (x, _) = self.rules[r].parts[occurrence / limits::ATTRIBUTES];
        let symbol = self.symbols[x].name.text;
        if self.symbols[x].terminal {
            return format!("{name} is not for a rule to define: {symbol} is a terminal, whose values come with the tree");
        }
        if self.inherited(r, occurrence) {
            return format!("{name} is not for this rule to define: it is inherited, and {symbol} is the left side; rules with {symbol} on the right define it");
        }
        format!("{name} is not for this rule to define: it is synthesized, and stands on the right side; the rules of {symbol} define it")
    }

    /// An occurrence by its shortest name that means nothing else.
    pub(super) fn named(&self, r: usize, occurrence: usize) -> String {
        let parts = &self.rules[r].parts;
        let position = occurrence / limits::ATTRIBUTES;
        let (x, _) = parts[position];
        let count = |upto: usize| parts[..upto].iter().filter(|p| p.0 == x).count();
        let number = if count(parts.len()) > 1 { format!("#{}", count(position) + 1) } else { String::new() };
        let symbol = &self.symbols[x];
        format!("{}{number}.{}", symbol.name.text, symbol.attributes[occurrence % limits::ATTRIBUTES].name)
    }
}

fn no_attribute(symbol: &Symbol, o: syntax::Occurrence) -> Option<Fault> {
    if !symbol.whole {
        return None;
    }
    let names: Vec<&str> = symbol.attributes.iter().map(|a| a.name).collect();
    let has = if names.is_empty() { "it has none".to_string() } else { format!("it has {}", names.join(", ")) };
    let near = nearest(o.attribute, names.iter().copied()).map_or(String::new(), |name| format!("; did you mean {name}?"));
    let text = format!("{}: {} has no attribute {}; {has}{near}", quoted(o.word.text), o.symbol, quoted(o.attribute));
    Some(Fault::new(o.word.at, text).beside(vec![symbol.name.at]))
}

fn times(n: usize) -> String {
    match n {
        1 => "once".to_string(),
        2 => "twice".to_string(),
        n => format!("{n} times"),
    }
}
