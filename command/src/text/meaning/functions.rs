//! The functions of a rule: what each defines, and its arguments.

use super::{Function, Reader};
use crate::limits;
use crate::text::fault::{quoted, Fault};
use crate::text::number::whole;
use crate::text::source::Span;
use crate::text::syntax::{self, Argument};

impl<'a> Reader<'a, '_> {
    pub(super) fn function(&mut self, r: usize, line: &syntax::Function<'a>) {
        if !self.rules[r].whole {
            return;
        }
        self.rules[r].complete &= line.target.is_some();
        let target = line.target.and_then(|o| self.target(r, o));
        let mut arguments = Vec::new();
        for argument in &line.arguments {
            arguments.extend(self.argument(r, line, argument));
        }
        let (Some(target), Some(operation), true) = (target, line.operation, line.whole) else { return };
        self.rules[r].functions.push(Function { target, operation, arguments });
    }

    /// The occurrence that a function defines, if it is for the rule to define and has not been defined before.
    fn target(&mut self, r: usize, o: syntax::Occurrence<'a>) -> Option<(usize, Span)> {
        let Some(occurrence) = self.occurrence(r, o) else {
            self.rules[r].complete = false;
            return None;
        };
        let at = o.word.at;
        if !self.defining(r, occurrence) {
            self.fault(at, self.not_defining(r, occurrence));
            return None;
        }
        if let Some(first) = self.rules[r].defined[occurrence] {
            let text = format!("a second function for {}: each attribute has one", self.named(r, occurrence));
            self.faults.push(Fault::new(at, text).beside(vec![first]));
            return None;
        }
        self.rules[r].defined[occurrence] = Some(at);
        Some((occurrence, at))
    }

    fn argument(&mut self, r: usize, line: &syntax::Function<'a>, argument: &Argument<'a>) -> Option<(u16, Span)> {
        match argument {
            Argument::Constant(n, at) => Some((*n, *at)),
            Argument::Occurrence(o) => self.occurrence(r, *o).map(|n| (n as u16, o.word.at)),
            Argument::Number(word) => {
                self.fault(word.at, self.carried(r, line, word.text));
                None
            }
        }
    }

    /// How to use a number where only an attribute may stand.
    fn carried(&self, r: usize, line: &syntax::Function<'a>, number: &str) -> String {
        const COPY: usize = 1;
        if let Err(why) = whole(number, &limits::CONSTANTS) {
            return format!("an argument is an attribute, SYMBOL.ATTRIBUTE; {} {why}", quoted(number));
        }
        if line.operation.is_some_and(|(op, _)| op == COPY) {
            return format!("`{number}` is a number, and copy takes an attribute; for a constant write: const {number}");
        }
        let rule = &self.rules[r];
        let left = self.symbols[rule.parts[0].0].name.text;
        let here = if rule.parts.iter().filter(|p| p.0 == rule.parts[0].0).count() > 1 { format!("{left}#1") } else { left.to_string() };
        format!(
            "`{number}` is a number, and an argument is an attribute: let one carry it. Declare s.NAME at {left}, \
             give it the value in each rule of {left} ({here}.NAME = const {number}), and write {here}.NAME here"
        )
    }
}
