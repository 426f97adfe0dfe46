//! A refusal in the writer's terms: which word or attribute, what was expected there, and for 9 and 10 the whole cycle.

use crate::cycle::{cycle, Cycle, Unheld, CIRCULAR, NOT_ORDERED};
use crate::grammar::{Grammar, NUMBERED};
use crate::proved::{Planned, Refusal};
use crate::relations::{Arc, Reason};
use crate::role::{role, Role};
use crate::table::{occurrence, place, Table};
use std::collections::BTreeSet;
use std::fmt::Write as _;

/// Refusals 1 to 7 of words that were given as words: sentences with numbers.
pub fn of_words(words: &[u16], refusal: Refusal) -> String {
    let at = refusal.place;
    let what = role(words, at);
    let told = what.map_or("no part of a table".to_string(), |r| r.to_string());
    let word = words.get(at).map_or("missing".to_string(), u16::to_string);
    let begun = Table::begun(words);
    match (refusal.number, what) {
        (1, _) => format!("The words end too early: word {at} is missing. It would be {told}.\n"),
        (2, _) => format!("Word {at} is {word}, which is out of range. It is {told}.\n"),
        (3, what) => format!("Word {at}: {}.\n", wrong_class(&begun, what)),
        (4, _) => format!("Word {at} is {word}, which is no occurrence of its rule. It is {told}.\n{}", occurrences(&begun)),
        (5, Some(Role::Target(r, n))) => format!("Word {at} is {word}: {}.\n", wrong_target(&begun, words, r, n, at)),
        (6, _) => format!("Before word {at}: {}.\n", missing(&begun, what)),
        (7, _) => format!("The table ends before word {at}; from there on {} left over.\n", are(words.len().saturating_sub(at))),
        _ => format!("Word {at} is {word}. It is {told}.\n"),
    }
}

fn are(words: usize) -> String {
    if words == 1 {
        "1 word is".to_string()
    } else {
        format!("{words} words are")
    }
}

fn wrong_class(table: &Table, role: Option<Role>) -> String {
    match role {
        Some(Role::Mask(x)) => {
            format!("symbol {x} is a terminal, and its mask makes an attribute inherited; terminals have synthesized attributes only")
        }
        Some(Role::Left(r)) => format!("the left side of rule {r} is a terminal; it must be a nonterminal"),
        _ if table.symbols.get(table.start).is_some_and(|s| s.terminal) => {
            format!("the start symbol, {}, is a terminal; it must be a nonterminal", table.start)
        }
        _ => format!("the start symbol, {}, has an inherited attribute; it must have none", table.start),
    }
}

/// The occurrences of the rule that was being read.
fn occurrences(table: &Table) -> String {
    let Some(rule) = table.rules.last() else { return String::new() };
    let mut out = "The rule's occurrences:".to_string();
    for (position, attribute) in rule.occurrences(table) {
        let _ = write!(out, " {}", occurrence(position, attribute));
    }
    out + "\n"
}

fn wrong_target(table: &Table, words: &[u16], rule: usize, function: usize, at: usize) -> String {
    let target = words.get(at).map_or(0, |&w| w as usize);
    let Some(r) = table.rules.get(rule).filter(|r| table.occurs(r, target)) else { return format!("no target for rule {rule}") };
    if table.defining(r, target) {
        let first = r.functions.iter().position(|f| f.target == target).unwrap_or(0);
        return format!("occurrence {target} of rule {rule} has a second function, number {function}; number {first} defines it already");
    }
    let (position, attribute) = place(target);
    let whose = if position == 0 { "inherited, and stands on the left side" } else { "synthesized, and stands on the right side" };
    format!("occurrence {target} is not for rule {rule} to define: attribute {attribute} of position {position} is {whose}")
}

fn missing(table: &Table, what: Option<Role>) -> String {
    let rule = match what {
        Some(Role::Left(r)) => r.saturating_sub(1),
        _ => table.rules.len().saturating_sub(1),
    };
    let Some(r) = table.rules.get(rule) else { return format!("rule {rule} lacks a function") };
    let defined: Vec<usize> = r.functions.iter().map(|f| f.target).collect();
    let lacking = r.occurrences(table).map(|(i, a)| occurrence(i, a)).filter(|o| table.defining(r, *o) && !defined.contains(o));
    let lacking: Vec<String> = lacking.map(|o| o.to_string()).collect();
    format!("rule {rule} has no function for occurrence {}", lacking.join(", "))
}

/// Refusals of planning.
pub fn of_planning(grammar: &Grammar, planned: &Planned, refusal: Refusal) -> String {
    let mut out = match refusal.number {
        CIRCULAR => format!("An attribute depends on itself: {}.\n", which(grammar, refusal)),
        NOT_ORDERED => format!(
            "The grammar is not ordered: no attribute depends on itself, but all nodes of a symbol are visited in one order,\n\
             that of its sets, and this order makes a cycle: {}.\n",
            which(grammar, refusal)
        ),
        _ => return format!("{refusal}\n"),
    };
    if grammar.is_numbered() {
        out += NUMBERED;
    }
    match cycle(&grammar.table, planned, refusal) {
        Ok(cycle) => out += &shown(grammar, &cycle),
        Err(why) => out += &not_shown(grammar, &why),
    }
    out
}

fn which(grammar: &Grammar, refusal: Refusal) -> String {
    let (rule, named) = (refusal.place, refusal.second);
    match grammar.table.rules.get(rule) {
        Some(r) if grammar.table.occurs(r, named) => format!("{} in {}", grammar.occurrence(rule, named), grammar.rule(rule)),
        _ => format!("rule {rule}, occurrence {named}"),
    }
}

/// An arc a line; below an induced arc, deeper, the path that it comes from.
fn shown(grammar: &Grammar, cycle: &Cycle) -> String {
    let mut writer = Writer { grammar, cycle, seen: BTreeSet::new(), out: String::new() };
    writer.path(cycle.rule, &cycle.arcs, 1);
    writer.out
}

fn not_shown(grammar: &Grammar, why: &Unheld) -> String {
    match why {
        Unheld::NoCycle => "No cycle could be worked out here, so none is shown; the refusal stands.\n".to_string(),
        Unheld::NoArc(rule, from, to) => format!(
            "A cycle was worked out here, but the proved rows do not have its arc from {} to {} in rule {rule}, so it is not shown; the refusal stands.\n",
            grammar.occurrence(*rule, *from),
            grammar.occurrence(*rule, *to)
        ),
    }
}

struct Writer<'a> {
    grammar: &'a Grammar,
    cycle: &'a Cycle,
    /// The induced arcs whose path has been written.
    seen: BTreeSet<(usize, usize, usize)>,
    out: String,
}

impl Writer<'_> {
    fn path(&mut self, rule: usize, arcs: &[Arc], depth: usize) {
        let names: Vec<String> = arcs
            .iter()
            .map(|arc| format!("{} -> {}", self.grammar.occurrence(rule, arc.from), self.grammar.occurrence(rule, arc.to)))
            .collect();
        let width = names.iter().map(String::len).max().unwrap_or(0);
        for (arc, name) in arcs.iter().zip(&names) {
            let _ = write!(self.out, "{}{name:width$}  ", "  ".repeat(depth));
            self.reason(rule, arc, depth);
        }
    }

    fn reason(&mut self, rule: usize, arc: &Arc, depth: usize) {
        let grammar = self.grammar;
        match arc.reason {
            Reason::Function(n) => {
                let _ = writeln!(self.out, "rule {rule}, {}: by a function", grammar.function_place(rule, n));
            }
            Reason::Induced => self.induced(rule, arc, depth),
            Reason::Sets => {
                let _ = writeln!(self.out, "rule {rule}, {}: by the order of sets{}", grammar.rule_place(rule), self.sets(rule, arc));
            }
        }
    }

    fn induced(&mut self, rule: usize, arc: &Arc, depth: usize) {
        let place = self.grammar.rule_place(rule);
        let cycle = self.cycle;
        let found = Cycle::inducing(&self.grammar.table, rule, arc).and_then(|key| Some((key, cycle.induced.get(&key)?)));
        let Some((key, origin)) = found else { return };
        let _ = write!(self.out, "rule {rule}, {place}: induced from {}", self.grammar.rule(origin.rule));
        if !self.seen.insert(key) {
            self.out += "; its path is above\n";
            return;
        }
        self.out += ":\n";
        self.path(origin.rule, &origin.path, depth + 1);
    }

    fn sets(&self, rule: usize, arc: &Arc) -> String {
        let ((position, a), (_, b)) = (place(arc.from), place(arc.to));
        let x = self.grammar.table.rules[rule].symbols[position];
        let Some(sets) = &self.cycle.sets else { return String::new() };
        let attributes = &self.grammar.symbols[x].attributes;
        format!(", {} (set {}) before {} (set {})", attributes[a], sets[x][a], attributes[b], sets[x][b])
    }
}
