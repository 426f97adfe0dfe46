//! A rule's EDP for graphviz: a box for each attribute, those of one set on one rank, and the arcs by their reason. A cycle is red.
//! Only arcs that the proved rows have are drawn.

use crate::cycle::{cycle, Cycle, NOT_ORDERED};
use crate::grammar::Grammar;
use crate::limits::ATTRIBUTES;
use crate::proved::{Planned, Refusal};
use crate::relations::{self, Arc, Arcs, Induced, Reason, Sets};
use crate::table::{occurrence, place};
use std::fmt::Write as _;

/// What the drawings of a table share.
struct Drawer<'a> {
    grammar: &'a Grammar,
    planned: &'a Planned,
    induced: Induced,
    /// None where the table is refused with 9, before there are sets.
    sets: Option<Sets>,
    cycle: Option<Cycle>,
}

/// The rules of a table that is accepted or refused with 9 or 10, or one of them.
pub fn drawn(grammar: &Grammar, planned: &Planned, only: Option<usize>) -> String {
    let induced = relations::induced(&grammar.table);
    let sets = match planned.refusal {
        None => Some(proved_sets(grammar, planned)),
        Some(Refusal { number: NOT_ORDERED, .. }) => Some(relations::sets(&grammar.table, &induced)),
        Some(_) => None,
    };
    let cycle = planned.refusal.and_then(|refusal| cycle(&grammar.table, planned, refusal).ok());
    let drawer = Drawer { grammar, planned, induced, sets, cycle };
    (0..grammar.table.rules.len()).filter(|&rule| only.is_none_or(|r| r == rule)).map(|rule| drawer.rule(rule)).collect()
}

fn proved_sets(grammar: &Grammar, planned: &Planned) -> Sets {
    (0..grammar.symbols.len()).map(|x| std::array::from_fn(|a| planned.set(x, a) as usize)).collect()
}

impl Drawer<'_> {
    fn rule(&self, rule: usize) -> String {
        let relation = if self.sets.is_some() { "EDP" } else { "IDP" };
        let mut out = format!(
            "digraph \"rule {rule}\" {{\n  label=\"{relation} of {}\";\n  newrank=true;\n  node [shape=box];\n",
            self.grammar.rule(rule)
        );
        for position in 0..self.grammar.table.rules[rule].symbols.len() {
            out += &self.part(rule, position);
        }
        for arc in self.arcs(rule) {
            out += &self.arc(rule, &arc);
        }
        out + "}\n"
    }

    /// A symbol of the rule, with its attributes by sets.
    fn part(&self, rule: usize, position: usize) -> String {
        let x = self.grammar.table.rules[rule].symbols[position];
        let mut out = format!("  subgraph cluster_{position} {{\n    label=\"{}\";\n", self.grammar.part(rule, position));
        for (a, name) in self.grammar.symbols[x].attributes.iter().enumerate() {
            let set = self.set(x, a).map_or(String::new(), |k| format!("\\nset {k}"));
            let _ = writeln!(out, "    o{} [label=\"{name}{set}\"];", occurrence(position, a));
        }
        // With 8 attributes there are at most 9 sets.
        for set in (1..=ATTRIBUTES + 1).rev() {
            let members: Vec<usize> = (0..self.grammar.symbols[x].attributes.len()).filter(|&a| self.set(x, a) == Some(set)).collect();
            if members.len() > 1 {
                let nodes: String = members.iter().map(|&a| format!(" o{};", occurrence(position, a))).collect();
                let _ = writeln!(out, "    {{ rank=same;{nodes} }}");
            }
        }
        out + "  }\n"
    }

    /// The set of an attribute, where it has one.
    fn set(&self, x: usize, attribute: usize) -> Option<usize> {
        self.sets.as_ref().map(|sets| sets[x][attribute]).filter(|&k| k > 0)
    }

    /// What is drawn: of the order of sets only the arcs between neighbouring sets, whose paths are the same, and what a cycle is made of.
    fn arcs(&self, rule: usize) -> Vec<Arc> {
        let arcs = Arcs::of(&self.grammar.table, rule, &self.induced, relations::rounds(&self.induced), self.sets.as_ref());
        let wanted = |arc: &Arc| arc.reason != Reason::Sets || self.neighbours(rule, arc) || self.red(rule, arc);
        arcs.all().filter(|arc| wanted(arc) && self.planned.path(rule, arc.from, arc.to)).collect()
    }

    fn neighbours(&self, rule: usize, arc: &Arc) -> bool {
        let ((position, a), (_, b)) = (place(arc.from), place(arc.to));
        let x = self.grammar.table.rules[rule].symbols[position];
        let between = |c: usize| self.set(x, b) < self.set(x, c) && self.set(x, c) < self.set(x, a);
        !(0..self.grammar.symbols[x].attributes.len()).any(between)
    }

    fn red(&self, rule: usize, arc: &Arc) -> bool {
        self.cycle.as_ref().is_some_and(|c| c.rule == rule && c.arcs.iter().any(|red| (red.from, red.to) == (arc.from, arc.to)))
    }

    fn arc(&self, rule: usize, arc: &Arc) -> String {
        let style = match arc.reason {
            Reason::Function(n) => format!("style=solid, label=\"{}\"", self.grammar.function_place(rule, n)),
            Reason::Induced => "style=dashed".to_string(),
            Reason::Sets => "style=dotted".to_string(),
        };
        let red = if self.red(rule, arc) { ", color=red, penwidth=2" } else { "" };
        // The ranks are those of the sets: a function against their order does not pull at them.
        let free = if !red.is_empty() && self.sets.is_some() && arc.reason != Reason::Sets { ", constraint=false" } else { "" };
        format!("  o{} -> o{} [{style}{red}{free}];\n", arc.from, arc.to)
    }
}
