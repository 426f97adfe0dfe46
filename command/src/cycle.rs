//! The cycle behind a refusal 9 or 10: a shortest one through the occurrence that the proved code names, of arcs that were induced as early as
//! possible. Every arc of it, and every arc of the paths that induce one of its arcs, is held against the rows that the proved code left.

use crate::proved::{Planned, Refusal};
use crate::relations::{self, Arc, Arcs, Induced, Reason, Sets};
use crate::table::{place, Table};
use std::collections::BTreeSet;

/// The refusal of a grammar in which attributes depend on themselves; 10 is that of one that is only not ordered.
pub const CIRCULAR: u64 = 9;
pub const NOT_ORDERED: u64 = 10;

pub struct Cycle {
    pub rule: usize,
    pub arcs: Vec<Arc>,
    pub induced: Induced,
    /// The sets that the order is of; none for 9, which comes before there are sets.
    pub sets: Option<Sets>,
}

/// Why a cycle is not shown.
#[derive(Debug, PartialEq, Eq)]
pub enum Unheld {
    /// No cycle leads through the occurrence that the proved code named.
    NoCycle,
    /// An arc that the proved rows do not have: the rule and the two occurrences.
    NoArc(usize, usize, usize),
}

/// The cycle that a refusal 9 or 10 speaks of.
pub fn cycle(table: &Table, planned: &Planned, refusal: Refusal) -> Result<Cycle, Unheld> {
    let (rule, named) = (refusal.place, refusal.second);
    if !table.rules.get(rule).is_some_and(|r| table.occurs(r, named)) {
        return Err(Unheld::NoCycle);
    }
    let induced = relations::induced(table);
    let sets = (refusal.number == NOT_ORDERED).then(|| relations::sets(table, &induced));
    let arcs = shortest(table, &induced, sets.as_ref(), rule, named).ok_or(Unheld::NoCycle)?;
    let cycle = Cycle { rule, arcs, induced, sets };
    cycle.held(table, planned)?;
    Ok(cycle)
}

/// A shortest cycle. After 9 there may be many induced arcs that come from cycles themselves, so those of fewer rounds are tried first.
fn shortest(table: &Table, induced: &Induced, sets: Option<&Sets>, rule: usize, named: usize) -> Option<Vec<Arc>> {
    let all = relations::rounds(induced);
    let first = if sets.is_some() { all } else { 0 };
    let arcs = |last| Arcs::of(table, rule, induced, last, sets);
    (first..=all).find_map(|last| arcs(last).without_loops().path(named, named)).or_else(|| arcs(all).path(named, named))
}

impl Cycle {
    /// The symbol and the two attributes of an induced arc.
    pub fn inducing(table: &Table, rule: usize, arc: &Arc) -> Option<(usize, usize, usize)> {
        let ((position, a), (_, b)) = (place(arc.from), place(arc.to));
        (arc.reason == Reason::Induced).then(|| (table.rules[rule].symbols[position], a, b))
    }

    /// Whether the rows have every arc that would be shown.
    fn held(&self, table: &Table, planned: &Planned) -> Result<(), Unheld> {
        let mut waiting: Vec<(usize, &[Arc])> = vec![(self.rule, &self.arcs)];
        let mut seen = BTreeSet::new();
        while let Some((rule, path)) = waiting.pop() {
            for arc in path {
                if !planned.path(rule, arc.from, arc.to) {
                    return Err(Unheld::NoArc(rule, arc.from, arc.to));
                }
                let Some(key) = Cycle::inducing(table, rule, arc).filter(|key| seen.insert(*key)) else { continue };
                let origin = self.induced.get(&key).ok_or(Unheld::NoArc(rule, arc.from, arc.to))?;
                waiting.push((origin.rule, &origin.path));
            }
        }
        Ok(())
    }
}
