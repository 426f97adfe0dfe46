//! The arcs behind a cycle or a drawing, with the reason for each: a function, a path in another rule, or the order of sets. The proved code keeps
//! only paths, so these are worked out here, by document 01's words, and are shown only where the proved rows have them.

use crate::limits::{ATTRIBUTES, OCCURRENCES};
use crate::table::{occurrence, Table};
use std::collections::{BTreeMap, VecDeque};

/// Why one occurrence comes before another.
#[derive(Debug, Clone, Copy, PartialEq, Eq)]
pub enum Reason {
    /// A function of the rule, by its place among them.
    Function(usize),
    /// A path between the two attributes in some rule.
    Induced,
    /// The first attribute is in a higher set.
    Sets,
}

#[derive(Debug, Clone, Copy)]
pub struct Arc {
    pub from: usize,
    pub to: usize,
    pub reason: Reason,
}

/// Where an arc between two attributes of a symbol comes from: a rule and a path in it, and the round in which it was found, from 1.
#[derive(Debug)]
pub struct Origin {
    pub round: usize,
    pub rule: usize,
    pub path: Vec<Arc>,
}

/// IDS: for a symbol and two of its attributes, where the arc comes from. A path uses only arcs of earlier rounds, so that following the origins
/// always ends at functions.
pub type Induced = BTreeMap<(usize, usize, usize), Origin>;

/// The set number of each attribute of each symbol; 0 for terminals.
pub type Sets = Vec<[usize; ATTRIBUTES]>;

/// The arcs of a rule, by reason: bit b of row a is an arc from a to b.
pub struct Arcs<'a> {
    table: &'a Table,
    rule: usize,
    functions: [u64; OCCURRENCES],
    induced: [u64; OCCURRENCES],
    sets: [u64; OCCURRENCES],
}

impl<'a> Arcs<'a> {
    /// DP and the induced arcs of the rounds up to one; and, where sets are given, those from higher to lower sets at nonterminals.
    pub fn of(table: &'a Table, rule: usize, induced: &Induced, last: usize, sets: Option<&Sets>) -> Arcs<'a> {
        let none = [0; OCCURRENCES];
        let mut arcs = Arcs { table, rule, functions: none, induced: none, sets: none };
        for function in &table.rules[rule].functions {
            for argument in function.occurrences() {
                arcs.functions[argument] |= 1 << function.target;
            }
        }
        for (position, &x) in table.rules[rule].symbols.iter().enumerate() {
            let found = induced.range((x, 0, 0)..(x + 1, 0, 0)).filter(|(_, origin)| origin.round <= last);
            for &(_, a, b) in found.map(|(arc, _)| arc) {
                arcs.induced[occurrence(position, a)] |= 1 << occurrence(position, b);
            }
            if let Some(sets) = sets.filter(|_| !table.symbols[x].terminal) {
                arcs.order(position, table.symbols[x].attributes, &sets[x]);
            }
        }
        arcs
    }

    fn order(&mut self, position: usize, attributes: usize, sets: &[usize; ATTRIBUTES]) {
        for a in 0..attributes {
            for b in (0..attributes).filter(|&b| sets[a] > sets[b]) {
                self.sets[occurrence(position, a)] |= 1 << occurrence(position, b);
            }
        }
    }

    /// Without the induced arcs from an attribute to itself, which say of a cycle only that there is one.
    pub fn without_loops(mut self) -> Arcs<'a> {
        self.induced.iter_mut().enumerate().for_each(|(o, row)| *row &= !(1 << o));
        self
    }

    /// The arc from one occurrence to another, by its simplest reason.
    pub fn arc(&self, from: usize, to: usize) -> Option<Arc> {
        let has = |rows: &[u64; OCCURRENCES]| rows[from] >> to & 1 == 1;
        let mut functions = self.table.rules[self.rule].functions.iter();
        let reason = if has(&self.functions) {
            Reason::Function(functions.position(|f| f.target == to && f.occurrences().any(|o| o == from))?)
        } else if has(&self.induced) {
            Reason::Induced
        } else if has(&self.sets) {
            Reason::Sets
        } else {
            return None;
        };
        Some(Arc { from, to, reason })
    }

    /// Every arc.
    pub fn all(&self) -> impl Iterator<Item = Arc> + '_ {
        (0..OCCURRENCES).flat_map(move |from| (0..OCCURRENCES).filter_map(move |to| self.arc(from, to)))
    }

    /// What each occurrence is first reached by on the shortest paths from one occurrence, functions before induced arcs before the order of sets.
    fn reached(&self, start: usize) -> [Option<usize>; OCCURRENCES] {
        let mut by = [None; OCCURRENCES];
        let mut waiting = VecDeque::from([start]);
        while let Some(from) = waiting.pop_front() {
            for rows in [&self.functions, &self.induced, &self.sets] {
                for to in (0..OCCURRENCES).filter(|&to| rows[from] >> to & 1 == 1) {
                    if by[to].is_none() {
                        by[to] = Some(from);
                        // The start itself has been left already.
                        if to != start {
                            waiting.push_back(to);
                        }
                    }
                }
            }
        }
        by
    }

    /// A shortest path of one arc or more.
    pub fn path(&self, start: usize, end: usize) -> Option<Vec<Arc>> {
        self.back(&self.reached(start), start, end)
    }

    fn back(&self, by: &[Option<usize>; OCCURRENCES], start: usize, end: usize) -> Option<Vec<Arc>> {
        let mut path = Vec::new();
        let mut to = end;
        loop {
            let from = by[to]?;
            path.push(self.arc(from, to)?);
            if from == start {
                path.reverse();
                return Some(path);
            }
            to = from;
        }
    }
}

/// The least relations: rounds, each from the arcs of the rounds before, until no rule has a new path.
pub fn induced(table: &Table) -> Induced {
    let mut induced = Induced::new();
    let mut number = 0;
    loop {
        number += 1;
        let mut found = Vec::new();
        for rule in 0..table.rules.len() {
            round(table, rule, &induced, number, &mut found);
        }
        let before = induced.len();
        for (arc, origin) in found {
            induced.entry(arc).or_insert(origin);
        }
        if induced.len() == before {
            return induced;
        }
    }
}

/// The paths of a rule between attributes of one occurrence that are not arcs of its symbol yet.
fn round(table: &Table, rule: usize, induced: &Induced, number: usize, found: &mut Vec<((usize, usize, usize), Origin)>) {
    let arcs = Arcs::of(table, rule, induced, number, None);
    for (position, a) in table.rules[rule].occurrences(table) {
        let x = table.rules[rule].symbols[position];
        let start = occurrence(position, a);
        let by = arcs.reached(start);
        for b in (0..table.symbols[x].attributes).filter(|&b| !induced.contains_key(&(x, a, b))) {
            if let Some(path) = arcs.back(&by, start, occurrence(position, b)) {
                found.push(((x, a, b), Origin { round: number, rule, path }));
            }
        }
    }
}

/// The last round that found an arc.
pub fn rounds(induced: &Induced) -> usize {
    induced.values().map(|origin| origin.round).max().unwrap_or(0)
}

/// The sets, counted from the end: set k is the largest collection of unplaced attributes of its class whose successors are all in sets 1 to k.
pub fn sets(table: &Table, induced: &Induced) -> Sets {
    table.symbols.iter().enumerate().map(|(x, _)| sets_of(table, induced, x)).collect()
}

fn sets_of(table: &Table, induced: &Induced, x: usize) -> [usize; ATTRIBUTES] {
    let symbol = &table.symbols[x];
    let mut sets = [0; ATTRIBUTES];
    if symbol.terminal {
        return sets;
    }
    let last = ATTRIBUTES + 1;
    for k in 1..=last {
        // Odd sets are synthesized.
        let mut taken: Vec<usize> = (0..symbol.attributes).filter(|&a| sets[a] == 0 && symbol.inherited(a) == (k % 2 == 0)).collect();
        while let Some(at) = taken
            .iter()
            .position(|&a| (0..symbol.attributes).any(|b| induced.contains_key(&(x, a, b)) && sets[b] == 0 && !taken.contains(&b)))
        {
            taken.remove(at);
        }
        taken.iter().for_each(|&a| sets[a] = k);
    }
    sets
}
