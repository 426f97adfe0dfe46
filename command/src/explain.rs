//! A plan in words: what each visit of a symbol carries, and what is done at a node of each rule.

use crate::grammar::{Grammar, NUMBERED};
use crate::limits::{ATTRIBUTES, FIRST_LEAVE, FIRST_VISIT};
use crate::list::visits;
use crate::proved::Planned;
use crate::table::Table;
use std::fmt::Write as _;

pub fn explained(grammar: &Grammar, planned: &Planned) -> String {
    let mut out = String::new();
    if grammar.is_numbered() {
        out = format!("{NUMBERED}\n");
    }
    for x in 0..grammar.symbols.len() {
        out += &symbol(grammar, planned, x);
    }
    for r in 0..grammar.table.rules.len() {
        let _ = writeln!(out, "\n{}", grammar.rule(r));
        for &number in planned.sequence(r) {
            let _ = writeln!(out, "  {}", action(grammar, r, number as usize));
        }
    }
    out
}

/// What document 01 takes for granted of a symbol and does not test: that a tree has it.
fn unused(table: &Table, x: usize) -> &'static str {
    let expanded = table.symbols[x].terminal || table.rules.iter().any(|rule| rule.symbols[0] == x);
    let stands = x == table.start || table.rules.iter().any(|rule| rule.symbols[1..].contains(&x));
    match (expanded, stands) {
        (true, true) => "",
        (false, _) => " (no rule has it on its left side: no tree can have it)",
        (true, false) => " (no rule has it on its right side: no tree can have it)",
    }
}

fn symbol(grammar: &Grammar, planned: &Planned, x: usize) -> String {
    let (symbol, named) = (&grammar.table.symbols[x], &grammar.symbols[x]);
    let unused = unused(&grammar.table, x);
    if symbol.terminal {
        let with = if named.attributes.is_empty() {
            "without attributes".to_string()
        } else {
            format!("the tree brings {}", named.attributes.join(", "))
        };
        return format!("{}: a terminal, {with}{unused}\n", named.name);
    }
    let count = visits(&grammar.table, planned, x);
    let mut out = format!("{}: {count} visit{}{unused}\n", named.name, if count == 1 { "" } else { "s" });
    for visit in 1..=count {
        let (down, up) = (carried(grammar, planned, x, visit, true), carried(grammar, planned, x, visit, false));
        let _ = writeln!(out, "  visit {visit}: {down}; {up}");
    }
    out
}

/// What a visit hands down or up. Set k belongs to visit v + 1 - (k/2 rounded up), so a visit has one set of each class.
fn carried(grammar: &Grammar, planned: &Planned, x: usize, visit: usize, inherited: bool) -> String {
    let symbol = &grammar.table.symbols[x];
    let last = visits(&grammar.table, planned, x);
    let of_visit = |a: usize| last + 1 - (planned.set(x, a) as usize).div_ceil(2) == visit;
    let found: Vec<usize> = (0..symbol.attributes).filter(|&a| symbol.inherited(a) == inherited && of_visit(a)).collect();
    let way = if inherited { "down" } else { "up" };
    let Some(&first) = found.first() else { return format!("nothing {way}") };
    let names: Vec<&str> = found.iter().map(|&a| grammar.symbols[x].attributes[a].as_str()).collect();
    format!("{way} {} (set {})", names.join(", "), planned.set(x, first))
}

/// `compute lines#1.highest`, `visit lines#2 (1)`, `leave 1`.
fn action(grammar: &Grammar, rule: usize, number: usize) -> String {
    if number < FIRST_VISIT {
        return format!("compute {}", grammar.occurrence(rule, number));
    }
    if number < FIRST_LEAVE {
        let (position, visit) = ((number - FIRST_VISIT) / ATTRIBUTES, (number - FIRST_VISIT) % ATTRIBUTES + 1);
        return format!("visit {} ({visit})", grammar.part(rule, position));
    }
    format!("leave {}", number - FIRST_LEAVE + 1)
}
