//! The listing of a plan, as document 01 prints it and the proved listing program writes it.

use crate::proved::Planned;
use crate::table::Table;
use std::fmt::Write as _;

/// How many visits a node of a symbol gets: half the highest set number, rounded up, and at least one.
pub fn visits(table: &Table, planned: &Planned, symbol: usize) -> usize {
    let sets = (0..table.symbols[symbol].attributes).map(|a| planned.set(symbol, a) as usize);
    sets.max().unwrap_or(0).div_ceil(2).max(1)
}

pub fn listing(table: &Table, planned: &Planned) -> String {
    let mut out = format!("plan {} {}\n", table.symbols.len(), table.rules.len());
    for (x, symbol) in table.symbols.iter().enumerate().filter(|(_, symbol)| !symbol.terminal) {
        let _ = write!(out, "s {x} {}", visits(table, planned, x));
        for a in 0..symbol.attributes {
            let _ = write!(out, " {}", planned.set(x, a));
        }
        out.push('\n');
    }
    for r in 0..table.rules.len() {
        let _ = write!(out, "r {r}");
        for action in planned.sequence(r) {
            let _ = write!(out, " {action}");
        }
        out.push('\n');
    }
    out
}
