//! A table with names for its symbols and attributes and places for its rules and functions: those of the file that it was read from, or numbers.

use crate::limits;
use crate::table::{place, Table};
use crate::text::{Named, Reading, RuleLines};

/// What the names of a table without a text are.
pub const NUMBERED: &str = "Names are numbers: n1 is nonterminal 1, t2 terminal 2, a0 attribute 0.\n";

pub struct Grammar {
    pub table: Table,
    pub symbols: Vec<Named>,
    /// The lines of the rules, where the table has a text.
    lines: Option<Vec<RuleLines>>,
}

impl Grammar {
    /// With the names of a text.
    pub fn named(table: Table, reading: &Reading) -> Grammar {
        Grammar { table, symbols: reading.symbols.clone(), lines: Some(reading.rules.clone()) }
    }

    /// With names made of numbers.
    pub fn numbered(table: Table) -> Grammar {
        let symbols = numbers(&table);
        Grammar { table, symbols, lines: None }
    }

    /// Whether the names are numbers.
    pub fn is_numbered(&self) -> bool {
        self.lines.is_none()
    }

    /// A symbol of a rule, with its number where it stands several times: `lines#2`.
    pub fn part(&self, rule: usize, position: usize) -> String {
        let symbols = &self.table.rules[rule].symbols;
        let x = symbols[position];
        let among = |upto: usize| symbols[..upto].iter().filter(|&&y| y == x).count();
        let name = &self.symbols[x].name;
        if among(symbols.len()) == 1 {
            name.clone()
        } else {
            format!("{name}#{}", among(position) + 1)
        }
    }

    /// An occurrence of a rule: `lines#2.threshold`.
    pub fn occurrence(&self, rule: usize, number: usize) -> String {
        let (position, attribute) = place(number);
        let x = self.table.rules[rule].symbols[position];
        format!("{}.{}", self.part(rule, position), self.symbols[x].attributes[attribute])
    }

    /// A rule as it is written, with its number and place: `rule 1 (line 14), lines = line lines`.
    pub fn rule(&self, rule: usize) -> String {
        format!("rule {rule} ({}), {}", self.rule_place(rule), self.sides(rule))
    }

    /// Its two sides.
    pub fn sides(&self, rule: usize) -> String {
        let names: Vec<&str> = self.table.rules[rule].symbols.iter().map(|&x| self.symbols[x].name.as_str()).collect();
        format!("{} = {}", names[0], names[1..].join(" ")).trim_end().to_string()
    }

    pub fn rule_place(&self, rule: usize) -> String {
        match &self.lines {
            Some(lines) => format!("line {}", lines[rule].header + 1),
            None => format!("word {}", self.table.rules[rule].at),
        }
    }

    pub fn function_place(&self, rule: usize, function: usize) -> String {
        match &self.lines {
            Some(lines) => format!("line {}", lines[rule].functions[function] + 1),
            None => format!("word {}", self.table.rules[rule].functions[function].at),
        }
    }
}

/// Names made of numbers, for every symbol and attribute.
pub fn numbers(table: &Table) -> Vec<Named> {
    let attributes: Vec<String> = (0..limits::ATTRIBUTES).map(|a| format!("a{a}")).collect();
    let named = |(x, symbol): (usize, &crate::table::Symbol)| Named {
        name: format!("{}{x}", if symbol.terminal { 't' } else { 'n' }),
        attributes: attributes[..symbol.attributes].to_vec(),
    };
    table.symbols.iter().enumerate().map(named).collect()
}
