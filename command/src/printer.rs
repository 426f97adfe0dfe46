//! Prints a table in the readable form, from its words and a name for each symbol and attribute. It shares nothing with the reader but the limits,
//! so that what the reader gets wrong shows where the two are held against each other.

use crate::table::{place, Function, Rule, Table};
use crate::text::Named;

/// The names of the operations, by their numbers.
const OPERATIONS: [&str; 9] = ["const", "copy", "sum", "difference", "larger", "smaller", "less", "choose", "served"];

/// The text: every occurrence has its number, also where its symbol stands once.
pub fn print(table: &Table, names: &[Named]) -> String {
    let mut out = format!("start {}\n", names[table.start].name);
    for (symbol, named) in table.symbols.iter().zip(names) {
        out += if symbol.terminal { "terminal " } else { "nonterminal " };
        out += &named.name;
        for (a, name) in named.attributes.iter().enumerate() {
            out += if symbol.inherited(a) { " i." } else { " s." };
            out += name;
        }
        out += "\n";
    }
    for rule in &table.rules {
        out += &header(rule, names);
        for function in &rule.functions {
            out += &line(rule, function, names);
        }
    }
    out
}

fn header(rule: &Rule, names: &[Named]) -> String {
    let mut out = format!("rule {} =", names[rule.symbols[0]].name);
    for &x in &rule.symbols[1..] {
        out += " ";
        out += &names[x].name;
    }
    out + "\n"
}

fn line(rule: &Rule, function: &Function, names: &[Named]) -> String {
    let mut out = format!("  {} = {}", occurrence(rule, function.target, names), OPERATIONS[function.operation]);
    for &argument in &function.arguments {
        out += " ";
        // Constants are two's complement.
        out += &if function.operation == 0 { (argument as i16).to_string() } else { occurrence(rule, argument as usize, names) };
    }
    out + "\n"
}

fn occurrence(rule: &Rule, number: usize, names: &[Named]) -> String {
    let (position, attribute) = place(number);
    let x = rule.symbols[position];
    let before = rule.symbols[..position].iter().filter(|&&y| y == x).count();
    format!("{}#{}.{}", names[x].name, before + 1, names[x].attributes[attribute])
}
