//! What a word of a table is by its place, and what may stand there. The words before it say so; nothing is asked of the word itself.

use crate::limits;
use crate::table::takes;

#[derive(Debug, Clone, Copy, PartialEq, Eq)]
pub enum Role {
    Symbols,
    Rules,
    Start,
    Kind(usize),
    Attributes(usize),
    Mask(usize),
    Left(usize),
    Length(usize),
    /// A rule and a position of its right side.
    Right(usize, usize),
    Functions(usize),
    /// A rule and a function of it, from 0.
    Target(usize, usize),
    Operation(usize, usize),
    Argument(usize, usize),
    /// Behind the last rule.
    End,
}

/// The role of the word at a place. Nothing where the words before it are no beginning of a table.
pub fn role(words: &[u16], place: usize) -> Option<Role> {
    let word = |at: usize| words.get(at).map(|&w| w as usize);
    match place {
        0 => return Some(Role::Symbols),
        1 => return Some(Role::Rules),
        2 => return Some(Role::Start),
        _ => {}
    }
    let symbols_end = limits::HEAD + limits::SYMBOL * word(0)?;
    if place < symbols_end {
        let (x, part) = ((place - limits::HEAD) / limits::SYMBOL, (place - limits::HEAD) % limits::SYMBOL);
        return Some([Role::Kind(x), Role::Attributes(x), Role::Mask(x)][part]);
    }
    let mut at = symbols_end;
    for rule in 0..word(1)? {
        let functions_at = if place < at + 2 { at + 2 } else { at + 2 + word(at + 1)? };
        if place <= functions_at {
            return Some(match place - at {
                0 => Role::Left(rule),
                1 => Role::Length(rule),
                _ if place == functions_at => Role::Functions(rule),
                position => Role::Right(rule, position - 1),
            });
        }
        at = functions_at + 1;
        for function in 0..word(functions_at)? {
            if place < at + 2 {
                return Some(if place == at { Role::Target(rule, function) } else { Role::Operation(rule, function) });
            }
            let end = at + 2 + takes(word(at + 1)?)?;
            if place < end {
                return Some(Role::Argument(rule, function));
            }
            at = end;
        }
    }
    Some(Role::End)
}

impl std::fmt::Display for Role {
    fn fmt(&self, f: &mut std::fmt::Formatter) -> std::fmt::Result {
        match self {
            Role::Symbols => write!(f, "the number of symbols, 1 to {}", limits::SYMBOLS),
            Role::Rules => write!(f, "the number of rules, 1 to {}", limits::RULES),
            Role::Start => write!(f, "the start symbol, below the number of symbols"),
            Role::Kind(x) => write!(f, "the kind of symbol {x}, 0 for a nonterminal or 1 for a terminal"),
            Role::Attributes(x) => write!(f, "the number of attributes of symbol {x}, 0 to {}", limits::ATTRIBUTES),
            Role::Mask(x) => write!(f, "the mask of symbol {x}, a bit for each inherited attribute and none beyond its attributes"),
            Role::Left(r) => write!(f, "the left side of rule {r}, below the number of symbols"),
            Role::Length(r) => write!(f, "the number of symbols on the right side of rule {r}, 0 to {}", limits::RIGHT),
            Role::Right(r, i) => write!(f, "the symbol at position {i} of rule {r}, below the number of symbols"),
            Role::Functions(r) => write!(f, "the number of functions of rule {r}, 0 to {}", limits::FUNCTIONS),
            Role::Target(r, n) => write!(f, "the target of function {n} of rule {r}, an occurrence"),
            Role::Operation(r, n) => write!(f, "the operation of function {n} of rule {r}, 0 to 8"),
            Role::Argument(r, n) => write!(f, "an argument of function {n} of rule {r}, an occurrence"),
            Role::End => write!(f, "behind the last rule"),
        }
    }
}
