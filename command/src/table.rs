//! A table taken apart from its words alone. The reader of the readable form has no part in it.

use crate::limits;

#[derive(Debug)]
pub struct Table {
    pub start: usize,
    pub symbols: Vec<Symbol>,
    pub rules: Vec<Rule>,
}

#[derive(Debug)]
pub struct Symbol {
    pub terminal: bool,
    pub attributes: usize,
    /// Bit a: attribute a is inherited.
    mask: u16,
}

#[derive(Debug)]
pub struct Rule {
    /// The left side, then the right side.
    pub symbols: Vec<usize>,
    pub functions: Vec<Function>,
    /// The word where it begins.
    pub at: usize,
}

#[derive(Debug)]
pub struct Function {
    pub target: usize,
    pub operation: usize,
    /// Occurrences, or the constant word of operation 0.
    pub arguments: Vec<u16>,
    /// The word where it begins.
    pub at: usize,
}

/// How many arguments each operation takes, by its number.
const TAKES: [usize; 9] = [1, 1, 2, 2, 2, 2, 2, 3, 4];
const CONSTANT: usize = 0;

pub fn takes(operation: usize) -> Option<usize> {
    TAKES.get(operation).copied()
}

impl Symbol {
    pub fn inherited(&self, attribute: usize) -> bool {
        self.mask >> attribute & 1 == 1
    }
}

impl Function {
    /// The occurrences that it depends on.
    pub fn occurrences(&self) -> impl Iterator<Item = usize> + '_ {
        let from = if self.operation == CONSTANT { self.arguments.len() } else { 0 };
        self.arguments[from..].iter().map(|&o| o as usize)
    }
}

impl Rule {
    /// Every occurrence of an attribute, as position and attribute.
    pub fn occurrences<'a>(&'a self, table: &'a Table) -> impl Iterator<Item = (usize, usize)> + 'a {
        self.symbols.iter().enumerate().flat_map(|(i, &x)| (0..table.symbols[x].attributes).map(move |a| (i, a)))
    }
}

/// The number of an attribute at a position.
pub fn occurrence(position: usize, attribute: usize) -> usize {
    limits::ATTRIBUTES * position + attribute
}

/// The position and the attribute of an occurrence.
pub fn place(occurrence: usize) -> (usize, usize) {
    (occurrence / limits::ATTRIBUTES, occurrence % limits::ATTRIBUTES)
}

struct Words<'a> {
    words: &'a [u16],
    at: usize,
}

impl Words<'_> {
    fn next(&mut self) -> Option<usize> {
        let word = *self.words.get(self.at)?;
        self.at += 1;
        Some(word as usize)
    }

    /// The next word, if it is below some number.
    fn below(&mut self, end: usize) -> Option<usize> {
        self.next().filter(|&word| word < end)
    }
}

impl Table {
    /// The parts of words that the proved reader has found good. Nothing where they are not a table.
    pub fn of(words: &[u16]) -> Option<Table> {
        let mut table = Table { start: 0, symbols: Vec::new(), rules: Vec::new() };
        table.read(words)?;
        Some(table)
    }

    /// As many parts as the words have before something is wrong with them; the last rule may lack functions.
    pub fn begun(words: &[u16]) -> Table {
        let mut table = Table { start: 0, symbols: Vec::new(), rules: Vec::new() };
        let _ = table.read(words);
        table
    }

    fn read(&mut self, words: &[u16]) -> Option<()> {
        let mut from = Words { words, at: 0 };
        let (symbols, rules) = (from.below(limits::SYMBOLS + 1)?, from.below(limits::RULES + 1)?);
        self.start = from.below(symbols)?;
        for _ in 0..symbols {
            let (terminal, attributes) = (from.below(2)? == 1, from.below(limits::ATTRIBUTES + 1)?);
            self.symbols.push(Symbol { terminal, attributes, mask: from.below(1 << attributes)? as u16 });
        }
        for _ in 0..rules {
            self.rule(&mut from)?;
        }
        Some(())
    }

    fn rule(&mut self, from: &mut Words) -> Option<()> {
        let at = from.at;
        let mut symbols = vec![from.below(self.symbols.len())?];
        for _ in 0..from.below(limits::RIGHT + 1)? {
            symbols.push(from.below(self.symbols.len())?);
        }
        let number = self.rules.len();
        self.rules.push(Rule { symbols, functions: Vec::new(), at });
        for _ in 0..from.below(limits::FUNCTIONS + 1)? {
            let function = self.function(&self.rules[number], from)?;
            self.rules[number].functions.push(function);
        }
        Some(())
    }

    fn function(&self, rule: &Rule, from: &mut Words) -> Option<Function> {
        let at = from.at;
        let target = from.next().filter(|&o| self.occurs(rule, o))?;
        let operation = from.below(TAKES.len())?;
        let mut arguments = Vec::new();
        for _ in 0..TAKES[operation] {
            let argument = from.next().filter(|&o| operation == CONSTANT || self.occurs(rule, o))?;
            arguments.push(argument as u16);
        }
        Some(Function { target, operation, arguments, at })
    }

    /// Whether a number is an occurrence of the rule.
    pub fn occurs(&self, rule: &Rule, number: usize) -> bool {
        let (position, attribute) = place(number);
        rule.symbols.get(position).is_some_and(|&x| attribute < self.symbols[x].attributes)
    }

    /// Whether an occurrence is for its rule to define.
    pub fn defining(&self, rule: &Rule, number: usize) -> bool {
        let (position, attribute) = place(number);
        self.symbols[rule.symbols[position]].inherited(attribute) == (position > 0)
    }
}
