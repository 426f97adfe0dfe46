//! Seeded numbers, seeded readable tables, and damage to texts, for the tests.
#![allow(dead_code)]

use std::fmt::Write as _;

/// A small generator of numbers (xorshift), so that a seed names a case for good.
pub struct Rng(u64);

impl Rng {
    pub fn new(seed: u64) -> Rng {
        let mut rng = Rng(seed.wrapping_mul(0x9e37_79b9_7f4a_7c15) ^ 0x5851_f42d_4c95_7f2d);
        for _ in 0..4 {
            rng.next();
        }
        rng
    }

    pub fn next(&mut self) -> u64 {
        let mut x = self.0 | 1;
        x ^= x << 13;
        x ^= x >> 7;
        x ^= x << 17;
        self.0 = x;
        x.wrapping_mul(0x2545_f491_4f6c_dd1d)
    }

    /// A number below n.
    pub fn below(&mut self, n: usize) -> usize {
        (self.next() >> 33) as usize % n.max(1)
    }

    /// True once in n.
    pub fn once_in(&mut self, n: usize) -> bool {
        self.below(n) == 0
    }

    pub fn pick<'a, T>(&mut self, items: &'a [T]) -> &'a T {
        &items[self.below(items.len())]
    }
}

struct Symbol {
    name: String,
    terminal: bool,
    /// Inherited or not, and the name.
    attributes: Vec<(bool, String)>,
}

const OPERATIONS: [(&str, usize); 9] =
    [("const", 1), ("copy", 1), ("sum", 2), ("difference", 2), ("larger", 2), ("smaller", 2), ("less", 2), ("choose", 3), ("served", 4)];

/// A readable table without a mistake. Many are accepted, some refused with 9 and some with 10.
pub fn table(rng: &mut Rng) -> String {
    let large = rng.once_in(60);
    let (most_symbols, most_rules, most_attributes, most_right) = if large { (32, 64, 8, 7) } else { (5, 6, 4, 3) };
    let count = 1 + rng.below(most_symbols);
    let mut symbols = vec![Symbol { name: "top".to_string(), terminal: false, attributes: attributes(rng, 2, false) }];
    for x in 1..count {
        let terminal = rng.once_in(4);
        symbols.push(Symbol {
            name: format!("{}{x}", rng.pick(&["x", "Line", "_", "sum", "s"])),
            terminal,
            attributes: attributes(rng, most_attributes, !terminal),
        });
    }
    let mut out = String::new();
    let start_first = rng.once_in(2);
    if start_first {
        out += "start top\n";
    }
    for symbol in &symbols {
        let _ = write!(out, "{} {}", if symbol.terminal { "terminal" } else { "nonterminal" }, symbol.name);
        for (inherited, name) in &symbol.attributes {
            let _ = write!(out, "{}{}.{name}", if rng.once_in(5) { "   " } else { " " }, if *inherited { 'i' } else { 's' });
        }
        out += if rng.once_in(10) { " # a comment\n" } else { "\n" };
    }
    if !start_first {
        out += "start top\n";
    }
    let nonterminals: Vec<usize> = (0..count).filter(|&x| !symbols[x].terminal).collect();
    // How often a function is a constant.
    let constants = rng.below(4);
    let kind = *rng.pick(&[Kind::Free, Kind::Crossed, Kind::Forward]);
    for r in 0..1 + rng.below(most_rules) {
        let left = if r < nonterminals.len() { nonterminals[r] } else { *rng.pick(&nonterminals) };
        let mut parts = vec![left];
        for _ in 0..rng.below(most_right + 1) {
            parts.push(rng.below(count));
        }
        rule(rng, &symbols, &parts, constants, kind, &mut out);
    }
    out
}

/// Where arguments come from.
#[derive(Clone, Copy, PartialEq, Eq)]
enum Kind {
    /// Anywhere: often circular.
    Free,
    /// Inherited attributes come from other children, synthesized ones seldom from anywhere: often not ordered.
    Crossed,
    /// From what a walk from left to right has by then: mostly accepted.
    Forward,
}

fn attributes(rng: &mut Rng, most: usize, inherits: bool) -> Vec<(bool, String)> {
    (0..rng.below(most + 1)).map(|a| (inherits && rng.once_in(2), format!("{}{a}", rng.pick(&["a", "priority", "i", "s"])))).collect()
}

fn rule(rng: &mut Rng, symbols: &[Symbol], parts: &[usize], constants: usize, kind: Kind, out: &mut String) {
    let names: Vec<&str> = parts.iter().map(|&x| symbols[x].name.as_str()).collect();
    let _ = writeln!(out, "{}rule {} = {}", if rng.once_in(3) { "\n" } else { "" }, names[0], names[1..].join(" "));
    let mut occurrences = Vec::new();
    let mut defining = Vec::new();
    for (i, &x) in parts.iter().enumerate() {
        for (inherited, attribute) in &symbols[x].attributes {
            let number = parts[..i].iter().filter(|&&y| y == x).count() + 1;
            let several = parts.iter().filter(|&&y| y == x).count() > 1;
            let name = if several || rng.once_in(5) {
                format!("{}#{number}.{attribute}", symbols[x].name)
            } else {
                format!("{}.{attribute}", symbols[x].name)
            };
            if *inherited == (i > 0) {
                defining.push((name.clone(), i));
            }
            occurrences.push((name, i, *inherited));
        }
    }
    for i in (1..defining.len()).rev() {
        defining.swap(i, rng.below(i + 1));
    }
    for (target, at) in &defining {
        let fits = |&&(_, i, inherited): &&(String, usize, bool)| match kind {
            Kind::Free => true,
            Kind::Crossed => i > 0 && i != *at && !inherited && *at > 0,
            Kind::Forward => i == 0 && inherited || i > 0 && !inherited && (i < *at || *at == 0),
        };
        let allowed: Vec<&String> = occurrences.iter().filter(fits).map(|o| &o.0).collect();
        let constant = allowed.is_empty() || rng.below(4) < constants;
        let (operation, takes) = if constant { OPERATIONS[0] } else { OPERATIONS[1 + rng.below(8)] };
        let _ = write!(out, "  {target} = {operation}");
        for _ in 0..takes {
            let _ = if constant { write!(out, " {}", rng.below(65_536) as i64 - 32_768) } else { write!(out, " {}", rng.pick(&allowed)) };
        }
        out.push('\n');
    }
}

/// Words that are often typed by mistake.
const SLIPS: [&str; 40] = [
    "abc",
    "TRUE",
    "0b101",
    "--5",
    "1,000",
    "1_000",
    "1.5",
    "40000",
    "-70000",
    "-0",
    "007",
    "#",
    "#1",
    "# rule top =",
    "rule",
    "start",
    "start top",
    "=",
    "==",
    "top",
    "top#1.a0",
    "top.a0",
    "s.a",
    "i.a",
    "x.y",
    ".",
    "..",
    "\t",
    "\r",
    "\r\n",
    "\n",
    "\0",
    "\u{feff}",
    "ö",
    "\u{a0}",
    "const",
    "served",
    "terminal x9 s.p",
    "nonterminal top",
    "99999999999999999999999",
];

/// A text with a few of its bytes, words or lines changed.
pub fn damaged(rng: &mut Rng, text: &str) -> Vec<u8> {
    let mut bytes = text.as_bytes().to_vec();
    for _ in 0..1 + rng.below(3) {
        let at = rng.below(bytes.len() + 1);
        match rng.below(9) {
            0 => bytes.truncate(at),
            1 => bytes.insert(at, rng.next() as u8),
            2 if at < bytes.len() => bytes[at] = rng.next() as u8,
            3 if at < bytes.len() => drop(bytes.remove(at)),
            4 => {
                let slip = rng.pick(&SLIPS).bytes();
                bytes.splice(at..at, slip);
            }
            5 => bytes = of_lines(rng, &bytes, |rng, lines| drop(lines.remove(rng.below(lines.len())))),
            6 => {
                bytes = of_lines(rng, &bytes, |rng, lines| {
                    let line = rng.pick(lines).clone();
                    lines.insert(rng.below(lines.len()), line);
                })
            }
            7 => {
                bytes = of_lines(rng, &bytes, |rng, lines| {
                    let at = rng.below(lines.len());
                    lines.swap(at, 0);
                })
            }
            _ => bytes = of_words(rng, &bytes),
        }
    }
    bytes
}

fn of_lines(rng: &mut Rng, bytes: &[u8], change: impl Fn(&mut Rng, &mut Vec<Vec<u8>>)) -> Vec<u8> {
    let mut lines: Vec<Vec<u8>> = bytes.split(|&b| b == b'\n').map(<[u8]>::to_vec).collect();
    change(rng, &mut lines);
    lines.join(&b'\n')
}

/// One word becomes another: a slip, or a word of the same text.
fn of_words(rng: &mut Rng, bytes: &[u8]) -> Vec<u8> {
    let mut words: Vec<Vec<u8>> = bytes.split(|&b| b == b' ').map(<[u8]>::to_vec).collect();
    let other = if rng.once_in(2) { rng.pick(&SLIPS).as_bytes().to_vec() } else { rng.pick(&words).clone() };
    let at = rng.below(words.len());
    words[at] = other;
    words.join(&b' ')
}

/// Bytes with no meaning.
pub fn noise(rng: &mut Rng) -> Vec<u8> {
    let kind = rng.below(3);
    let mut out = Vec::new();
    for _ in 0..rng.below(120) {
        match kind {
            0 => out.push(rng.next() as u8),
            1 => out.push(b' ' + rng.below(95) as u8),
            _ => {
                out.extend(rng.pick(&SLIPS).bytes());
                out.push(*rng.pick(b" \n "));
            }
        }
    }
    out
}
