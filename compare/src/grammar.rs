//! The grammar table: reading it, with refusals 1 to 7.

use crate::Refusal;

/// One word for each occurrence of a rule. While planning, bit a of word b says that a comes before b: a function's arguments are then one word.
pub type Before = [u64; 64];

#[derive(Clone, Copy, Default)]
pub struct Symbol {
    pub terminal: bool,
    /// Its attributes, and the inherited ones, as bits.
    pub attributes: u8,
    pub inherited: u8,
    /// The rules in which it stands, as bits.
    pub rules: u64,
}

#[derive(Clone, Copy)]
pub struct Rule {
    /// The left side, then the right side; so many of the eight are used.
    pub symbols: [u8; 8],
    pub positions: usize,
    /// Occurrences that the rule defines; those that have arguments; and the arguments: as bits.
    pub defining: u64,
    pub heads: u64,
    pub tails: u64,
    /// The index of the first function's word, and how many functions there are.
    pub functions: usize,
    pub count: usize,
}

impl Rule {
    /// Each position with its symbol.
    pub fn places(&self) -> impl Iterator<Item = (usize, usize)> + '_ {
        self.symbols[..self.positions].iter().map(|&x| x as usize).enumerate()
    }
}

pub struct Grammar {
    pub start: usize,
    /// So many of the 32 are used.
    pub symbols: [Symbol; 32],
    pub count: usize,
    pub rules: Vec<Rule>,
    /// DP: the arguments of each rule's functions, by target.
    pub arguments: Vec<Before>,
}

/// How many words follow an operation.
pub fn arity(op: usize) -> usize {
    match op {
        0 | 1 => 1,
        2..=6 => 2,
        7 => 3,
        _ => 4,
    }
}

struct Reader<'a> {
    words: &'a [u16],
    at: usize,
}

impl Reader<'_> {
    fn word(&mut self) -> Result<usize, Refusal> {
        let w = *self.words.get(self.at).ok_or(Refusal::at(1, self.at))?;
        self.at += 1;
        Ok(w as usize)
    }

    /// The next word, if it is in a range; 2 at it otherwise.
    fn within(&mut self, low: usize, high: usize) -> Result<usize, Refusal> {
        let w = self.word()?;
        if w < low || w > high {
            return Err(Refusal::at(2, self.at - 1));
        }
        Ok(w)
    }
}

/// A function by its target, arguments as bits, and number of words.
type Function = (usize, u64, usize);

/// A function whose six words are there and right, with `open` still to be defined; none where it needs a closer look. The last of a table may be
/// shorter than six words.
#[inline(always)]
fn whole(f: &[u16; 6], open: u64, occurrences: u64) -> Option<Function> {
    let target = f[0] as usize;
    if target > 63 || open >> target & 1 == 0 {
        return None;
    }
    let (high, arguments, length) = match f[1] {
        0 => (0, 0, 3),
        1 => (f[2], bit(f[2]), 3),
        2..=6 => (f[2] | f[3], bit(f[2]) | bit(f[3]), 4),
        7 => (f[2] | f[3] | f[4], bit(f[2]) | bit(f[3]) | bit(f[4]), 5),
        8 => (f[2] | f[3] | f[4] | f[5], bit(f[2]) | bit(f[3]) | bit(f[4]) | bit(f[5]), 6),
        _ => return None,
    };
    (high < 64 && arguments & !occurrences == 0).then_some((target, arguments, length))
}

fn bit(word: u16) -> u64 {
    1 << (word & 63)
}

/// A function word by word: the first fault, if there is one.
#[cold]
fn word_by_word(words: &[u16], at: usize, open: u64, occurrences: u64) -> Result<Function, Refusal> {
    let mut r = Reader { words, at };
    let occurs = |o: usize| o < 64 && occurrences >> o & 1 == 1;
    let target = r.word()?;
    if !occurs(target) {
        return Err(Refusal::at(4, at));
    }
    if open >> target & 1 == 0 {
        return Err(Refusal::at(5, at));
    }
    let op = r.within(0, 8)?;
    let mut arguments = 0;
    for _ in 0..arity(op) {
        let w = r.word()?;
        if op != 0 {
            if !occurs(w) {
                return Err(Refusal::at(4, r.at - 1));
            }
            arguments |= 1 << w;
        }
    }
    Ok((target, arguments, r.at - at))
}

/// What the functions of a rule come to.
struct Functions {
    /// The index of the word after them.
    end: usize,
    /// What should be defined and is not.
    open: u64,
    heads: u64,
    tails: u64,
}

/// Reads so many functions. Not inlined, so that what it counts stays in registers.
#[inline(never)]
fn read_functions(words: &[u16], start: usize, count: usize, defining: u64, occurrences: u64, by_target: &mut Before) -> Result<Functions, Refusal> {
    let mut read = Functions { end: start, open: defining, heads: 0, tails: 0 };
    for _ in 0..count {
        let (target, arguments, length) = match words[read.end..].first_chunk().and_then(|f| whole(f, read.open, occurrences)) {
            Some(f) => f,
            None => word_by_word(words, read.end, read.open, occurrences)?,
        };
        by_target[target] = arguments;
        read.heads |= ((arguments != 0) as u64) << target;
        read.tails |= arguments;
        read.open &= !(1 << target);
        read.end += length;
    }
    Ok(read)
}

impl Grammar {
    pub fn read(words: &[u16]) -> Result<Grammar, Refusal> {
        let mut r = Reader { words, at: 0 };
        let count = r.within(1, 32)?;
        let rules = r.within(1, 64)?;
        let start = r.within(0, count - 1)?;
        let mut symbols = [Symbol::default(); 32];
        for symbol in &mut symbols[..count] {
            let terminal = r.within(0, 1)? == 1;
            let all = (1 << r.within(0, 8)?) - 1;
            let inherited = r.within(0, all)? as u8;
            if terminal && inherited != 0 {
                return Err(Refusal::at(3, r.at - 1));
            }
            *symbol = Symbol { terminal, attributes: all as u8, inherited, rules: 0 };
        }
        if symbols[start].terminal || symbols[start].inherited != 0 {
            return Err(Refusal::at(3, 2));
        }
        let mut g = Grammar { start, symbols, count, rules: Vec::with_capacity(rules), arguments: vec![[0; 64]; rules] };
        let mut missing = false;
        for number in 0..rules {
            let at = r.at;
            let left = r.within(0, count - 1)?;
            if g.symbols[left].terminal {
                return Err(Refusal::at(3, at));
            }
            if missing {
                return Err(Refusal::at(6, at));
            }
            missing = g.rule(&mut r, number, left)? != 0;
        }
        if missing {
            return Err(Refusal::at(6, r.at));
        }
        if r.at < words.len() {
            return Err(Refusal::at(7, r.at));
        }
        Ok(g)
    }

    /// Reads a rule from its length on; gives what it should define and does not.
    fn rule(&mut self, r: &mut Reader, number: usize, left: usize) -> Result<u64, Refusal> {
        let positions = 1 + r.within(0, 7)?;
        let mut symbols = [left as u8; 8];
        let Symbol { attributes, inherited, .. } = self.symbols[left];
        let (mut occurrences, mut defining) = (attributes as u64, (attributes & !inherited) as u64);
        self.symbols[left].rules |= 1 << number;
        for (i, part) in symbols.iter_mut().enumerate().take(positions).skip(1) {
            let x = r.within(0, self.count - 1)?;
            *part = x as u8;
            let symbol = &mut self.symbols[x];
            occurrences |= (symbol.attributes as u64) << (8 * i);
            defining |= (symbol.inherited as u64) << (8 * i);
            symbol.rules |= 1 << number;
        }
        let count = r.within(0, 64)?;
        let functions = r.at;
        let read = read_functions(r.words, functions, count, defining, occurrences, &mut self.arguments[number])?;
        r.at = read.end;
        self.rules.push(Rule { symbols, positions, defining, heads: read.heads, tails: read.tails, functions, count });
        Ok(read.open)
    }
}
