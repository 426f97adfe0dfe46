//! Seeded random cases: tables of many kinds, whole and damaged, lent buffers around their limits, trees valid and damaged, budgets.

use crate::grammar::{arity, Grammar};

/// Document 01's table G.
pub const G: [u16; 48] = [
    3, 3, 0, 0, 1, 0, 0, 3, 2, 1, 1, 0, 0, 1, 1, 2, 0, 1, 10, 9, 1, 8, 1, 2, 2, 1, 3, 0, 4, 8, 16, 17, 1, 1, 2, 1, 18, 1, 1, 2, 2,
    0, 1, 8, 2, 6, 8, 1,
];

/// G's tree of so many lines: 1 + 2 nodes a line.
pub fn lines(count: usize) -> Vec<u16> {
    let mut out = vec![0, 1, 0, 0, 0, 0, 0, 0];
    for k in 1..=count {
        let n = (2 * k) as u16;
        out.extend(if k < count { [1, n, n + 1, 0, 0, 0, 0, 0] } else { [2, n, 0, 0, 0, 0, 0, 0] });
        out.extend([32770, 0, 0, 0, 0, 0, 0, 0]);
    }
    out
}

/// A small generator of numbers (xorshift), so that a seed names a case for good.
pub struct Rng(u64);

impl Rng {
    pub fn new(seed: u64) -> Self {
        let mut rng = Rng(seed.wrapping_mul(0x9e37_79b9_7f4a_7c15) ^ 0x1234_5678_9abc_def1);
        for _ in 0..4 {
            rng.next();
        }
        rng
    }

    pub fn next(&mut self) -> u64 {
        let mut x = self.0 | 1;
        x ^= x << 13;
        x ^= x >> 7;
        x ^= x << 17;
        self.0 = x;
        x.wrapping_mul(0x2545_f491_4f6c_dd1d)
    }

    /// A number below n.
    pub fn below(&mut self, n: usize) -> usize {
        ((self.next() >> 33) as usize) % n.max(1)
    }

    pub fn between(&mut self, low: usize, high: usize) -> usize {
        low + self.below(high - low + 1)
    }

    /// True once in n.
    pub fn once_in(&mut self, n: usize) -> bool {
        self.below(n) == 0
    }

    pub fn pick<'a, T>(&mut self, items: &'a [T]) -> &'a T {
        &items[self.below(items.len())]
    }
}

#[derive(Clone)]
pub struct Function {
    pub target: usize,
    pub op: usize,
    pub args: Vec<u16>,
}

#[derive(Clone)]
pub struct Rule {
    pub symbols: Vec<usize>,
    pub functions: Vec<Function>,
}

/// A table by its parts, before it is laid out as words.
#[derive(Clone)]
pub struct Table {
    pub start: usize,
    /// Kind, attribute count, mask.
    pub symbols: Vec<(usize, usize, usize)>,
    pub rules: Vec<Rule>,
}

impl Table {
    /// The parts of words that can be read, else none.
    pub fn read(words: &[u16]) -> Option<Table> {
        Grammar::read(words).ok()?;
        let mut rest = words.iter().map(|&w| w as usize);
        let mut next = || rest.next().unwrap();
        let (count, rules, start) = (next(), next(), next());
        let symbols = (0..count).map(|_| (next(), next(), next())).collect();
        let rules = (0..rules)
            .map(|_| {
                let (left, right) = (next(), next());
                let symbols = std::iter::once(left).chain((0..right).map(|_| next())).collect();
                let functions = (0..next())
                    .map(|_| {
                        let (target, op) = (next(), next());
                        Function { target, op, args: (0..arity(op)).map(|_| next() as u16).collect() }
                    })
                    .collect();
                Rule { symbols, functions }
            })
            .collect();
        Some(Table { start, symbols, rules })
    }

    /// Whether each symbol stands in some tree of the start symbol.
    pub fn reduced(&self) -> bool {
        let mut ends: Vec<bool> = self.symbols.iter().map(|s| s.0 == 1).collect();
        let mut used = vec![false; self.symbols.len()];
        used[self.start] = true;
        for _ in 0..self.symbols.len() {
            for rule in &self.rules {
                let (left, right) = (rule.symbols[0], &rule.symbols[1..]);
                ends[left] |= right.iter().all(|&x| ends[x]);
                if used[left] {
                    right.iter().for_each(|&x| used[x] = true);
                }
            }
        }
        ends.iter().zip(&used).all(|(&e, &u)| e && u)
    }

    pub fn words(&self) -> Vec<u16> {
        let mut out = vec![self.symbols.len() as u16, self.rules.len() as u16, self.start as u16];
        for &(kind, count, mask) in &self.symbols {
            out.extend([kind as u16, count as u16, mask as u16]);
        }
        for rule in &self.rules {
            out.push(rule.symbols[0] as u16);
            out.push(rule.symbols.len() as u16 - 1);
            out.extend(rule.symbols[1..].iter().map(|&x| x as u16));
            out.push(rule.functions.len() as u16);
            for f in &rule.functions {
                out.extend([f.target as u16, f.op as u16]);
                out.extend(&f.args);
            }
        }
        out
    }
}

/// How large and how entangled a random table may be.
struct Shape {
    symbols: usize,
    rules: usize,
    attributes: usize,
    right: usize,
    /// Arguments are drawn only from earlier positions and lower attributes, once in so many.
    tame: usize,
    /// Each attribute has a phase, and arguments are of lower phases: seldom cyclic, often several visits.
    layered: bool,
}

fn shape(rng: &mut Rng) -> Shape {
    let layered = rng.once_in(3);
    match rng.below(40) {
        0 => Shape { symbols: 32, rules: 64, attributes: 8, right: 7, tame: 1, layered },
        1 | 2 => Shape { symbols: 8, rules: 20, attributes: 8, right: 7, tame: 1, layered },
        3..=5 => Shape { symbols: 5, rules: 8, attributes: 6, right: 4, tame: 1, layered },
        6..=11 => Shape { symbols: 2, rules: 3, attributes: 3, right: 2, tame: 2, layered },
        12..=17 => Shape { symbols: 4, rules: 5, attributes: 4, right: 3, tame: 2, layered },
        18..=20 => Shape { symbols: 3, rules: 4, attributes: 8, right: 3, tame: 1, layered: true },
        _ => Shape { symbols: 4, rules: 5, attributes: 4, right: 3, tame: 1, layered },
    }
}

/// Two occurrences of a nonterminal that copy from each other, with more rules around: often no cycle of IDP and one of EDP.
fn crossed(rng: &mut Rng) -> Table {
    let copy = |target: usize, from: usize| Function { target, op: 1, args: vec![from as u16] };
    let constant = |target: usize| Function { target, op: 0, args: vec![7] };
    let s = rng.below(2);
    let i = 1 - s;
    let symbols = vec![(0, 1, 0), (0, 2, 1 << i)];
    let mut rules = vec![Rule {
        symbols: vec![0, 1, 1],
        functions: vec![copy(0, 8 + s), copy(8 + i, 16 + s), if rng.once_in(3) { constant(16 + i) } else { copy(16 + i, 8 + s) }],
    }];
    rules.push(Rule { symbols: vec![1], functions: vec![if rng.once_in(4) { copy(s, i) } else { constant(s) }] });
    if rng.once_in(2) {
        rules.push(Rule { symbols: vec![1, 1], functions: vec![copy(s, 8 + s), copy(8 + i, i)] });
    }
    Table { start: 0, symbols, rules }
}

pub fn table(rng: &mut Rng) -> Table {
    if rng.once_in(20) {
        return crossed(rng);
    }
    let shape = shape(rng);
    let count = rng.between(1, shape.symbols);
    // A chain: the attributes alternate between the classes and depend on each other in order, up to five visits.
    let chain = shape.layered && rng.once_in(2);
    let odd = rng.below(2);
    let mut symbols = vec![(0, rng.below(shape.attributes.min(3) + 1), 0)];
    for _ in 1..count {
        let attributes = rng.below(shape.attributes + 1);
        if rng.once_in(4) {
            symbols.push((1, attributes, 0));
        } else {
            let mask = if chain { 0x55 << odd } else { rng.next() as usize };
            symbols.push((0, attributes, mask & ((1 << attributes) - 1)));
        }
    }
    let nonterminals: Vec<usize> = (0..count).filter(|&x| symbols[x].0 == 0).collect();
    let number = if rng.once_in(3) { shape.rules } else { rng.between(nonterminals.len().min(shape.rules), shape.rules) };
    // Elsewhere the phases of the two classes are even and odd.
    let mut phase = |a: usize, mask: usize| if chain { a } else { 2 * rng.below(5) + (mask >> a & 1 == odd) as usize };
    let phases: Vec<Vec<usize>> = symbols.iter().map(|s| (0..s.1).map(|a| phase(a, s.2)).collect()).collect();
    let sparse = rng.below(4);
    let mut rules = Vec::with_capacity(number);
    for r in 0..number {
        let left = if r < nonterminals.len() { nonterminals[r] } else { *rng.pick(&nonterminals) };
        let n = if rng.once_in(3) { 0 } else { rng.below(shape.right + 1) };
        let mut parts = vec![left];
        for _ in 0..n {
            parts.push(rng.below(count));
        }
        let phases = shape.layered.then_some(&phases[..]);
        rules.push(rule(rng, &symbols, parts, shape.tame, sparse, phases));
    }
    Table { start: 0, symbols, rules }
}

fn rule(
    rng: &mut Rng,
    symbols: &[(usize, usize, usize)],
    parts: Vec<usize>,
    tame: usize,
    sparse: usize,
    phases: Option<&[Vec<usize>]>,
) -> Rule {
    let mut occurrences = Vec::new();
    let mut defining = Vec::new();
    for (i, &x) in parts.iter().enumerate() {
        for a in 0..symbols[x].1 {
            occurrences.push(8 * i + a);
            if (symbols[x].2 >> a & 1 == 1) == (i > 0) {
                defining.push(8 * i + a);
            }
        }
    }
    // The functions stand in any order.
    for i in (1..defining.len()).rev() {
        defining.swap(i, rng.below(i + 1));
    }
    let mut functions = Vec::with_capacity(defining.len());
    for &target in &defining {
        let allowed: Vec<usize> = if let Some(phases) = phases {
            let phase = |o: usize| phases[parts[o / 8]][o % 8];
            occurrences.iter().copied().filter(|&o| phase(o) < phase(target)).collect()
        } else if rng.once_in(tame) {
            // Only what a walk from left to right has by then: mostly ordered.
            let rank = |o: usize| if symbols[parts[o / 8]].2 >> (o % 8) & 1 == 1 && o < 8 { 0 } else { 1 + o };
            let goal = if target < 8 { 1000 + target } else { 1 + target };
            occurrences.iter().copied().filter(|&o| if o < 8 && symbols[parts[0]].2 >> o & 1 == 0 { 1000 + o < goal } else { rank(o) < goal }).collect()
        } else {
            occurrences.clone()
        };
        let constant = allowed.is_empty() || rng.below(4) < sparse;
        let op = if constant { 0 } else { rng.between(1, 8) };
        let argument = |rng: &mut Rng| {
            let (a, b) = (*rng.pick(&allowed), *rng.pick(&allowed));
            // The later of two makes longer chains.
            let phase = |o: usize| phases.map_or(0, |p| p[parts[o / 8]][o % 8]);
            if phase(a) < phase(b) { b } else { a }
        };
        let args = (0..arity(op))
            .map(|_| if op == 0 { if rng.once_in(2) { rng.below(10) as u16 } else { rng.next() as u16 } } else { argument(rng) as u16 })
            .collect();
        functions.push(Function { target, op, args });
    }
    Rule { symbols: parts, functions }
}

/// The longest ordered table, 25,123 words: every occurrence of 64 rules of length 7 is defined, all but one of a rule by four arguments.
pub fn longest() -> Table {
    let mut symbols = vec![(0, 8, 0), (0, 8, 255)];
    symbols.resize(32, (1, 0, 0));
    let order: Vec<usize> = (8..64).chain(0..8).collect();
    let functions = (0..64)
        .map(|k| {
            let args = if k == 0 { vec![0] } else { [k - 1, k / 2, k / 3, k * 3 / 4].iter().map(|&j| order[j.min(k - 1)] as u16).collect() };
            Function { target: order[k], op: if k == 0 { 0 } else { 8 }, args }
        })
        .collect();
    let rule = Rule { symbols: vec![0, 1, 1, 1, 1, 1, 1, 1], functions };
    Table { start: 0, symbols, rules: vec![rule; 64] }
}

/// The longest table that can be read, 25,315 words: the one above with four arguments everywhere, and so a cycle in each rule.
pub fn longest_cyclic() -> Table {
    let mut t = longest();
    t.rules.iter_mut().for_each(|r| (r.functions[0].op, r.functions[0].args) = (8, vec![9; 4]));
    t
}

/// A function of all these arguments, of four at most.
fn function(target: usize, from: &[usize]) -> Function {
    let from = &from[..from.len().min(4)];
    let op = [0, 1, 2, 7, 8][from.len()];
    let args = if op == 0 { vec![target as u16] } else { from.iter().map(|&a| a as u16).collect() };
    Function { target, op, args }
}

/// An ordered table whose induced arcs need 92 passes over the rules in their order: in each of three pairs of attributes (synthesized p, inherited 3 + p) the arc
/// climbs a chain of 31 symbols, a rule a pass since the rules stand from the top to the bottom; and what arrives at the top is what the next pair
/// starts from at the bottom. Each rule has its one child so many times.
pub fn many_rounds(right: usize) -> Table {
    const CHAIN: usize = 31;
    let (s, i) = (|p: usize| p, |p: usize| 3 + p);
    let mut symbols = vec![(0, 1, 0)];
    symbols.resize(1 + CHAIN, (0, 6, 0b11_1000));
    // A rule by what each synthesized attribute of its left side has of its children, and each inherited one of its children of the left side.
    let rule = |left: usize, child: usize, up: &dyn Fn(usize) -> Option<usize>, down: &dyn Fn(usize) -> Option<usize>| {
        let places: Vec<usize> = (1..=right).map(|k| 8 * k).collect();
        let mut functions = Vec::new();
        for p in 0..3 {
            functions.push(function(s(p), &up(p).map_or(vec![], |q| places.iter().map(|at| at + s(q)).collect::<Vec<_>>())));
            functions.extend(places.iter().map(|at| function(at + i(p), &down(p).map_or(vec![], |q| vec![i(q)]))));
        }
        Rule { symbols: [vec![left], vec![child; right]].concat(), functions }
    };
    let top = Rule { symbols: vec![0, 1], functions: [vec![function(0, &[8])], (3..6).map(|a| function(8 + a, &[])).collect()].concat() };
    let bottom = Rule { symbols: vec![CHAIN], functions: vec![function(s(0), &[i(0)]), function(s(1), &[]), function(s(2), &[])] };
    let mut rules = vec![top];
    rules.extend((1..CHAIN).map(|x| rule(x, x + 1, &Some, &Some)));
    rules.push(bottom);
    rules.push(rule(CHAIN, 1, &|p| p.checked_sub(1), &|p| (p < 2).then_some(p + 1)));
    Table { start: 0, symbols, rules }
}

/// A table at full size that is not ordered, though no IDP has a cycle: in each of 64 rules of length 7, each child's inherited attributes want the next
/// child's synthesized ones, and the last child's the first's.
pub fn crossed_at_full_size() -> Table {
    let rule = |left: usize| {
        let mut functions: Vec<Function> = (0..if left == 0 { 1 } else { 4 }).map(|a| function(a, &[8, 16, 24, 32].map(|at| at + a))).collect();
        for k in 1..8 {
            let next = 8 * (k % 7 + 1);
            functions.extend((4..8).map(|a| function(8 * k + a, &[next, next + 1, next + 2, next + 3])));
        }
        Rule { symbols: [vec![left], vec![1; 7]].concat(), functions }
    };
    let mut rules = vec![rule(0)];
    rules.resize(63, rule(1));
    rules.push(Rule { symbols: vec![1], functions: (0..4).map(|a| function(a, &[])).collect() });
    Table { start: 0, symbols: vec![(0, 1, 0), (0, 8, 0xf0)], rules }
}

/// A dense ordered table of 64 rules of length 7 with 8 attributes a symbol, every function with as many arguments as there are up to four. They are
/// drawn from what comes before in one walk from left to right; or, with phases, from lower attributes, which alternate between the classes.
pub fn dense(phases: bool, seed: u64) -> Table {
    let mut rng = Rng::new(seed);
    // With few symbols their phases show in IDS, and the table is ordered.
    let count = if phases { 4 } else { 32 };
    let symbols: Vec<(usize, usize, usize)> = (0..count).map(|x| (0, 8, if x == 0 { 0 } else if phases { 0xaa } else { 0xf0 })).collect();
    let rules = (0..64)
        .map(|r| {
            let parts: Vec<usize> = std::iter::once(r % count).chain((0..7).map(|_| rng.between(1, count - 1))).collect();
            // When an occurrence comes: by phase and then by place, the left side's synthesized ones after those of the children.
            let class = |o: usize| symbols[parts[o / 8]].2 >> (o % 8) & 1;
            let place = |o: usize| if o < 8 && class(o) == 0 { 8 } else { o / 8 };
            let when = |o: usize| if phases { (o % 8, place(o), 0) } else { (0, place(o), 1 - class(o)) };
            let all: Vec<usize> = (0..8 * parts.len()).collect();
            let mut functions = Vec::new();
            for &target in all.iter().filter(|&&o| (class(o) == 1) == (o >= 8)) {
                let mut from: Vec<usize> = all.iter().copied().filter(|&o| when(o) < when(target)).collect();
                (1..from.len()).rev().for_each(|k| from.swap(k, rng.below(k + 1)));
                functions.push(function(target, &from));
            }
            Rule { symbols: parts, functions }
        })
        .collect();
    Table { start: 0, symbols, rules }
}

/// Rules of one length over a nonterminal whose eight attributes take five visits: synthesized at even places, inherited at odd ones, each from the
/// one before. Its children go through the visits side by side. The last rule ends a tree, the one before it continues with one child.
pub fn five_visits(rules: usize, right: usize, attributes: usize) -> Table {
    let mask = 0xaa & ((1 << attributes) - 1);
    let symbols = vec![(0, 1, 0), (0, attributes, mask)];
    let rule = |left: usize, n: usize| {
        let mut functions = Vec::new();
        for a in 0..attributes {
            // Attribute a of the left side and of each child, from what the phase before has.
            let places: Vec<usize> = (1..=n).map(|i| 8 * i).collect();
            if a % 2 == 1 {
                for &p in &places {
                    let mut from: Vec<usize> = if left == 1 { vec![a] } else { vec![] };
                    from.extend(places.iter().map(|q| q + a - 1));
                    functions.push(function(p + a, &from));
                }
            } else if left == 1 {
                let mut from: Vec<usize> = places.iter().map(|q| q + a).collect();
                if a > 0 {
                    from.insert(0, a - 1);
                }
                functions.push(function(a, &from));
            }
        }
        if left == 0 {
            let last = attributes - 1 - (attributes - 1) % 2;
            functions.push(function(0, &[8 + last]));
        }
        Rule { symbols: [vec![left], vec![1; n]].concat(), functions }
    };
    let mut all = vec![rule(0, 1)];
    all.resize_with(rules.saturating_sub(2).max(1), || rule(1, right));
    if rules > 2 {
        all.push(rule(1, 1));
    }
    if rules > 1 {
        all.push(rule(1, 0));
    }
    Table { start: 0, symbols, rules: all }
}

/// A tree of such a table, level by level: rule 0 at the root, rule 1 with `right` children while so many nodes are left, then the rule with one, then the last.
pub fn five_visits_tree(nodes: usize, rules: usize, right: usize) -> Vec<u16> {
    let (one, none) = (rules as u16 - 2, rules as u16 - 1);
    let mut out = vec![0; 8 * nodes];
    out[1] = 1;
    let mut next = 2;
    for n in 1..nodes {
        let children = if nodes - next >= right { right } else { (nodes - next).min(1) };
        out[8 * n] = match children {
            0 => none,
            1 => one,
            _ => 1,
        };
        for i in 1..=children {
            out[8 * n + i] = next as u16;
            next += 1;
        }
    }
    out
}

/// A whole input: a table, lent buffers with garbage in them, a tree with values, and a budget.
#[derive(Clone, PartialEq)]
pub struct Case {
    pub words: Vec<u16>,
    pub rows: Vec<u64>,
    pub plan: Vec<u16>,
    pub tree: Vec<u16>,
    pub values: Vec<i32>,
    pub budget: u32,
}

/// A derivation tree of the table, or none where no finite one is found near the limit of nodes.
pub fn tree(rng: &mut Rng, t: &Table, most: usize) -> Option<Vec<u16>> {
    // The least height of a finite tree of each symbol.
    let mut height = vec![usize::MAX; t.symbols.len()];
    for (x, s) in t.symbols.iter().enumerate() {
        if s.0 == 1 {
            height[x] = 0;
        }
    }
    for _ in 0..t.symbols.len() {
        for rule in &t.rules {
            let below = rule.symbols[1..].iter().map(|&x| height[x]).max().unwrap_or(0);
            if below != usize::MAX {
                height[rule.symbols[0]] = height[rule.symbols[0]].min(below + 1);
            }
        }
    }
    let tall = |rule: &Rule| rule.symbols[1..].iter().map(|&x| height[x]).max().unwrap_or(0);
    let mut out: Vec<u16> = Vec::new();
    // Nodes to be laid out: their symbol, and the slot that names them.
    let mut open: Vec<(usize, usize)> = vec![(t.start, usize::MAX)];
    while !open.is_empty() {
        let at = if rng.once_in(2) { open.len() - 1 } else { rng.below(open.len()) };
        let (x, slot) = open.swap_remove(at);
        let n = out.len() / 8;
        if n >= most {
            return None;
        }
        if slot != usize::MAX {
            out[slot] = n as u16;
        }
        if t.symbols[x].0 == 1 {
            out.extend([32768 + x as u16, 0, 0, 0, 0, 0, 0, 0]);
            continue;
        }
        let fitting: Vec<usize> = (0..t.rules.len()).filter(|&r| t.rules[r].symbols[0] == x && tall(&t.rules[r]) != usize::MAX).collect();
        if fitting.is_empty() {
            return None;
        }
        let crowded = open.len() + n > most / 2;
        let r = if crowded { *fitting.iter().min_by_key(|&&r| (tall(&t.rules[r]), t.rules[r].symbols.len())).unwrap() } else { *rng.pick(&fitting) };
        out.push(r as u16);
        for i in 1..8 {
            if let Some(&y) = t.rules[r].symbols.get(i) {
                open.push((y, 8 * n + i));
            }
            out.push(0);
        }
    }
    Some(out)
}

fn damage_words(rng: &mut Rng, words: &mut Vec<u16>) {
    let n = words.len();
    match rng.below(5) {
        0 => words.truncate(rng.below(n + 1)),
        1 => words.push(rng.next() as u16),
        2 => {
            words.remove(rng.below(n));
        }
        3 => {
            let at = rng.below(n);
            words[at] = words[at].wrapping_add(*rng.pick(&[1, 2, 8, 65535, 65528]));
        }
        _ => {
            let at = rng.below(n);
            words[at] = if rng.once_in(3) { rng.next() as u16 } else { rng.below(70) as u16 };
        }
    }
}

fn damage_tree(rng: &mut Rng, tree: &mut Vec<u16>) {
    let nodes = tree.len() / 8;
    match rng.below(11) {
        0 => tree.truncate(rng.below(tree.len() + 1)),
        1 => tree.extend([0; 8]),
        2 => {
            let n = rng.below(nodes);
            tree[8 * n] = if rng.once_in(2) { rng.below(70) as u16 } else { 32768 + rng.below(34) as u16 };
        }
        3 | 4 => {
            let at = rng.below(tree.len());
            tree[at] = rng.below(nodes + 2) as u16;
        }
        5 => {
            // Two slots exchanged.
            let (a, b) = (rng.below(tree.len()), rng.below(tree.len()));
            tree.swap(a, b);
        }
        6 => {
            let n = rng.below(nodes);
            for i in 1..8 {
                let child = tree[8 * n + i];
                if child != 0 && rng.once_in(2) {
                    let other = rng.between(n + 1, nodes.max(n + 1));
                    tree[8 * n + i] = other as u16;
                }
            }
        }
        7 => {
            // The root's rule becomes another's.
            tree[0] = rng.below(4) as u16;
        }
        _ => {
            // Two nodes exchange their first words, or a child is named where another stood.
            let (a, b) = (rng.below(nodes), rng.below(nodes));
            tree.swap(8 * a, 8 * b);
        }
    }
}

/// A length around a limit: mostly enough.
fn around(rng: &mut Rng, limit: usize) -> usize {
    match rng.below(16) {
        0 => rng.below(limit + 1),
        1 => limit.saturating_sub(1),
        2..=4 => limit + rng.below(9),
        5 => 0,
        _ => limit,
    }
}

pub fn case(seed: u64) -> Case {
    let mut rng = Rng::new(seed);
    let t = table(&mut rng);
    let mut words = t.words();
    let whole = !rng.once_in(4);
    if !whole {
        damage_words(&mut rng, &mut words);
    }
    let rules = words.get(1).copied().unwrap_or(0).min(64) as usize;
    let lengths = (around(&mut rng, 64 * rules), around(&mut rng, 256 + 112 * rules));
    let most = *rng.pick(&[4, 12, 40, 40, 200, 1024]);
    let mut tree = tree(&mut rng, &t, most).unwrap_or_else(|| vec![0; 8 * rng.between(0, 3)]);
    if rng.once_in(3) && !tree.is_empty() {
        damage_tree(&mut rng, &mut tree);
    }
    if rng.once_in(500) {
        tree = vec![0; 8 * 1025];
    }
    let nodes = tree.len() / 8;
    let values = around(&mut rng, 8 * nodes);
    let budget = match rng.below(8) {
        0 => 0,
        1 => 1,
        2 => rng.below(200) as u32,
        _ => u32::MAX,
    };
    let garbage = rng.next();
    Case {
        words,
        rows: (0..lengths.0 as u64).map(|i| garbage.rotate_left(i as u32 % 61) ^ i).collect(),
        plan: (0..lengths.1 as u64).map(|i| (garbage >> (i % 40)) as u16).collect(),
        tree,
        values: (0..values).map(|_| value(&mut rng)).collect(),
        budget,
    }
}

fn value(rng: &mut Rng) -> i32 {
    match rng.below(8) {
        0 => i32::MAX - rng.below(3) as i32,
        1 => i32::MIN + rng.below(3) as i32,
        2 => rng.next() as i32,
        _ => rng.below(20) as i32 - 10,
    }
}

/// The budgets around a run's total, and the ends of their range.
pub fn budgets(total: u32) -> [u32; 6] {
    [0, 1, total.saturating_sub(1), total, total + 1, u32::MAX]
}

/// An ordered table with a tree of it and exactly enough room.
fn sound(rng: &mut Rng, most: usize) -> Case {
    loop {
        let t = table(rng);
        let words = t.words();
        let (mut rows, mut plan) = (vec![0; 64 * t.rules.len()], vec![0; 256 + 112 * t.rules.len()]);
        if words.len() > 400 || crate::plan(&words, &mut rows, &mut plan).is_err() {
            continue;
        }
        let Some(tree) = tree(rng, &t, most) else { continue };
        if tree.len() < 24 && !rng.once_in(20) {
            continue;
        }
        rows.iter_mut().for_each(|w| *w = rng.next());
        plan.iter_mut().for_each(|w| *w = rng.next() as u16);
        let values = (0..tree.len()).map(|_| value(rng)).collect();
        return Case { words, rows, plan, tree, values, budget: u32::MAX };
    }
}

/// All that one sound case becomes when each of its words is changed, and cut off there, and each length is moved around its limit.
/// They come in a fixed order, so that a seed and a count name one.
pub fn variations(seed: u64, mut visit: impl FnMut(Case)) {
    let mut rng = Rng::new(seed ^ 0x5eed_0000_0000);
    let base = sound(&mut rng, 14);
    for at in 0..base.words.len() {
        let old = base.words[at];
        visit(Case { words: base.words[..at].to_vec(), ..base.clone() });
        for new in [0, 1, 7, 8, 9, 31, 63, 64, 65, 255, 256, 65535, old.wrapping_add(1), old.wrapping_sub(1), old.wrapping_add(8), old ^ 0x100] {
            let mut c = base.clone();
            c.words[at] = new;
            visit(c);
        }
        let (mut less, mut more) = (base.clone(), base.clone());
        less.words.remove(at);
        more.words.insert(at, rng.below(10) as u16);
        visit(less);
        visit(more);
    }
    let nodes = base.tree.len() / 8;
    for at in 0..base.tree.len() {
        let old = base.tree[at];
        visit(Case { tree: base.tree[..at].to_vec(), ..base.clone() });
        let node = (at / 8) as u16;
        let others = [0, 1, 2, node, node + 1, nodes as u16 - 1, nodes as u16, 32767, 32768, 32769, 32799, 32800, 65535];
        for new in others.into_iter().chain([old.wrapping_add(1), old.wrapping_sub(1), old ^ 0x8000]) {
            let mut c = base.clone();
            c.tree[at] = new;
            visit(c);
        }
        // Two slots of one node exchanged, or two first words.
        let mut c = base.clone();
        c.tree.swap(at, if at % 8 == 0 { 8 * rng.below(nodes) } else { at / 8 * 8 + 1 + rng.below(7) });
        visit(c);
    }
    for (rows, plan, values) in lengths(base.rows.len(), base.plan.len(), base.values.len()) {
        let mut c = base.clone();
        c.rows.resize(rows, 0x0123_4567_89ab_cdef);
        c.plan.resize(plan, 0xa5a5);
        c.values.resize(values, -77);
        visit(c);
    }
}

/// Each length at its limit and around it while the others have room, then all three together.
fn lengths(rows: usize, plan: usize, values: usize) -> Vec<(usize, usize, usize)> {
    let near = |limit: usize| [0, 1, limit / 2, limit - 2, limit - 1, limit, limit + 1, limit + 2, limit + 63, limit + 112];
    let mut out = Vec::new();
    for i in 0..10 {
        out.extend([(near(rows)[i], plan, values), (rows, near(plan)[i], values), (rows, plan, near(values)[i])]);
        for j in 3..8 {
            out.extend([(near(rows)[i], near(plan)[j], values), (rows, near(plan)[i], near(values)[j])]);
        }
    }
    out
}
