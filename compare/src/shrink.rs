//! Makes a failing case small: tries what is simpler, keeps it while it still fails, until nothing simpler does.

use crate::cases::{tree, Case, Function, Rng, Table};

/// The smallest case found that still fails.
pub fn shrink(case: &Case, fails: impl Fn(&Case) -> bool) -> Case {
    let mut best = case.clone();
    // Ends early on a large case: a first small one is worth more than the smallest.
    let mut tries = 0;
    while tries < 200_000 {
        let Some(next) = simpler(&best).into_iter().find(|c| {
            tries += 1;
            weight(c) < weight(&best) && fails(c)
        }) else {
            break;
        };
        best = next;
    }
    best
}

/// What is made smaller, the table first.
fn weight(c: &Case) -> (usize, usize, usize, u64) {
    let sum = |words: &[u16]| words.iter().map(|&w| w as u64).sum::<u64>();
    let set = c.values.iter().filter(|&&v| v != 0).count() + c.rows.iter().filter(|&&w| w != 0).count() + c.plan.iter().filter(|&&w| w != 0).count();
    (c.words.len(), c.tree.len(), c.rows.len() + c.plan.len() + c.values.len() + set, sum(&c.words) + sum(&c.tree) + c.budget as u64)
}

fn simpler(c: &Case) -> Vec<Case> {
    let mut out = Vec::new();
    let with_table = |t: &Table, tree: Vec<u16>| {
        let mut n = Case { words: t.words(), tree, ..c.clone() };
        n.rows.truncate(64 * t.rules.len());
        n.plan.truncate(256 + 112 * t.rules.len());
        n.values.truncate(n.tree.len());
        n
    };
    if let Some(t) = Table::read(&c.words) {
        for (t, tree) in smaller_tables(&t, &c.tree) {
            out.push(with_table(&t, tree.clone()));
            out.push(Case { words: t.words(), tree, ..c.clone() });
        }
        for seed in 0..24 {
            if let Some(tree) = tree(&mut Rng::new(seed), &t, 1 + seed as usize % 12) {
                out.push(with_table(&t, tree));
            }
        }
        out.push(with_table(&t, c.tree.clone()));
        out.push(with_table(&t, Vec::new()));
    }
    out.push(Case { words: c.words[..c.words.len() / 2].to_vec(), ..c.clone() });
    for i in 0..c.words.len() {
        let mut n = c.clone();
        n.words.remove(i);
        out.push(n);
    }
    for i in 0..c.words.len() {
        for w in [0, c.words[i] / 2, c.words[i].saturating_sub(1)] {
            let mut n = c.clone();
            n.words[i] = w;
            out.push(n);
        }
    }
    for i in 0..c.tree.len() / 8 {
        let mut n = c.clone();
        n.tree.drain(8 * i..8 * i + 8);
        out.push(n);
    }
    out.push(Case { rows: vec![0; c.rows.len()], ..c.clone() });
    out.push(Case { plan: vec![0; c.plan.len()], ..c.clone() });
    out.push(Case { values: vec![0; c.values.len()], ..c.clone() });
    for i in 0..c.values.len().min(64) {
        let mut n = c.clone();
        n.values[i] = 0;
        out.push(n);
    }
    for budget in [0, c.budget / 2, c.budget.saturating_sub(1)] {
        out.push(Case { budget, ..c.clone() });
    }
    out
}

/// Tables with one rule, position, attribute, symbol or function less, and the tree as it then is.
fn smaller_tables(t: &Table, tree: &[u16]) -> Vec<(Table, Vec<u16>)> {
    let mut out = Vec::new();
    for r in 0..t.rules.len() {
        let mut n = t.clone();
        n.rules.remove(r);
        let renumbered = first_words(tree, |w| if w < 32768 && w as usize > r { w - 1 } else { w });
        out.push((n, renumbered));
    }
    for r in 0..t.rules.len() {
        for i in 1..t.rules[r].symbols.len() {
            let mut n = t.clone();
            n.rules[r].symbols.remove(i);
            moved(&mut n.rules[r].functions, |o| match o / 8 {
                j if j == i => None,
                j if j > i => Some(o - 8),
                _ => Some(o),
            });
            out.push((n, without_slot(tree, r, i)));
        }
    }
    for x in 0..t.symbols.len() {
        for a in 0..t.symbols[x].1 {
            let mut n = t.clone();
            let (kind, count, mask) = n.symbols[x];
            let low = mask & ((1 << a) - 1);
            n.symbols[x] = (kind, count - 1, low | (mask >> (a + 1) << a));
            for rule in &mut n.rules {
                let at = rule.symbols.clone();
                moved(&mut rule.functions, |o| match at[o / 8] == x {
                    true if o % 8 == a => None,
                    true if o % 8 > a => Some(o - 1),
                    _ => Some(o),
                });
            }
            out.push((n, tree.to_vec()));
        }
        if x != t.start && t.rules.iter().all(|r| !r.symbols.contains(&x)) {
            let mut n = t.clone();
            n.symbols.remove(x);
            let lower = |y: usize| if y > x { y - 1 } else { y };
            n.start = lower(n.start);
            n.rules.iter_mut().for_each(|r| r.symbols.iter_mut().for_each(|y| *y = lower(*y)));
            out.push((n, first_words(tree, |w| if w > 32768 + x as u16 { w - 1 } else { w })));
        }
    }
    for r in 0..t.rules.len() {
        for k in 0..t.rules[r].functions.len() {
            for (op, args) in [(0, vec![0]), (1, t.rules[r].functions[k].args[..1].to_vec())] {
                let mut n = t.clone();
                if n.rules[r].functions[k].op > op {
                    n.rules[r].functions[k] = Function { op, args, ..n.rules[r].functions[k].clone() };
                    out.push((n, tree.to_vec()));
                }
            }
        }
    }
    out
}

/// The functions with their occurrences moved: a lost target takes its function along, a lost argument leaves a constant.
fn moved(functions: &mut Vec<Function>, to: impl Fn(usize) -> Option<usize>) {
    functions.retain_mut(|f| {
        let Some(target) = to(f.target) else { return false };
        f.target = target;
        if f.op != 0 {
            let args: Vec<Option<usize>> = f.args.iter().map(|&a| to(a as usize)).collect();
            if args.contains(&None) {
                (f.op, f.args) = (0, vec![0]);
            } else {
                f.args = args.into_iter().map(|a| a.unwrap() as u16).collect();
            }
        }
        true
    });
}

fn first_words(tree: &[u16], to: impl Fn(u16) -> u16) -> Vec<u16> {
    tree.iter().enumerate().map(|(i, &w)| if i % 8 == 0 { to(w) } else { w }).collect()
}

/// The tree once rule r has lost position i: its nodes lose that child, and what hangs below goes.
fn without_slot(tree: &[u16], r: usize, i: usize) -> Vec<u16> {
    let nodes = tree.len() / 8;
    let mut out = tree[..8 * nodes].to_vec();
    for n in 0..nodes {
        if out[8 * n] as usize == r {
            out[8 * n + i..8 * n + 8].rotate_left(1);
            out[8 * n + 7] = 0;
        }
    }
    let mut kept = vec![false; nodes];
    if nodes > 0 {
        kept[0] = true;
    }
    for n in 0..nodes {
        if kept[n] {
            out[8 * n + 1..8 * n + 8].iter().for_each(|&c| if c != 0 && (c as usize) < nodes { kept[c as usize] = true });
        }
    }
    let number: Vec<u16> = kept.iter().scan(0, |k, &kept| { *k += kept as u16; Some(*k - kept as u16) }).collect();
    (0..nodes)
        .filter(|&n| kept[n])
        .flat_map(|n| {
            let node = &out[8 * n..8 * n + 8];
            (0..8).map(|j| if j == 0 || node[j] == 0 || node[j] as usize >= nodes { node[j] } else { number[node[j] as usize] }).collect::<Vec<_>>()
        })
        .collect()
}
