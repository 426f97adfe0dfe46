//! The tree and its checks: refusals 12 to 18.

use crate::grammar::Grammar;
use crate::Refusal;

pub const TERMINAL: usize = 32768;

/// A node: its rule or terminal, then its children.
pub type Node = [u16; 8];

/// For each number of children, the slots that are not used.
const UNUSED: [Node; 8] = {
    let mut out = [[0; 8]; 8];
    let mut children = 0;
    while children < 8 {
        let mut i = children + 1;
        while i < 8 {
            out[children][i] = u16::MAX;
            i += 1;
        }
        children += 1;
    }
    out
};

/// A node's symbol and those of its children; none where its first word is no rule and no terminal.
fn symbols<'a>(g: &'a Grammar, node: &Node) -> Option<(usize, &'a [u8])> {
    let first = node[0] as usize;
    if let Some(rule) = g.rules.get(first) {
        return Some((rule.symbols[0] as usize, &rule.symbols[1..rule.positions]));
    }
    let x = first.wrapping_sub(TERMINAL);
    (x < g.count && g.symbols[x].terminal).then_some((x, &[]))
}

/// The nodes of a tree that is a derivation tree of the grammar, and the rules that they have, as bits.
pub fn check<'a>(g: &Grammar, tree: &'a [u16], values: usize) -> Result<(&'a [Node], u64), Refusal> {
    let (nodes, rest) = tree.as_chunks();
    let count = nodes.len();
    if !rest.is_empty() || count == 0 || count > 1024 {
        return Err(Refusal::at(12, 0));
    }
    // The symbol that a node has in its parent's rule. A parent comes before its children, so one walk is enough where all is well.
    const NONE: u8 = u8::MAX;
    let mut named = [NONE; 1024];
    named[0] = g.start as u8;
    let (mut twice, mut differs, mut orphan, mut rules) = (false, false, None, 0);
    for (n, node) in nodes.iter().enumerate() {
        let Some((symbol, right)) = symbols(g, node) else {
            return Err(Refusal::at(13, n));
        };
        rules |= ((node[0] < 64) as u64) << (node[0] % 64);
        for (&child, &x) in node[1..].iter().zip(right) {
            let child = child as usize;
            if child <= n || child >= count {
                return Err(Refusal::at(14, n));
            }
            twice |= named[child] != NONE;
            named[child] = x;
        }
        if node.iter().zip(&UNUSED[right.len()]).fold(0, |used, (slot, unused)| used | slot & unused) != 0 {
            return Err(Refusal::at(14, n));
        }
        if named[n] != symbol as u8 {
            if named[n] == NONE {
                orphan = orphan.or(Some(n));
            } else {
                differs = true;
            }
        }
    }
    if differs || twice {
        return Err(misfit(g, nodes));
    }
    if let Some(n) = orphan {
        return Err(Refusal::at(17, n));
    }
    if values < 8 * count {
        return Err(Refusal::at(18, 0));
    }
    Ok((nodes, rules))
}

/// Of 15, 16 and 17 the one that applies, test by test: some symbol is not the one wanted, or some node is named twice.
#[cold]
fn misfit(g: &Grammar, nodes: &[Node]) -> Refusal {
    let known = |n: usize| symbols(g, &nodes[n]).expect("13 was tested");
    if known(0).0 != g.start {
        return Refusal::at(15, 0);
    }
    let mut named = vec![0; nodes.len()];
    for (n, node) in nodes.iter().enumerate() {
        for (&child, &x) in node[1..].iter().zip(known(n).1) {
            if known(child as usize).0 != x as usize {
                return Refusal::at(16, n);
            }
            named[child as usize] += 1;
        }
    }
    let other = (1..nodes.len()).find(|&n| named[n] != 1).expect("a node is named twice");
    Refusal::at(17, other)
}
