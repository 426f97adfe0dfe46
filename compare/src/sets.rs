//! The sets of a nonterminal and its visits.

use crate::grammar::{Grammar, Symbol};

/// What the sets of a symbol say. For terminals all is 0 but `given`.
#[derive(Clone, Copy, Default)]
pub struct Order {
    /// Byte a: the set number of attribute a.
    pub sets: u64,
    /// Byte b: the attributes with a higher set number than b's.
    pub earlier: u64,
    /// Byte b: those, and what leads to b in IDS.
    pub before: u64,
    pub visits: usize,
    /// Byte n: the attributes of visit n + 1, by class.
    pub inherited: u64,
    pub synthesized: u64,
    /// A terminal's attributes: they come with the tree.
    pub given: u64,
}

/// One in each byte.
const ONES: u64 = 0x0101_0101_0101_0101;

/// A byte of ones for each member of a set of attributes.
fn spread(set: u8) -> u64 {
    let apart = set as u64 * ONES & 0x8040_2010_0804_0201;
    ((apart + 0x7f * ONES) >> 7 & ONES) * 0xff
}

/// The union of the bytes.
fn union(bytes: u64) -> u8 {
    let halves = bytes | bytes >> 32;
    let quarters = halves | halves >> 16;
    (quarters | quarters >> 8) as u8
}

/// The sets from IDS, which has no cycle.
fn order(symbol: &Symbol, ids: u64) -> Order {
    if symbol.terminal {
        return Order { given: symbol.attributes as u64, ..Order::default() };
    }
    let mut out = Order::default();
    let mut left = symbol.attributes;
    let mut k = 0;
    while left != 0 {
        k += 1;
        let class = if k % 2 == 1 { !symbol.inherited } else { symbol.inherited };
        // IDS has an arc for each path: what leads to the other class does so by one arc.
        let taken = left & class & !union(ids & spread(left & !class));
        left &= !taken;
        out.sets |= spread(taken) & k * ONES;
        out.earlier |= spread(taken) & left as u64 * ONES;
        let turn = if k % 2 == 1 { &mut out.synthesized } else { &mut out.inherited };
        *turn |= (taken as u64) << (8 * ((k - 1) / 2));
    }
    out.before = out.earlier | ids;
    out.visits = k.div_ceil(2).max(1) as usize;
    // They stand from the last visit to the first.
    out.inherited = out.inherited.swap_bytes() >> (64 - 8 * out.visits);
    out.synthesized = out.synthesized.swap_bytes() >> (64 - 8 * out.visits);
    out
}

pub fn orders(g: &Grammar, ids: &[u64; 32]) -> [Order; 32] {
    let mut out = [Order::default(); 32];
    for (x, symbol) in g.symbols[..g.count].iter().enumerate() {
        out[x] = order(symbol, ids[x]);
    }
    out
}
