//! IDP, IDS and EDP: relations of a rule that are kept closed, by what comes before each occurrence.

use crate::grammar::{Before, Grammar, Rule};
use crate::sets::Order;

/// The members of a set, lowest first.
pub fn bits(mut set: u64) -> impl Iterator<Item = usize> {
    std::iter::from_fn(move || {
        if set == 0 {
            return None;
        }
        let i = set.trailing_zeros() as usize;
        set &= set - 1;
        Some(i)
    })
}

/// Byte b of a block has bit a where a comes before b, both attributes of one position. These are the arcs from an attribute to itself.
const TO_ITSELF: u64 = 0x8040_2010_0804_0201;

/// The block of position i.
fn block(before: &Before, i: usize) -> u64 {
    let rows: &[u64; 8] = before[8 * i..].first_chunk().unwrap();
    (0..8).fold(0, |arcs, b| arcs | (rows[b] >> (8 * i) & 0xff) << (8 * b))
}

/// Adds arcs to the block of position i of a closed relation; gives the occurrences that have to be closed over: those that something new leads to.
fn add(before: &mut Before, i: usize, arcs: u64) -> u64 {
    let mut heads = 0;
    for b in 0..8 {
        let tails = (arcs >> (8 * b) & 0xff) << (8 * i);
        if tails != 0 {
            let row = bits(tails).fold(before[8 * i + b] | tails, |row, a| row | before[a]);
            before[8 * i + b] = row;
            heads |= 1 << (8 * i + b);
        }
    }
    heads
}

/// Adds to a rule what its blocks lack of those wanted for its symbols; gives the occurrences to be closed over.
fn add_missing(before: &mut Before, rule: &Rule, blocks: &Blocks, wanted: impl Fn(usize) -> u64) -> u64 {
    rule.places().fold(0, |middles, (i, x)| {
        let missing = wanted(x) & !blocks[i];
        if missing == 0 { middles } else { middles | add(before, i, missing) }
    })
}

/// Adds to DP, which is not closed yet, what IDS has so far; gives the occurrences to be closed over: those with something before and after them.
fn add_first(before: &mut Before, rule: &Rule, ids: &[u64; 32]) -> u64 {
    let (mut heads, mut tails) = (rule.heads, rule.tails);
    for (i, x) in rule.places() {
        if ids[x] != 0 {
            let rows: &mut [u64; 8] = before[8 * i..].first_chunk_mut().unwrap();
            for (b, row) in rows.iter_mut().enumerate() {
                let new = (ids[x] >> (8 * b) & 0xff) << (8 * i);
                *row |= new;
                heads |= ((new != 0) as u64) << (8 * i + b);
                tails |= new;
            }
        }
    }
    heads & tails
}

/// The lowest occurrence that comes before itself.
fn lowest(before: &Before) -> Option<usize> {
    let on = before.iter().enumerate().fold(0, |on, (o, row)| on | row & 1 << o);
    (on != 0).then(|| on.trailing_zeros() as usize)
}

/// Closes over paths through the given occurrences: all that stand at one position in a step, which costs less where they are fewer.
fn close(before: &mut Before, rule: &Rule, middles: u64) {
    let rows = &mut before[..8 * rule.positions];
    for i in 0..rule.positions {
        let here = middles >> (8 * i) & 0xff;
        match (here & 15, here >> 4) {
            (0, 0) => {}
            _ if here & (here - 1) == 0 => through_one(rows, 8 * i + here.trailing_zeros() as usize),
            (_, 0) => through_four(rows, 8 * i),
            (0, _) => through_four(rows, 8 * i + 4),
            _ => through_position(rows, i),
        }
    }
}

/// Each has the shift by 8i as a constant.
fn through_position(rows: &mut [u64], i: usize) {
    match i {
        0 => through_eight::<0>(rows),
        1 => through_eight::<1>(rows),
        2 => through_eight::<2>(rows),
        3 => through_eight::<3>(rows),
        4 => through_eight::<4>(rows),
        5 => through_eight::<5>(rows),
        6 => through_eight::<6>(rows),
        _ => through_eight::<7>(rows),
    }
}

fn through_one(rows: &mut [u64], m: usize) {
    let middle = rows[m];
    for row in rows {
        *row |= middle & (*row >> m & 1).wrapping_neg();
    }
}

/// The unions of four rows, by which of them.
fn unions(four: &[u64; 4]) -> [u64; 16] {
    let mut out = [0; 16];
    for k in 0..4 {
        for j in 0..1 << k {
            out[j + (1 << k)] = out[j] | four[k];
        }
    }
    out
}

/// Closes four rows among themselves, which stand from row `at` on.
fn close_four(four: &mut [u64; 4], at: usize) {
    for k in 0..4 {
        let middle = four[k];
        for row in four.iter_mut() {
            *row = if *row >> (at + k) & 1 == 1 { *row | middle } else { *row };
        }
    }
}

/// What a row gets from four rows that stand from `at` on.
fn get(row: u64, at: usize, unions: &[u64; 16]) -> u64 {
    unions[(row >> at & 15) as usize]
}

/// Closes four rows among themselves. Then what a row gets depends on four of its bits only: it is one of 16 unions.
fn through_four(rows: &mut [u64], at: usize) {
    let mut four = *rows[at..].first_chunk().unwrap();
    close_four(&mut four, at);
    let unions = unions(&four);
    rows.iter_mut().for_each(|row| *row |= get(*row, at, &unions));
}

/// The same with the eight rows of a position: two unions for each row.
fn through_eight<const I: usize>(rows: &mut [u64]) {
    let (mut low, mut high) = (*rows[8 * I..].first_chunk().unwrap(), *rows[8 * I + 4..].first_chunk().unwrap());
    close_four(&mut low, 8 * I);
    let by_low = unions(&low);
    high.iter_mut().for_each(|row| *row |= get(*row, 8 * I, &by_low));
    close_four(&mut high, 8 * I + 4);
    let by_high = unions(&high);
    low.iter_mut().for_each(|row| *row |= get(*row, 8 * I + 4, &by_high));
    let by_low = unions(&low);
    rows.iter_mut().for_each(|row| *row |= get(*row, 8 * I, &by_low) | get(*row, 8 * I + 4, &by_high));
}

/// The blocks of a rule's positions, as they stand in its relation.
type Blocks = [u64; 8];

/// What IDP and EDP are computed in: each rule's relation and its blocks.
pub struct Relations<'a> {
    before: &'a mut [Before],
    blocks: Vec<Blocks>,
}

impl<'a> Relations<'a> {
    /// Makes the relations the paths of IDP; gives IDS for each symbol as a block. A rule is stale where an arc of one of its symbols may be missing.
    pub fn induce(g: &Grammar, before: &'a mut [Before]) -> (Self, [u64; 32]) {
        let count = g.rules.len();
        before.copy_from_slice(&g.arguments);
        let mut relations = Relations { before, blocks: vec![[0; 8]; count] };
        let mut ids = [0; 32];
        let all = u64::MAX >> (64 - count);
        let (mut stale, mut open) = (all, all);
        let mut ahead = all;
        while stale != 0 {
            // The next above the last one, and from the lowest again: arcs of many rules come together before a rule is closed once more.
            let next = if stale & ahead != 0 { stale & ahead } else { stale };
            let r = next.trailing_zeros() as usize;
            ahead = (u64::MAX << r) << 1;
            stale &= !(1 << r);
            let rule = &g.rules[r];
            let before = &mut relations.before[r];
            let first = open >> r & 1 == 1;
            open &= !(1 << r);
            let middles = if first { add_first(before, rule, &ids) } else { add_missing(before, rule, &relations.blocks[r], |x| ids[x]) };
            if middles == 0 && !first {
                continue;
            }
            close(before, rule, middles);
            for (i, x) in rule.places() {
                let arcs = block(before, i);
                relations.blocks[r][i] = arcs;
                if arcs & !ids[x] != 0 {
                    ids[x] |= arcs;
                    stale |= g.symbols[x].rules;
                }
            }
        }
        (relations, ids)
    }

    /// Makes the paths of IDP those of EDP, from IDP without a cycle; gives the lowest rule and occurrence on a cycle.
    pub fn extend(&mut self, g: &Grammar, orders: &[Order; 32]) -> Option<(usize, usize)> {
        let mut cycle = None;
        for (r, rule) in g.rules.iter().enumerate() {
            let middles = add_missing(&mut self.before[r], rule, &self.blocks[r], |x| orders[x].earlier);
            if middles != 0 {
                close(&mut self.before[r], rule, middles);
                cycle = cycle.or_else(|| lowest(&self.before[r]).map(|o| (r, o)));
            }
        }
        cycle
    }

    /// The lowest rule and occurrence on a cycle.
    pub fn cycle(&self) -> Option<(usize, usize)> {
        self.before.iter().enumerate().find_map(|(r, rows)| lowest(rows).map(|o| (r, o)))
    }

    /// Turns the relations round: bit b of row o then says that a path leads from o to b.
    pub fn turn(&mut self, g: &Grammar) {
        for (rows, rule) in self.before.iter_mut().zip(&g.rules) {
            match rule.positions {
                0..=2 => turn::<16>(rows),
                3..=4 => turn::<32>(rows),
                _ => turn::<64>(rows),
            }
        }
    }
}

/// Whether IDS has an arc from an attribute to itself: then and only then some IDP has a cycle.
pub fn cyclic(ids: &[u64; 32]) -> bool {
    ids.iter().fold(0, |on, arcs| on | arcs & TO_ITSELF) != 0
}

/// Exchanges rows and columns of the first N: halves first, then the halves of those.
fn turn<const N: usize>(rows: &mut Before) {
    let mut width = N / 2;
    // The lower half of the columns, then of each half, and so on.
    let mut low = u64::MAX >> (64 - width);
    while width > 0 {
        for at in (0..N).step_by(2 * width) {
            for k in at..at + width {
                let moved = (rows[k] >> width ^ rows[k + width]) & low;
                rows[k] ^= moved << width;
                rows[k + width] ^= moved;
            }
        }
        width /= 2;
        low ^= low << width;
    }
}
