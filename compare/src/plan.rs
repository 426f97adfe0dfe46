//! Planning: the relations, sets and visit-sequences of the 1980 paper.

use crate::grammar::Grammar;
use crate::relations::{cyclic, Relations};
use crate::sequences::Sequencer;
use crate::sets::orders;
use crate::Refusal;

/// How many visits a nonterminal gets whose attributes have these set numbers.
pub fn visits(sets: &[u8; 8]) -> usize {
    let m = *sets.iter().max().unwrap() as usize;
    m.div_ceil(2).max(1)
}

/// Plans, and gives the grammar as it was read.
pub fn planned(words: &[u16], rows: &mut [u64], plan: &mut [u16]) -> Result<Grammar, Refusal> {
    let g = Grammar::read(words)?;
    let count = g.rules.len();
    let Some(rows) = rows.as_chunks_mut().0.get_mut(..count) else {
        return Err(Refusal::at(8, 0));
    };
    let Some(plan) = plan.get_mut(..256 + 112 * count) else {
        return Err(Refusal::at(8, 1));
    };
    // Until they are turned round, the rows hold what comes before each occurrence.
    let (mut relations, ids) = Relations::induce(&g, rows);
    if cyclic(&ids) {
        let (rule, occurrence) = relations.cycle().expect("IDS has a cycle");
        relations.turn(&g);
        return Err(Refusal { number: 9, place: rule, second: occurrence });
    }
    let orders = orders(&g, &ids);
    let cycle = relations.extend(&g, &orders);
    relations.turn(&g);
    if let Some((rule, occurrence)) = cycle {
        return Err(Refusal { number: 10, place: rule, second: occurrence });
    }
    // A grammar without such a cycle always has an action ready, so the sequences are written where they belong at once.
    let (sets, sequences) = plan.split_at_mut(256);
    let mut sequencer = Sequencer::new();
    for (r, (rule, out)) in g.rules.iter().zip(sequences.as_chunks_mut().0).enumerate() {
        sequencer.sequence(rule, &g.arguments[r], &orders, out);
    }
    let (used, unused) = sets.split_at_mut(8 * g.count);
    for (sets, order) in used.as_chunks_mut().0.iter_mut().zip(&orders) {
        *sets = order.sets.to_le_bytes().map(u16::from);
    }
    unused.fill(0);
    Ok(g)
}

/// Plans a grammar: the size of the plan, or a refusal.
pub fn plan(words: &[u16], rows: &mut [u64], plan: &mut [u16]) -> Result<usize, Refusal> {
    planned(words, rows, plan).map(|g| 256 + 112 * g.rules.len())
}
