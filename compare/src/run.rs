//! The stack automaton.

use crate::grammar::{arity, Grammar};
use crate::plan::planned;
use crate::relations::bits;
use crate::sequences::Sequence;
use crate::tree::{check, Node};
use crate::{Ran, Refusal};

#[derive(Clone, Copy)]
enum Kind {
    Constant,
    Copy,
    Sum,
    Difference,
    Larger,
    Smaller,
    Less,
    Choose,
    Served,
    Visit,
    Leave,
}

/// The operations by their numbers.
const OPERATIONS: [Kind; 9] =
    [Kind::Constant, Kind::Copy, Kind::Sum, Kind::Difference, Kind::Larger, Kind::Smaller, Kind::Less, Kind::Choose, Kind::Served];

/// An action with all that it needs.
#[derive(Clone, Copy)]
struct Step {
    kind: Kind,
    /// The occurrence that is computed, or the child that is visited.
    at: u8,
    arguments: [u8; 4],
    /// A constant; after a visit or a leave, the place in the program at which the node goes on.
    number: u16,
}

impl Step {
    fn to(kind: Kind, at: u8, number: u16) -> Self {
        Step { kind, at, arguments: [0; 4], number }
    }
}

/// The sequences of those rules that have a node, one after the other; where each begins, and how long it is.
struct Program {
    steps: Vec<Step>,
    begins: [u16; 64],
    lengths: [u16; 64],
}

impl Program {
    fn new(g: &Grammar, words: &[u16], sequences: &[Sequence], rules: u64) -> Self {
        let mut program = Program { steps: Vec::with_capacity(128), begins: [0; 64], lengths: [0; 64] };
        let mut computes = [Step::to(Kind::Leave, 0, 0); 64];
        for r in bits(rules) {
            let rule = &g.rules[r];
            let mut at = rule.functions;
            for _ in 0..rule.count {
                let (target, op) = (words[at] as usize, words[at + 1] as usize);
                let arguments = &words[at + 2..at + 2 + arity(op)];
                let mut step = Step::to(OPERATIONS[op], target as u8, arguments[0]);
                step.arguments.iter_mut().zip(arguments).for_each(|(to, &w)| *to = w as u8);
                computes[target] = step;
                at += 2 + arguments.len();
            }
            let begin = program.steps.len() as u16;
            let (&length, actions) = sequences[r].split_first().unwrap();
            (program.begins[r], program.lengths[r]) = (begin, length);
            program.steps.extend(actions[..length as usize].iter().zip(begin + 1..).map(|(&action, next)| match action {
                0..=63 => computes[action as usize],
                64..=127 => Step::to(Kind::Visit, (action - 64) as u8 / 8, next),
                _ => Step::to(Kind::Leave, 0, next),
            }));
        }
        program
    }
}

/// Where an occurrence of the node at work lies: each position has its node in `family`. There is room for any byte, so that no index has to be tested.
fn cell(family: &[u16; 32], o: u8) -> (usize, usize) {
    (family[o as usize / 8] as usize, o as usize % 8)
}

/// Runs the sequences until the root's last leave; where the budget may not last, no further than that. The node at work is kept apart from the stack,
/// which has those that wait for a child and their places in the program; a node that is off the stack and not at work has its place in `places`.
#[inline(never)]
fn automaton<const LIMITED: bool>(steps: &[Step], mut places: [u16; 1024], nodes: &[Node], values: &mut [[i32; 8]], mut budget: u32) {
    let mut stack = [(0u16, 0u16); 1024];
    let mut depth = 0;
    let (mut node, mut place) = (0, places[0]);
    let mut family = [0; 32];
    'moves: loop {
        // The node itself stands where its rule stood: position 0 is the left side.
        family[..8].copy_from_slice(&nodes[node as usize]);
        family[0] = node;
        for step in &steps[place as usize..] {
            if LIMITED {
                if budget == 0 {
                    return;
                }
                budget -= 1;
            }
            let argument = |j: usize| {
                let (n, a) = cell(&family, step.arguments[j]);
                values[n][a]
            };
            let result = match step.kind {
                Kind::Constant => step.number as i16 as i32,
                Kind::Copy => argument(0),
                Kind::Sum => argument(0).saturating_add(argument(1)),
                Kind::Difference => argument(0).saturating_sub(argument(1)),
                Kind::Larger => argument(0).max(argument(1)),
                Kind::Smaller => argument(0).min(argument(1)),
                Kind::Less => (argument(0) < argument(1)) as i32,
                Kind::Choose => {
                    let (x, y, z) = (argument(0), argument(1), argument(2));
                    if x != 0 { y } else { z }
                }
                Kind::Served => {
                    let (p, s, q, t) = (argument(0), argument(1), argument(2), argument(3));
                    (p > q || p == q && s < t) as i32
                }
                Kind::Visit => {
                    stack[depth] = (node, step.number);
                    depth += 1;
                    node = family[step.at as usize % 8];
                    place = places[node as usize];
                    continue 'moves;
                }
                Kind::Leave => {
                    if depth == 0 {
                        return;
                    }
                    places[node as usize] = step.number;
                    depth -= 1;
                    (node, place) = stack[depth];
                    continue 'moves;
                }
            };
            let (n, a) = cell(&family, step.at);
            values[n][a] = result;
        }
        unreachable!("a sequence ends with a leave");
    }
}

/// Plans, checks the tree, and runs the automaton for at most `budget` actions.
pub fn run(
    words: &[u16],
    rows: &mut [u64],
    plan: &mut [u16],
    tree: &[u16],
    values: &mut [i32],
    budget: u32,
) -> Result<Ran, Refusal> {
    let g = planned(words, rows, plan)?;
    let (nodes, rules) = check(&g, tree, values.len())?;
    let program = Program::new(&g, words, plan[256..].as_chunks().0, rules);
    // Every node goes through its whole sequence: a budget of the summed lengths is enough.
    let mut total = 0;
    let mut places = [0; 1024];
    for (place, node) in places.iter_mut().zip(nodes) {
        if let Some(&length) = program.lengths.get(node[0] as usize) {
            *place = program.begins[node[0] as usize];
            total += length as u32;
        }
    }
    let values = values.as_chunks_mut().0;
    if budget >= total {
        automaton::<false>(&program.steps, places, nodes, values, budget);
        return Ok(Ran::Done(total));
    }
    automaton::<true>(&program.steps, places, nodes, values, budget);
    Ok(Ran::Stopped(budget))
}
