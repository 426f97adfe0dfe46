//! The cycles of seeded tables: each goes round through the occurrence that the proved code names, each arc has the reason that it is shown with and
//! stands in the proved rows, and where the rows lack one of its arcs nothing is shown.

mod common;

use common::{table, Rng};
use skarnuth::cycle::{cycle, Cycle, Unheld};
use skarnuth::grammar::Grammar;
use skarnuth::proved::{plan, Planned, Refusal};
use skarnuth::relations::{Arc, Reason};
use skarnuth::table::{place, Table};
use skarnuth::{refusal, text};

const TABLES: u64 = 20_000;

/// The arc's reason, looked up in the table; for an induced one the path that it comes from, and so on down to functions.
fn justified(table: &Table, planned: &Planned, found: &Cycle, rule: usize, arc: &Arc, depth: usize) {
    let r = &table.rules[rule];
    assert!(planned.path(rule, arc.from, arc.to), "the rows do not have {} to {}", arc.from, arc.to);
    let ((i, a), (j, b)) = (place(arc.from), place(arc.to));
    match arc.reason {
        Reason::Function(n) => {
            let f = &r.functions[n];
            assert!(f.target == arc.to && f.operation != 0 && f.arguments.contains(&(arc.from as u16)), "no such function");
        }
        Reason::Induced => {
            assert!(depth < 3_000, "the origins go round");
            assert_eq!(i, j, "an induced arc stays at one position");
            let origin = &found.induced[&(r.symbols[i], a, b)];
            let (first, last) = (&origin.path[0], origin.path.last().expect("a path has an arc"));
            let ((k, from), (l, to)) = (place(first.from), place(last.to));
            assert_eq!((k, from, to), (l, a, b), "the path is between these attributes, at one position");
            assert_eq!(table.rules[origin.rule].symbols[k], r.symbols[i], "of this symbol");
            walks(&origin.path);
            origin.path.iter().for_each(|arc| justified(table, planned, found, origin.rule, arc, depth + 1));
        }
        Reason::Sets => {
            let sets = &found.sets.as_ref().expect("sets, where their order is a reason")[r.symbols[i]];
            assert!(i == j && !table.symbols[r.symbols[i]].terminal && sets[a] > sets[b], "not the order of sets");
        }
    }
}

/// Each arc begins where the one before it ends.
fn walks(path: &[Arc]) {
    assert!(path.windows(2).all(|two| two[0].to == two[1].from), "the arcs do not follow each other");
}

#[test]
fn cycles_hold() {
    let mut refused = [0; 11];
    for seed in 0..TABLES {
        let (_, read) = text::read("seeded", table(&mut Rng::new(seed)).as_bytes());
        let reading = read.unwrap_or_else(|f| panic!("seed {seed}: {}", f[0].text));
        let mut planned = plan(&reading.words);
        let Some(answer) = planned.refusal else { continue };
        refused[answer.number as usize] += 1;
        let table = Table::of(&reading.words).expect("a table");
        let found = cycle(&table, &planned, answer).unwrap_or_else(|why| panic!("seed {seed}: {why:?}"));
        assert_eq!(found.rule, answer.place);
        assert_eq!(found.arcs[0].from, answer.second, "seed {seed}: it begins at the occurrence that is named");
        assert_eq!(found.arcs[found.arcs.len() - 1].to, answer.second, "seed {seed}: and ends there");
        walks(&found.arcs);
        found.arcs.iter().for_each(|arc| justified(&table, &planned, &found, found.rule, arc, 0));
        assert_eq!(answer.number == 10, found.arcs.iter().any(|arc| arc.reason == Reason::Sets), "seed {seed}: only 10 needs the sets");
        // A row without one of the arcs: the cycle is not shown.
        let arc = found.arcs[seed as usize % found.arcs.len()];
        planned.rows[64 * found.rule + arc.from] &= !(1 << arc.to);
        assert_eq!(cycle(&table, &planned, answer).err(), Some(Unheld::NoArc(found.rule, arc.from, arc.to)), "seed {seed}");
        let told = refusal::of_planning(&Grammar::numbered(table), &planned, answer);
        assert!(told.contains("so it is not shown; the refusal stands") && !told.contains(" -> "), "seed {seed}: {told}");
    }
    println!("{} cycles of 9 and {} of 10", refused[9], refused[10]);
    assert!(refused[9] > 1_000 && refused[10] > 300, "hardly any cycles");
}

/// A refusal that names what is on no cycle shows none.
#[test]
fn no_cycle_is_made_up() {
    let (_, read) = text::read("g", include_bytes!("../../examples/g.table"));
    let words = read.expect("table G").words;
    let (planned, table) = (plan(&words), Table::of(&words).expect("a table"));
    for number in [9, 10] {
        for (place, second) in [(0, 0), (0, 8), (1, 16), (2, 63), (3, 0), (99, 99)] {
            assert_eq!(cycle(&table, &planned, Refusal { number, place, second }).err(), Some(Unheld::NoCycle));
        }
    }
}
