//! Each word of a conversion has its place in the file: where a name stands that became that word, there it is shown.

mod common;

use common::{table, Rng};
use skarnuth::grammar::Grammar;
use skarnuth::role::{role, Role};
use skarnuth::table::Table;
use skarnuth::text::read;

#[test]
fn each_word_stands_where_it_was_written() {
    for seed in 0..500 {
        let written = table(&mut Rng::new(seed));
        let (source, reading) = read("seeded", written.as_bytes());
        let reading = reading.unwrap_or_else(|f| panic!("seed {seed}: {}", f[0].text));
        let grammar = Grammar::named(Table::of(&reading.words).expect("a table"), &reading);
        let plain = |name: &str, rule: usize| {
            let (symbol, attribute) = name.split_once('.').expect("an occurrence");
            let header = source.lines[reading.rules[rule].header]
                .split_whitespace()
                .filter(|w| *w == symbol.split('#').next().unwrap_or(""))
                .count();
            if header == 1 {
                format!("{}.{attribute}", symbol.split('#').next().unwrap_or(""))
            } else {
                name.to_string()
            }
        };
        for (at, &word) in reading.words.iter().enumerate() {
            let place = reading.places[at];
            let there = &source.lines[place.line][place.from..place.to];
            let expected = match role(&reading.words, at).expect("a role") {
                Role::Start => grammar.symbols[word as usize].name.clone(),
                Role::Kind(x) | Role::Attributes(x) | Role::Mask(x) => grammar.symbols[x].name.clone(),
                Role::Left(_) | Role::Right(..) => grammar.symbols[word as usize].name.clone(),
                Role::Length(_) | Role::Functions(_) => "rule".to_string(),
                Role::Target(r, _) => plain(&grammar.occurrence(r, word as usize), r),
                Role::Argument(r, n) if grammar.table.rules[r].functions[n].operation != 0 => {
                    plain(&grammar.occurrence(r, word as usize), r)
                }
                Role::Argument(..) => (word as i16).to_string(),
                Role::Operation(..) => {
                    ["const", "copy", "sum", "difference", "larger", "smaller", "less", "choose", "served"][word as usize].to_string()
                }
                Role::Symbols | Role::Rules | Role::End => continue,
            };
            let there = if there.contains('.') && there.contains('#') {
                plain(
                    there,
                    match role(&reading.words, at) {
                        Some(Role::Target(r, _) | Role::Argument(r, _)) => r,
                        other => panic!("seed {seed}: an occurrence at {other:?}"),
                    },
                )
            } else {
                there.to_string()
            };
            assert_eq!(there, expected, "seed {seed}, word {at}");
        }
        assert_eq!(role(&reading.words, reading.words.len()), Some(Role::End), "seed {seed}: the end");
    }
}
