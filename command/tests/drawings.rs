//! The drawings are graphs as graphviz reads them: a small reader of its language takes them apart. Every arc that they have stands in the proved rows,
//! boxes of one set are on one rank, and what is not drawn is not needed: the paths are the same.

mod common;

use common::{table, Rng};
use skarnuth::grammar::Grammar;
use skarnuth::proved::{plan, Planned};
use skarnuth::table::Table;
use skarnuth::{dot, text};
use std::collections::{BTreeMap, BTreeSet};

/// A word or a sign of graphviz's language; what stood in quotes has no quotes any more.
#[derive(Debug, PartialEq, Clone)]
enum Token {
    Word(String),
    Sign(&'static str),
}

const SIGNS: [&str; 8] = ["->", "{", "}", "[", "]", "=", ";", ","];

fn tokens(text: &str) -> Vec<Token> {
    let mut out = Vec::new();
    let mut rest = text.trim_start();
    while !rest.is_empty() {
        let taken = if let Some(sign) = SIGNS.iter().find(|s| rest.starts_with(**s)) {
            out.push(Token::Sign(sign));
            sign.len()
        } else if let Some(quoted) = rest.strip_prefix('"') {
            let end = quoted.find('"').expect("a quote that ends");
            assert!(!quoted[..end].contains('\n'), "a line end within quotes");
            out.push(Token::Word(quoted[..end].to_string()));
            end + 2
        } else {
            let end = rest.find(|c: char| !c.is_ascii_alphanumeric() && c != '_').expect("a word that ends");
            assert!(end > 0, "no token: {}", &rest[..rest.len().min(20)]);
            out.push(Token::Word(rest[..end].to_string()));
            end
        };
        rest = rest[taken..].trim_start();
    }
    out
}

#[derive(Default)]
struct Graph {
    name: String,
    /// Boxes by occurrence, with their label.
    boxes: BTreeMap<usize, String>,
    /// Arcs, with what they are drawn with.
    arcs: Vec<(usize, usize, BTreeMap<String, String>)>,
    ranks: Vec<BTreeSet<usize>>,
}

struct Reader {
    tokens: Vec<Token>,
    at: usize,
}

impl Reader {
    fn next(&mut self) -> Token {
        self.at += 1;
        self.tokens[self.at - 1].clone()
    }

    fn is(&self, sign: &'static str) -> bool {
        self.tokens[self.at] == Token::Sign(sign)
    }

    fn sign(&mut self, sign: &'static str) {
        assert_eq!(self.next(), Token::Sign(sign));
    }

    fn word(&mut self) -> String {
        match self.next() {
            Token::Word(word) => word,
            other => panic!("a word, not {other:?}"),
        }
    }

    fn graph(&mut self) -> Graph {
        assert_eq!(self.word(), "digraph");
        let mut graph = Graph { name: self.word(), ..Graph::default() };
        self.statements(&mut graph);
        graph
    }

    fn statements(&mut self, graph: &mut Graph) {
        self.sign("{");
        let mut rank = None;
        while !self.is("}") {
            if self.is("{") {
                self.statements(graph);
                continue;
            }
            let word = self.word();
            if word == "subgraph" {
                assert!(self.word().starts_with("cluster_"));
                self.statements(graph);
                continue;
            }
            self.statement(graph, &word, &mut rank);
            self.sign(";");
        }
        self.sign("}");
        graph.ranks.extend(rank);
    }

    fn statement(&mut self, graph: &mut Graph, word: &str, rank: &mut Option<BTreeSet<usize>>) {
        if self.is("=") {
            self.sign("=");
            let value = self.word();
            match word {
                "rank" => *rank = Some(BTreeSet::from_iter((value == "same").then_some(usize::MAX))),
                _ => assert!(["label", "newrank"].contains(&word), "{word}"),
            }
        } else if self.is("->") {
            self.sign("->");
            let to = self.word();
            let with = self.attributes();
            graph.arcs.push((number(word), number(&to), with));
        } else if let (Some(rank), false) = (rank, self.is("[")) {
            rank.insert(number(word));
        } else {
            let with = self.attributes();
            if word != "node" {
                assert!(graph.boxes.insert(number(word), with["label"].clone()).is_none(), "a box twice");
            }
        }
    }

    fn attributes(&mut self) -> BTreeMap<String, String> {
        let mut out = BTreeMap::new();
        self.sign("[");
        while !self.is("]") {
            let name = self.word();
            self.sign("=");
            out.insert(name, self.word());
            if self.is(",") {
                self.sign(",");
            }
        }
        self.sign("]");
        out
    }
}

fn number(name: &str) -> usize {
    name.strip_prefix('o').and_then(|n| n.parse().ok()).unwrap_or_else(|| panic!("no box: {name}"))
}

fn graphs(text: &str) -> Vec<Graph> {
    let mut reader = Reader { tokens: tokens(text), at: 0 };
    let mut out = Vec::new();
    while reader.at < reader.tokens.len() {
        out.push(reader.graph());
    }
    out
}

/// The paths of one arc or more.
fn paths(arcs: impl Iterator<Item = (usize, usize)>) -> [u64; 64] {
    let mut rows = [0u64; 64];
    arcs.for_each(|(from, to)| rows[from] |= 1 << to);
    for middle in 0..64 {
        for from in 0..64 {
            if rows[from] >> middle & 1 == 1 {
                rows[from] |= rows[middle];
            }
        }
    }
    rows
}

fn check(name: &str, table: &Table, planned: &Planned, drawn: &str) {
    let graphs = graphs(drawn);
    assert_eq!(graphs.len(), table.rules.len(), "{name}");
    for (r, graph) in graphs.iter().enumerate() {
        assert_eq!(graph.name, format!("rule {r}"));
        let occurrences: Vec<usize> = table.rules[r].occurrences(table).map(|(i, a)| 8 * i + a).collect();
        assert_eq!(graph.boxes.keys().copied().collect::<Vec<_>>(), occurrences, "{name}: a box for each occurrence");
        assert_eq!(paths(graph.arcs.iter().map(|a| (a.0, a.1)))[..], planned.rows[64 * r..64 * r + 64], "{name}: the paths of rule {r}");
        for rank in &graph.ranks {
            let members: Vec<usize> = rank.iter().copied().filter(|&o| o != usize::MAX).collect();
            let sets: BTreeSet<&str> = members.iter().map(|o| graph.boxes[o].split("\\nset ").nth(1).expect("a set")).collect();
            assert!(rank.contains(&usize::MAX) && members.len() > 1 && sets.len() == 1, "{name}: {rank:?} {sets:?}");
            assert!(members.iter().all(|o| o / 8 == members[0] / 8), "{name}: a rank is of one symbol");
        }
        let red: Vec<(usize, usize)> = graph.arcs.iter().filter(|a| a.2.contains_key("color")).map(|a| (a.0, a.1)).collect();
        match planned.refusal {
            Some(refusal) if refusal.place == r => {
                assert!(paths(red.into_iter())[refusal.second] >> refusal.second & 1 == 1, "{name}: a red cycle")
            }
            _ => assert!(red.is_empty(), "{name}: red without a cycle"),
        }
    }
}

#[test]
fn drawings_are_graphs_with_the_proved_paths() {
    let mut refused = [0; 11];
    for seed in 0..3_000 {
        let (_, read) = text::read("seeded", table(&mut Rng::new(seed)).as_bytes());
        let reading = read.unwrap_or_else(|f| panic!("seed {seed}: {}", f[0].text));
        let planned = plan(&reading.words);
        let of = || Table::of(&reading.words).expect("a table");
        let named = dot::drawn(&Grammar::named(of(), &reading), &planned, None);
        check(&format!("seed {seed}"), &of(), &planned, &named);
        let numbered = dot::drawn(&Grammar::numbered(of()), &planned, None);
        check(&format!("seed {seed} by number"), &of(), &planned, &numbered);
        refused[planned.refusal.map_or(0, |r| r.number as usize)] += 1;
    }
    println!("drawings of accepted tables {}, refused with 9 {}, with 10 {}", refused[0], refused[9], refused[10]);
    assert!(refused[0] > 500 && refused[9] > 200 && refused[10] > 50);
}
