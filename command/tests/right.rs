//! Every table of tests/right is document 01's table G, written otherwise: each gives G's words.

#[path = "common/run.rs"]
mod run;

use run::{files, root, run_in, run_on, text};
use std::path::Path;

const G: &str = "3 3 0 0 1 0 0 3 2 1 1 0 0 1 1 2 0 1 10 9 1 8 1 2 2 1 3 0 4 8 16 17 1 1 2 1 18 1 1 2 2 0 1 8 2 6 8 1\n";

#[test]
fn other_writings_give_the_same_words() {
    let folder = Path::new(env!("CARGO_MANIFEST_DIR")).join("tests/right");
    let mut tables = files(&folder, "table");
    assert!(tables.len() >= 10);
    tables.push(root().join("examples/g.table"));
    for table in tables {
        let out = run_in(&folder, &["words", "--decimal", table.to_str().expect("a name")]);
        assert_eq!(
            (out.status.code(), text(&out.stdout), text(&out.stderr)),
            (Some(0), G.to_string(), String::new()),
            "{}",
            table.display()
        );
    }
}

/// The file that the converter in awk took for a setting of a variable.
#[test]
fn a_name_with_an_equals_sign_is_a_file() {
    let folder = Path::new(env!("CARGO_MANIFEST_DIR")).join("tests/right");
    let out = run_in(&folder, &["words", "--decimal", "a=b.table"]);
    assert_eq!((out.status.code(), text(&out.stdout)), (Some(0), G.to_string()));
    let out = run_in(&folder, &["words", "c=d.table"]);
    assert_eq!((out.status.code(), out.stdout.len()), (Some(2), 0));
    assert!(text(&out.stderr).starts_with("skarnuth: c=d.table cannot be read: "), "{}", text(&out.stderr));
}

/// The examples' plans in words, and what is said of symbols that no tree can have.
#[test]
fn plans_in_words() {
    let out = run_in(&root(), &["explain", "examples/g.table"]);
    let expected = "accepted: 3 symbols, 3 rules\n\n\
        scenario: 1 visit\n  visit 1: nothing down; up below (set 1)\n\
        lines: 2 visits\n  visit 1: nothing down; up highest (set 3)\n  visit 2: down threshold (set 2); up below (set 1)\n\
        line: a terminal, the tree brings priority\n\n\
        rule 0 (line 9), scenario = lines\n  visit lines (1)\n  compute lines.threshold\n  visit lines (2)\n  compute scenario.below\n  leave 1\n\n\
        rule 1 (line 13), lines = line lines\n  visit lines#2 (1)\n  compute lines#1.highest\n  leave 1\n  \
        compute lines#2.threshold\n  visit lines#2 (2)\n  compute lines#1.below\n  leave 2\n\n\
        rule 2 (line 18), lines = line\n  compute lines.highest\n  leave 1\n  compute lines.below\n  leave 2\n";
    assert_eq!((out.status.code(), text(&out.stdout)), (Some(0), expected.to_string()));
    let table = "start z\nnonterminal z\nnonterminal lost\nnonterminal endless\nterminal alone s.a s.b\nterminal used\nrule z = endless used\nrule lost =\n";
    let out = run_on(table.as_bytes(), &["explain", "-"]);
    let expected = "accepted: 5 symbols, 2 rules\n\n\
        z: 1 visit\n  visit 1: nothing down; nothing up\n\
        lost: 1 visit (no rule has it on its right side: no tree can have it)\n  visit 1: nothing down; nothing up\n\
        endless: 1 visit (no rule has it on its left side: no tree can have it)\n  visit 1: nothing down; nothing up\n\
        alone: a terminal, the tree brings a, b (no rule has it on its right side: no tree can have it)\n\
        used: a terminal, without attributes\n\n\
        rule 0 (line 7), z = endless used\n  visit endless (1)\n  leave 1\n\n\
        rule 1 (line 8), lost =\n  leave 1\n";
    assert_eq!((out.status.code(), text(&out.stdout)), (Some(0), expected.to_string()));
}
