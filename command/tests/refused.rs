//! Refusals in the writer's terms: the cycles of tests/refused, word for word, and 1 to 7 of words that were given as words.

#[path = "common/run.rs"]
mod run;

use run::{files, root, run_in, run_on, text};
use skarnuth::words::to_bytes;
use std::path::Path;

#[test]
fn cycles_are_explained() {
    let folder = Path::new(env!("CARGO_MANIFEST_DIR")).join("tests/refused");
    let tables = files(&folder, "table");
    assert!(tables.len() >= 8);
    for table in &tables {
        let name = table.file_name().and_then(|n| n.to_str()).expect("a name");
        let expected = std::fs::read_to_string(table.with_extension("stdout")).unwrap_or_else(|e| panic!("{name} has no explanation: {e}"));
        let out = run_in(&folder, &["explain", name]);
        assert_eq!((out.status.code(), text(&out.stdout), text(&out.stderr)), (Some(1), expected.clone(), String::new()), "{name}");
        // `list` has the first line where the listing program has it, and the rest on standard error.
        let (first, rest) = expected.split_once('\n').expect("two lines or more");
        let out = run_in(&folder, &["list", name]);
        assert_eq!(
            (out.status.code(), text(&out.stdout), text(&out.stderr)),
            (Some(1), format!("{first}\n"), format!("{name}: {rest}")),
            "{name}"
        );
        let out = run_in(&folder, &["dot", name]);
        assert_eq!((out.status.code(), text(&out.stderr)), (Some(1), format!("{name}: {expected}")), "{name}");
        let arcs = expected.lines().filter(|l| l.starts_with("  ") && !l.starts_with("   ")).count();
        assert_eq!(text(&out.stdout).matches("color=red").count(), arcs, "{name}: the arcs of the cycle are red");
    }
}

/// The same table as words: the same cycle, by number.
#[test]
fn words_get_the_same_by_number() {
    let out = run_in(&root(), &["words", "examples/crossed.table"]);
    let out = run_on(&out.stdout, &["explain", "--words", "-"]);
    assert_eq!(out.status.code(), Some(1));
    assert_eq!(
        text(&out.stdout),
        "refused 10 0 8\n\
         The grammar is not ordered: no attribute depends on itself, but all nodes of a symbol are visited in one order,\n\
         that of its sets, and this order makes a cycle: n1#1.a0 in rule 0 (word 9), n0 = n1 n1.\n\
         Names are numbers: n1 is nonterminal 1, t2 terminal 2, a0 attribute 0.\n  \
         n1#1.a0 -> n1#2.a1  rule 0, word 20: by a function\n  \
         n1#2.a1 -> n1#2.a0  rule 0, word 9: by the order of sets, a1 (set 2) before a0 (set 1)\n  \
         n1#2.a0 -> n1#1.a1  rule 0, word 17: by a function\n  \
         n1#1.a1 -> n1#1.a0  rule 0, word 9: by the order of sets, a1 (set 2) before a0 (set 1)\n"
    );
}

/// Words in decimal, the refusal, and what is said of it.
const REFUSED: [(&str, &str, &str); 28] = [
    ("", "refused 1 0 0", "The words end too early: word 0 is missing. It would be the number of symbols, 1 to 32."),
    ("1", "refused 1 1 0", "The words end too early: word 1 is missing. It would be the number of rules, 1 to 64."),
    ("1 1 0 0 0 0", "refused 1 6 0", "The words end too early: word 6 is missing. It would be the left side of rule 0, below the number of symbols."),
    ("1 1 0 0 0 0 0", "refused 1 7 0", "The words end too early: word 7 is missing. It would be the number of symbols on the right side of rule 0, 0 to 7."),
    ("1 1 0 0 0 0 0 0", "refused 1 8 0", "The words end too early: word 8 is missing. It would be the number of functions of rule 0, 0 to 64."),
    ("1 1 0 | 0 1 0 | 0 0 1, 0 0", "refused 1 11 0", "The words end too early: word 11 is missing. It would be an argument of function 0 of rule 0, an occurrence."),
    ("33", "refused 2 0 0", "Word 0 is 33, which is out of range. It is the number of symbols, 1 to 32."),
    ("1 65", "refused 2 1 0", "Word 1 is 65, which is out of range. It is the number of rules, 1 to 64."),
    ("1 1 1", "refused 2 2 0", "Word 2 is 1, which is out of range. It is the start symbol, below the number of symbols."),
    ("1 1 0 2", "refused 2 3 0", "Word 3 is 2, which is out of range. It is the kind of symbol 0, 0 for a nonterminal or 1 for a terminal."),
    ("1 1 0 0 9", "refused 2 4 0", "Word 4 is 9, which is out of range. It is the number of attributes of symbol 0, 0 to 8."),
    ("1 1 0 0 1 2", "refused 2 5 0", "Word 5 is 2, which is out of range. It is the mask of symbol 0, a bit for each inherited attribute and none beyond its attributes."),
    ("1 1 0 0 0 0 1", "refused 2 6 0", "Word 6 is 1, which is out of range. It is the left side of rule 0, below the number of symbols."),
    ("1 1 0 0 0 0 0 8", "refused 2 7 0", "Word 7 is 8, which is out of range. It is the number of symbols on the right side of rule 0, 0 to 7."),
    ("1 1 0 0 0 0 0 2 0 5", "refused 2 9 0", "Word 9 is 5, which is out of range. It is the symbol at position 2 of rule 0, below the number of symbols."),
    ("1 1 0 0 0 0 0 0 65", "refused 2 8 0", "Word 8 is 65, which is out of range. It is the number of functions of rule 0, 0 to 64."),
    ("1 1 0 | 0 1 0 | 0 0 1, 0 9", "refused 2 10 0", "Word 10 is 9, which is out of range. It is the operation of function 0 of rule 0, 0 to 8."),
    ("1 1 0 | 1 1 1", "refused 3 5 0", "Word 5: symbol 0 is a terminal, and its mask makes an attribute inherited; terminals have synthesized attributes only."),
    ("2 1 0 | 0 0 0 | 1 0 0 | 1", "refused 3 9 0", "Word 9: the left side of rule 0 is a terminal; it must be a nonterminal."),
    ("1 1 0 | 1 0 0", "refused 3 2 0", "Word 2: the start symbol, 0, is a terminal; it must be a nonterminal."),
    ("1 1 0 | 0 1 1", "refused 3 2 0", "Word 2: the start symbol, 0, has an inherited attribute; it must have none."),
    ("1 1 0 | 0 1 0 | 0 0 1, 1", "refused 4 9 0", "Word 9 is 1, which is no occurrence of its rule. It is the target of function 0 of rule 0, an occurrence.\nThe rule's occurrences: 0"),
    ("1 1 0 | 0 2 0 | 0 1 0 2, 0 1 8, 1 1 16", "refused 4 15 0", "Word 15 is 16, which is no occurrence of its rule. It is an argument of function 1 of rule 0, an occurrence.\nThe rule's occurrences: 0 1 8 9"),
    ("1 1 0 | 0 1 0 | 0 1 0 1, 8", "refused 5 10 0", "Word 10 is 8: occurrence 8 is not for rule 0 to define: attribute 0 of position 1 is synthesized, and stands on the right side."),
    ("1 1 0 | 0 1 0 | 0 0 2, 0 0 7, 0", "refused 5 12 0", "Word 12 is 0: occurrence 0 of rule 0 has a second function, number 1; number 0 defines it already."),
    ("1 1 0 | 0 3 0 | 0 0 1, 1 0 5", "refused 6 12 0", "Before word 12: rule 0 has no function for occurrence 0, 2."),
    ("1 2 0 | 0 1 0 | 0 0 0 | 0 0 1, 0 0 5", "refused 6 9 0", "Before word 9: rule 0 has no function for occurrence 0."),
    ("1 1 0 | 0 0 0 | 0 0 0 | 0 9", "refused 7 9 0", "The table ends before word 9; from there on 2 words are left over."),
];

#[test]
fn one_to_seven_by_number() {
    for (words, refused, told) in REFUSED {
        let out = run_on(words.as_bytes(), &["explain", "--decimal", "-"]);
        assert_eq!(
            (out.status.code(), text(&out.stdout), text(&out.stderr)),
            (Some(1), format!("{refused}\n{told}\n"), String::new()),
            "{words}"
        );
        let out = run_on(words.as_bytes(), &["list", "--decimal", "-"]);
        assert_eq!(
            (out.status.code(), text(&out.stdout), text(&out.stderr)),
            (Some(1), format!("{refused}\n"), format!("standard input: {told}\n")),
            "{words}"
        );
        let out = run_on(words.as_bytes(), &["dot", "--decimal", "-"]);
        assert_eq!(
            (out.status.code(), text(&out.stdout), text(&out.stderr)),
            (Some(1), String::new(), format!("standard input: {refused}\n{told}\n")),
            "{words}"
        );
    }
}

/// Cut short and changed at every word, every table ends in an explanation and not in a crash.
#[test]
fn every_word_missing_or_changed() {
    let table = run_in(&root(), &["words", "--decimal", "examples/sources.table"]);
    let words: Vec<u16> = text(&table.stdout).split_whitespace().map(|w| w.parse().expect("a word")).collect();
    for at in 0..words.len() {
        let mut others = vec![words[..at].to_vec()];
        for other in [0, 1, 2, 7, 8, 9, 33, 64, 65, 255, 65_535] {
            let mut changed = words.clone();
            changed[at] = other;
            others.push(changed);
        }
        for other in others {
            use skarnuth::{grammar::Grammar, proved, refusal, table::Table};
            let planned = proved::plan(&other);
            let Some(refused) = planned.refusal else { continue };
            let told = if refused.number < 9 {
                refusal::of_words(&other, refused)
            } else {
                refusal::of_planning(&Grammar::numbered(Table::of(&other).expect("a table")), &planned, refused)
            };
            assert!(told.ends_with('\n') && !told.contains("no part of a table"), "word {at}: {told}");
        }
    }
}

#[test]
fn odd_bytes_are_refused_as_by_the_listing_program() {
    let out = run_on(&[3, 0, 3], &["explain", "--words", "-"]);
    assert_eq!(
        (out.status.code(), text(&out.stdout)),
        (Some(1), "refused 1 1 0\nThe count of bytes is odd: word 1 has one byte of two.\n".to_string())
    );
    let out = run_on(&to_bytes(&[1, 1, 0, 0, 0, 0, 0, 0, 0]), &["list", "--words", "-"]);
    assert_eq!((out.status.code(), text(&out.stdout)), (Some(0), "plan 1 1\ns 0 1\nr 0 128\n".to_string()));
}
