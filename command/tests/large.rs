//! Large and odd files: each ends soon, in words or in faults, and in a message of a few lines.

#[path = "common/run.rs"]
mod run;

use run::{run_on, text};
use std::time::{Duration, Instant};

const SIZE: usize = 4 * 1024 * 1024;
const LONGEST: Duration = Duration::from_secs(10);

/// A text of many copies.
fn copies(head: &str, part: &str) -> Vec<u8> {
    let mut out = head.as_bytes().to_vec();
    while out.len() + part.len() < SIZE {
        out.extend(part.bytes());
    }
    out
}

/// A text of many parts, each with its number.
fn numbered(head: &str, part: &str, after: &str) -> Vec<u8> {
    let mut out = head.as_bytes().to_vec();
    for n in 0.. {
        let part = part.replace("NUMBER", &n.to_string());
        if out.len() + part.len() + after.len() >= SIZE {
            break;
        }
        out.extend(part.bytes());
    }
    out.extend(after.bytes());
    out
}

#[test]
fn large_files_end_soon() {
    let head = "start z\nnonterminal z s.v\nterminal t s.p\n";
    let rule = "start z\nnonterminal z s.v\nterminal t s.p\nrule z = t\n";
    let cases = [
        ("lines of nothing", copies("", "\n")),
        ("comments", copies("", "# rule z = t\n")),
        ("words", copies("", "x\n")),
        ("one line", copies("", "x ")),
        ("one word", copies("start ", "x")),
        ("one comment", copies("#", "x")),
        ("one number", copies(&format!("{rule}  z.v = const "), "9")),
        ("zeros", copies(&format!("{rule}  z.v = const "), "0")),
        ("symbols", numbered("start z\n", "terminal tNUMBER\n", "")),
        ("attributes", numbered("start z\nnonterminal z", " s.aNUMBER", "\n")),
        ("the same attribute", copies("start z\nnonterminal z", " s.a")),
        ("the same symbol", copies("", "terminal t s.p\n")),
        ("starts", copies("", "start z\n")),
        ("rules", copies(head, "rule z =\n")),
        ("a long right side", copies(&format!("{head}rule z ="), " t")),
        ("a long right side of others", numbered(&format!("{head}rule z ="), " tNUMBER", "\n")),
        ("functions", copies(rule, "  z.v = copy t.p\n")),
        ("functions of others", numbered(rule, "  zNUMBER.v = copy t.p\n", "")),
        ("arguments", copies(&format!("{rule}  z.v = copy"), " t.p")),
        ("functions without a rule", copies(head, "  z.v = const 1\n")),
        ("tabs", copies("", "\t\n")),
        ("carriage returns", copies("", "\r")),
        ("bytes 0", vec![0; SIZE - 1]),
        ("bytes 255", vec![255; SIZE - 1]),
        ("wide characters", copies("", "\u{10ffff}")),
        ("signs", copies("", "#")),
        ("equals signs", copies("", "= ")),
        ("dots", copies("", ".")),
        ("more than a text may be", vec![b' '; SIZE + 1]),
    ];
    for (name, bytes) in &cases {
        let start = Instant::now();
        let out = run_on(bytes, &["words", "-"]);
        let took = start.elapsed();
        assert_eq!((out.status.code(), out.stdout.len()), (Some(2), 0), "{name}");
        assert!(!out.stderr.is_empty() && out.stderr.len() < 20_000, "{name}: a message of {} bytes", out.stderr.len());
        assert!(text(&out.stderr).lines().count() <= 161, "{name}: {} lines", text(&out.stderr).lines().count());
        assert!(took < LONGEST, "{name} took {took:?}");
    }
}

/// The longest table that a text can be: 32 symbols, 64 rules, every function with four arguments.
#[test]
fn the_longest_table() {
    let names: Vec<String> = (0..8).map(|a| format!("attribute_{a}")).collect();
    let mut table = "start first\nnonterminal first".to_string();
    names.iter().for_each(|n| table += &format!(" s.{n}"));
    table += "\nnonterminal second";
    names.iter().for_each(|n| table += &format!(" i.{n}"));
    (2..32).for_each(|x| table += &format!("\nterminal terminal_{x}"));
    let order: Vec<String> = (1..8)
        .flat_map(|i| names.iter().map(move |n| format!("second#{i}.{n}")))
        .chain(names.iter().map(|n| format!("first.{n}")))
        .collect();
    for _ in 0..64 {
        table += "\nrule first = second second second second second second second\n";
        table += &format!("  {} = const -32768\n", order[0]);
        for k in 1..64 {
            table += &format!("  {} = served {} {} {} {}\n", order[k], order[k - 1], order[k / 2], order[k / 3], order[k * 3 / 4]);
        }
    }
    let start = Instant::now();
    let out = run_on(table.as_bytes(), &["words", "-"]);
    assert_eq!((out.status.code(), out.stdout.len(), text(&out.stderr)), (Some(0), 2 * 25_123, String::new()));
    let out = run_on(table.as_bytes(), &["explain", "-"]);
    assert_eq!(out.status.code(), Some(0));
    assert_eq!(text(&out.stdout).matches("compute ").count(), 64 * 64);
    let out = run_on(table.as_bytes(), &["dot", "-"]);
    assert_eq!((out.status.code(), text(&out.stdout).matches("digraph").count()), (Some(0), 64));
    assert!(start.elapsed() < LONGEST, "the longest table took {:?}", start.elapsed());
}
