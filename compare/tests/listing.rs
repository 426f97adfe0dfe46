//! The listing program, run on document 01's checked examples, on every kind of input that a user can give it, and on seeded tables, against
//! the listing of the independent implementation's plan.

use independent::cases::{case, longest, G};
use independent::plan;
use independent::plan::visits;
use std::fmt::Write as _;
use std::io::Write as _;
use std::path::Path;
use std::process::{Command, Stdio};

/// What the program writes on standard output and on standard error.
fn listed(bytes: &[u8]) -> (String, String) {
    let program = Path::new(env!("CARGO_MANIFEST_DIR")).join("../crates/listing/out/listing");
    assert!(program.exists(), "crates/listing/out/listing is missing: run `rt run` in crates/listing first");
    let mut child =
        Command::new(program).stdin(Stdio::piped()).stdout(Stdio::piped()).stderr(Stdio::piped()).spawn().expect("the program starts");
    let mut input = child.stdin.take().unwrap();
    // The program looks at 65,536 bytes and may end before all are taken.
    let _ = input.write_all(bytes);
    drop(input);
    let out = child.wait_with_output().unwrap();
    (String::from_utf8(out.stdout).unwrap(), String::from_utf8(out.stderr).unwrap())
}

fn bytes(words: &[u16]) -> Vec<u8> {
    words.iter().flat_map(|w| w.to_le_bytes()).collect()
}

/// The text that document 01 asks for.
fn expected(bytes: &[u8]) -> String {
    let looked = &bytes[..bytes.len().min(65_536)];
    if looked.len() % 2 == 1 {
        return format!("refused 1 {} 0\n", looked.len() / 2);
    }
    let words: Vec<u16> = looked.chunks(2).map(|b| u16::from_le_bytes([b[0], b[1]])).collect();
    let (mut rows, mut out) = (vec![0; 4096], vec![0; 7424]);
    if let Err(r) = plan(&words, &mut rows, &mut out) {
        return format!("refused {} {} {}\n", r.number, r.place, r.second);
    }
    let mut text = format!("plan {} {}\n", words[0], words[1]);
    for x in 0..words[0] as usize {
        if words[3 + 3 * x] == 0 {
            let sets: [u8; 8] = std::array::from_fn(|a| out[8 * x + a] as u8);
            write!(text, "s {} {}", x, visits(&sets)).unwrap();
            for set in &sets[..words[4 + 3 * x] as usize] {
                write!(text, " {set}").unwrap();
            }
            text.push('\n');
        }
    }
    for r in 0..words[1] as usize {
        let at = 256 + 112 * r;
        write!(text, "r {r}").unwrap();
        for action in &out[at + 1..at + 1 + out[at] as usize] {
            write!(text, " {action}").unwrap();
        }
        text.push('\n');
    }
    text
}

fn same(bytes: &[u8]) {
    assert_eq!(listed(bytes), (expected(bytes), String::new()));
}

#[test]
fn checked_examples() {
    let g = "plan 3 3\ns 0 1 1\ns 1 2 3 2 1\nr 0 72 9 73 0 128\nr 1 80 0 128 17 81 2 129\nr 2 0 128 2 129\n";
    let text = |words: &[u16]| listed(&bytes(words)).0;
    assert_eq!(text(&G), g);
    assert_eq!(text(&[]), "refused 1 0 0\n");
    assert_eq!(text(&G[..47]), "refused 1 47 0\n");
    assert_eq!(text(&[&G[..], &[0]].concat()), "refused 7 48 0\n");
    assert_eq!(text(&[33, 1, 0]), "refused 2 0 0\n");
    assert_eq!(text(&[2, 2, 0, 0, 1, 0, 0, 2, 2, 0, 1, 1, 2, 0, 1, 8, 9, 1, 8, 1, 0, 1, 0, 1, 1]), "refused 9 0 8\n");
    assert_eq!(
        text(&[2, 2, 0, 0, 1, 0, 0, 2, 2, 0, 2, 1, 1, 3, 0, 1, 8, 9, 1, 16, 17, 1, 8, 1, 0, 1, 0, 0, 7]),
        "refused 10 0 8\n"
    );
    assert_eq!(text(&[1, 1, 0, 0, 1, 0, 0, 0, 1, 0, 1, 0]), "refused 9 0 0\n");
    assert_eq!(text(&[1, 1, 0, 0, 0, 0, 0, 0, 0]), "plan 1 1\ns 0 1\nr 0 128\n");
}

#[test]
fn every_count_of_bytes() {
    let whole = bytes(&G);
    for n in 0..whole.len() {
        same(&whole[..n]);
    }
    for n in [65_534, 65_535, 65_536, 65_537, 65_539, 200_000] {
        let mut long = whole.clone();
        long.resize(n, 0);
        same(&long);
    }
}

#[test]
fn seeded_tables() {
    same(&bytes(&longest().words()));
    for seed in 0..400 {
        same(&bytes(&case(seed).words));
    }
}

#[test]
fn what_cannot_be_read() {
    let program = Path::new(env!("CARGO_MANIFEST_DIR")).join("../crates/listing/out/listing");
    let folder = std::fs::File::open(env!("CARGO_MANIFEST_DIR")).unwrap();
    let out = Command::new(program).stdin(folder).output().unwrap();
    assert_eq!(String::from_utf8(out.stderr).unwrap(), "listing: standard input cannot be read\n");
    assert!(out.stdout.is_empty());
}
