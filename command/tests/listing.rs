//! `skarnuth list` prints what the proved listing program prints, byte for byte: on the examples, on seeded tables and on damaged words.

mod common;
#[path = "common/run.rs"]
mod run;

use common::{table, Rng};
use run::{files, piped, root, run_on, text};
use skarnuth::text::read;
use skarnuth::words::to_bytes;
use std::process::Command;

/// Where bin/build puts the listing program.
const LISTING: &str = "command/target/listing";

fn listed(bytes: &[u8]) -> String {
    let program = root().join(LISTING);
    assert!(program.exists(), "{LISTING} is missing: run bin/build all at the repository's root first");
    let out = piped(&mut Command::new(program), bytes);
    assert!(out.stderr.is_empty(), "{}", text(&out.stderr));
    text(&out.stdout)
}

/// The same from words, and, where there is a text, from it.
fn same(words: &[u8], readable: Option<&[u8]>) {
    let expected = listed(words);
    let status = if expected.starts_with("plan ") { 0 } else { 1 };
    let out = run_on(words, &["list", "--words", "-"]);
    assert_eq!((out.status.code(), text(&out.stdout)), (Some(status), expected.clone()));
    if let Some(bytes) = readable {
        let out = run_on(bytes, &["list", "-"]);
        assert_eq!((out.status.code(), text(&out.stdout)), (Some(status), expected));
    }
}

fn words_of(bytes: &[u8]) -> Vec<u8> {
    to_bytes(&read("table", bytes).1.unwrap_or_else(|f| panic!("{}", f[0].text)).words)
}

#[test]
fn examples() {
    for file in files(&root().join("examples"), "table") {
        let bytes = std::fs::read(&file).expect("an example");
        same(&words_of(&bytes), Some(&bytes));
    }
}

#[test]
fn seeded_tables() {
    for seed in 0..150 {
        let mut rng = Rng::new(seed);
        let readable = table(&mut rng).into_bytes();
        let mut words = words_of(&readable);
        same(&words, Some(&readable));
        // Damaged: a byte changed, then cut anywhere.
        let at = rng.below(words.len());
        words[at] = rng.next() as u8;
        same(&words, None);
        words.truncate(rng.below(words.len()));
        same(&words, None);
    }
}

#[test]
fn lengths_around_what_is_looked_at() {
    let g = words_of(&std::fs::read(root().join("examples/g.table")).expect("table G"));
    for n in [0, 1, 2, 95, 96, 97, 65_534, 65_535, 65_536, 65_537, 200_001] {
        let mut bytes = g.clone();
        bytes.resize(n, 0);
        same(&bytes, None);
    }
}

/// What MANUAL says of the listing program: its messages, that its status is always 0, and the stack that it wants.
#[test]
fn what_the_manual_says_of_the_listing_program() {
    let run = |script: &str| {
        // Without an environment, which would count as stack.
        let out = Command::new("sh").env_clear().current_dir(root()).args(["-c", script, LISTING]).output().expect("sh starts");
        (out.status.code(), text(&out.stdout), text(&out.stderr))
    };
    let unreadable = (Some(0), String::new(), "listing: standard input cannot be read\n".to_string());
    assert_eq!(run("exec \"$0\" < examples"), unreadable);
    assert_eq!(run("exec \"$0\" <&-"), unreadable);
    let unwritable = (Some(0), String::new(), "listing: standard output cannot be written\n".to_string());
    assert_eq!(run("exec \"$0\" < VERSION > /dev/full"), unwritable);
    assert_eq!(run("exec \"$0\" < VERSION >&-"), unwritable);
    assert_eq!(run("printf abc | \"$0\""), (Some(0), "refused 1 1 0\n".to_string(), String::new()));
    let long = std::env::temp_dir().join(format!("skarnuth-{}.words", std::process::id()));
    std::fs::write(&long, longest()).expect("a file");
    let (status, listed, _) = run(&format!("ulimit -s 256; exec \"$0\" < {}", long.display()));
    std::fs::remove_file(&long).expect("removed");
    assert_eq!((status, listed.lines().count()), (Some(0), 67), "the longest table, in 256 KiB of stack");
    assert_eq!(run("ulimit -s 128; exec \"$0\" < VERSION"), (None, String::new(), String::new()), "a signal");
}

/// The longest ordered table: 64 rules of length 7 in which every occurrence is defined, all but one of a rule by four arguments.
fn longest() -> Vec<u8> {
    let mut words: Vec<u16> = vec![32, 64, 0, 0, 8, 0, 0, 8, 255];
    words.extend([1, 0, 0].repeat(30));
    let order: Vec<u16> = (8..64).chain(0..8).collect();
    for _ in 0..64 {
        words.extend([0, 7, 1, 1, 1, 1, 1, 1, 1, 64, order[0], 0, 0]);
        for k in 1..64 {
            words.extend([order[k], 8, order[k - 1], order[k / 2], order[k / 3], order[k * 3 / 4]]);
        }
    }
    to_bytes(&words)
}
