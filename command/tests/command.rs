//! The command line, files that cannot be read, and output that cannot be written.

#[path = "common/run.rs"]
mod run;

use run::{program, root, run_in, run_on, text};
use std::ffi::OsStr;
use std::os::unix::ffi::OsStrExt as _;
use std::process::Stdio;

const USAGE: &str = "usage: skarnuth words [--decimal] FILE\n       \
    skarnuth list [--words | --decimal] FILE\n       \
    skarnuth explain [--words | --decimal] FILE\n       \
    skarnuth dot [--words | --decimal] [--rule NUMBER] FILE\n       \
    skarnuth help | version\n";

#[test]
fn bad_arguments_get_the_usage() {
    let g = "examples/g.table";
    let cases: [(&[&str], &str); 18] = [
        (&[], "what to do is missing"),
        (&["wrds", g], "no command wrds"),
        (&["--words", g], "no command --words"),
        (&["words"], "the file is missing"),
        (&["words", "--decimal"], "the file is missing"),
        (&["words", g, g], "one file at a time, not 2"),
        (&["words", "--words", g], "no option --words here"),
        (&["words", "-d", g], "no option -d here"),
        (&["list", "--rule", "1", g], "no option --rule here"),
        (&["list", "--words", "--decimal", g], "--decimal comes after another choice of the same kind"),
        (&["list", "--decimal", "--decimal", g], "--decimal comes after another choice of the same kind"),
        (&["dot", "--rule"], "--rule takes the number of a rule"),
        (&["dot", "--rule", "x", g], "--rule takes the number of a rule, 0 to 63; x is no whole number in decimal digits"),
        (&["dot", "--rule", "64", g], "--rule takes the number of a rule, 0 to 63; 64 is outside"),
        (&["dot", "--rule", "0", "--rule", "1", g], "--rule comes after another choice of the same kind"),
        (&["list", "--", "--words", g], "one file at a time, not 2"),
        (&["help", "words"], "help and version take no more words"),
        (&["version", g], "help and version take no more words"),
    ];
    for (words, why) in cases {
        let out = run_in(&root(), words);
        assert_eq!(
            (out.status.code(), text(&out.stdout), text(&out.stderr)),
            (Some(2), String::new(), format!("skarnuth: {why}\n{USAGE}")),
            "{words:?}"
        );
    }
}

#[test]
fn help_and_version() {
    for word in ["help", "--help", "-h"] {
        let out = run_in(&root(), &[word]);
        assert_eq!((out.status.code(), out.stderr.len()), (Some(0), 0));
        assert!(text(&out.stdout).starts_with(USAGE) && text(&out.stdout).contains("Exit status: 0 accepted, 1 refused, 2 "));
    }
    let version = std::fs::read_to_string(root().join("VERSION")).expect("the file VERSION");
    for word in ["version", "--version"] {
        assert_eq!(text(&run_in(&root(), &[word]).stdout), format!("skarnuth {version}"));
    }
}

/// The version is said in one place, and the others have it from there or say the same.
#[test]
fn one_version() {
    let read = |file: &str| std::fs::read_to_string(root().join(file)).unwrap_or_else(|e| panic!("{file}: {e}"));
    let version = read("VERSION").trim().to_string();
    let numbers: Vec<&str> = version.split('.').collect();
    assert!(numbers.len() == 3 && numbers.iter().all(|n| n.parse::<u32>().is_ok()), "{version}");
    assert!(read("command/Cargo.toml").contains(&format!("\nversion = \"{version}\"\n")), "command/Cargo.toml");
    let header = read("examples/skarnuth.h");
    assert!(header.contains(&format!("#define SKARNUTH_VERSION \"{version}\"\n")), "examples/skarnuth.h");
    for (part, number) in ["MAJOR", "MINOR", "PATCH"].iter().zip(&numbers) {
        assert!(header.contains(&format!("#define SKARNUTH_VERSION_{part} {number}\n")), "examples/skarnuth.h, {part}");
    }
    assert!(read("CHANGELOG.md").lines().any(|l| l.starts_with(&format!("## {version}"))), "CHANGELOG.md");
    assert!(read("command/skarnuth.pc.in").contains("\nVersion: @VERSION@\n"), "command/skarnuth.pc.in");
}

#[test]
fn what_cannot_be_read() {
    let missing = run_in(&root(), &["list", "no such file"]);
    assert_eq!(
        (missing.status.code(), text(&missing.stderr)),
        (Some(2), "skarnuth: no such file cannot be read: No such file or directory (os error 2)\n".to_string())
    );
    let folder = run_in(&root(), &["words", "examples"]);
    assert_eq!(
        (folder.status.code(), text(&folder.stderr)),
        (Some(2), "skarnuth: examples cannot be read: Is a directory (os error 21)\n".to_string())
    );
    let endless = run_in(&root(), &["words", "/dev/zero"]);
    assert_eq!(
        (endless.status.code(), text(&endless.stderr)),
        (Some(2), "skarnuth: /dev/zero is longer than 4194304 bytes: no readable table\n".to_string())
    );
    let endless = run_in(&root(), &["list", "--decimal", "/dev/zero"]);
    assert_eq!(
        (endless.status.code(), text(&endless.stderr)),
        (Some(2), "skarnuth: /dev/zero is longer than 4194304 bytes: no words in decimal\n".to_string())
    );
    let odd_name = program().arg("list").arg(OsStr::from_bytes(b"a\xff\x1b.table")).output().expect("the program starts");
    assert_eq!(odd_name.status.code(), Some(2));
    assert!(text(&odd_name.stderr).starts_with("skarnuth: a\u{fffd}\u{fffd}.table cannot be read: "), "{}", text(&odd_name.stderr));
}

#[test]
fn what_cannot_be_written() {
    for words in [["list", "examples/g.table"], ["words", "examples/g.table"], ["explain", "examples/crossed.table"]] {
        let full = std::fs::File::options().write(true).open("/dev/full").expect("/dev/full");
        let out = program()
            .current_dir(root())
            .args(words)
            .stdout(Stdio::from(full))
            .stderr(Stdio::piped())
            .spawn()
            .expect("it starts")
            .wait_with_output()
            .expect("it ends");
        assert_eq!(
            (out.status.code(), text(&out.stderr)),
            (Some(2), "skarnuth: standard output cannot be written: No space left on device (os error 28)\n".to_string()),
            "{words:?}"
        );
    }
}

/// Closed from the start, which Rust's runtime hides.
#[test]
fn closed_standard_output() {
    let script = "exec \"$0\" list examples/g.table >&-";
    let out = std::process::Command::new("sh")
        .current_dir(root())
        .args(["-c", script, env!("CARGO_BIN_EXE_skarnuth")])
        .output()
        .expect("sh starts");
    assert_eq!(
        (out.status.code(), text(&out.stderr)),
        (Some(2), "skarnuth: standard output cannot be written: it is closed\n".to_string())
    );
}

#[test]
fn standard_input_and_odd_names() {
    let g = std::fs::read(root().join("examples/g.table")).expect("table G");
    let expected = run_in(&root(), &["list", "examples/g.table"]).stdout;
    assert!(!expected.is_empty());
    assert_eq!(run_on(&g, &["list", "-"]).stdout, expected);
    assert_eq!(run_on(&g, &["list", "--", "-"]).stdout, expected);
    assert!(text(&run_on(b"start z y\n", &["words", "-"]).stderr).contains("standard input:1:9: `y` is a word too many"));
    let folder = std::env::temp_dir().join(format!("skarnuth-{}", std::process::id()));
    std::fs::create_dir_all(&folder).expect("a folder");
    std::fs::write(folder.join("--words"), &g).expect("a file");
    assert_eq!(run_in(&folder, &["list", "--", "--words"]).stdout, expected);
    std::fs::remove_dir_all(&folder).expect("removed");
}

/// Words in decimal are as strict as numbers in a readable table.
#[test]
fn decimal_words() {
    let told = |words: &[u8]| {
        let out = run_on(words, &["list", "--decimal", "-"]);
        assert_eq!((out.status.code(), out.stdout.len()), (Some(2), 0));
        text(&out.stderr)
    };
    let word = "a word is a whole number from 0 to 65535";
    let cases = [
        ("3 3 0 x", "1:7", "`x` is no whole number in decimal digits", "    1 | 3 3 0 x\n      |       ^\n"),
        ("1\n\n -1 2", "3:2", "`-1` is outside", "    3 |  -1 2\n      |  ^^\n"),
        ("65536", "1:1", "`65536` is outside", "    1 | 65536\n      | ^^^^^\n"),
        ("1,000", "1:1", "`1,000` is no whole number in decimal digits", "    1 | 1,000\n      | ^^^^^\n"),
        ("01", "1:1", "`01` is written 1", "    1 | 01\n      | ^^\n"),
        ("1 ,", "1:3", "`,` is no whole number in decimal digits", "    1 | 1 ,\n      |   ^\n"),
        ("1||2", "1:1", "`1||2` is no whole number in decimal digits", "    1 | 1||2\n      | ^^^^\n"),
    ];
    for (words, place, why, line) in cases {
        assert_eq!(told(words.as_bytes()), format!("standard input:{place}: {word}; {why}\n{line}"));
    }
    assert!(told(b"1\n\x1b[31m").starts_with("standard input:2:1: a control character (U+001B)"));
    assert!(told(&[0xff, 0xfd]).starts_with("standard input:1:1: byte 255 is not UTF-8 here\n"));
    assert!(told(&[3, 0, 3, 0]).starts_with("standard input:1:2: a byte 0, which no text has; words in bytes are read with --words\n"));
    let g = "3 3 0 | 0 1 0 | 0 3 2 | 1 1 0 | 0 1 1 2, 0 1 10, 9 1 8 |\n1 2 2 1 3, 0 4 8 16, 17 1 1, 2 1 18 | 1 1 2 2, 0 1 8, 2 6 8 1\n";
    assert_eq!(run_on(g.as_bytes(), &["list", "--decimal", "-"]).stdout, run_in(&root(), &["list", "examples/g.table"]).stdout);
}

#[test]
fn a_rule_to_draw() {
    let one = run_in(&root(), &["dot", "--rule", "1", "examples/g.table"]);
    assert_eq!(one.status.code(), Some(0));
    assert!(text(&one.stdout).starts_with("digraph \"rule 1\" {\n  label=\"EDP of rule 1 (line 13), lines = line lines\";\n"));
    assert_eq!(text(&one.stdout).matches("digraph").count(), 1);
    assert_eq!(text(&run_in(&root(), &["dot", "examples/g.table"]).stdout).matches("digraph").count(), 3);
    let none = run_in(&root(), &["dot", "--rule", "3", "examples/g.table"]);
    assert_eq!(
        (none.status.code(), text(&none.stderr)),
        (Some(2), "skarnuth: examples/g.table has rules 0 to 2; --rule 3 is none\n".to_string())
    );
}
