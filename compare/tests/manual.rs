//! Every example of docs/MANUAL.md: its cases are run through the exported functions, its other blocks are compared with what they show.

use independent::cases::{lines, G};
use independent::{proved, Ran, Refusal, NUMBERS};
use std::process::Command;

const MANUAL: &str = include_str!("../../docs/MANUAL.md");
const ROOT: &str = concat!(env!("CARGO_MANIFEST_DIR"), "/..");
/// What lent buffers hold before a call, so that what is left as found shows.
const ROW: u64 = 0x7777_7777_7777_7777;
const WORD: u16 = 0x7777;

/// The fenced blocks: what stands after the fence, and the lines.
fn blocks() -> Vec<(&'static str, Vec<&'static str>)> {
    let mut out: Vec<(&str, Vec<&str>)> = Vec::new();
    let mut inside = false;
    for line in MANUAL.lines() {
        if let Some(kind) = line.strip_prefix("```") {
            inside = !inside;
            if inside {
                assert!(!kind.is_empty(), "a block that says nothing of its kind");
                out.push((kind, Vec::new()));
            }
        } else if inside {
            out.last_mut().unwrap().1.push(line);
        }
    }
    assert!(!inside, "a block that does not end");
    out
}

fn numbers<T: std::str::FromStr>(text: &str) -> Vec<T> {
    let plain = text.replace(['|', ','], " ");
    plain.split_whitespace().map(|n| n.parse().unwrap_or_else(|_| panic!("no number: {n}"))).collect()
}

/// `at = value`.
fn setting<T: std::str::FromStr>(text: &str) -> (usize, T) {
    let (at, value) = text.split_once('=').unwrap_or_else(|| panic!("not a setting: {text}"));
    (numbers(at)[0], numbers(value).pop().unwrap())
}

/// Table G, the words of a readable table, or words.
fn table(text: &str) -> Vec<u16> {
    match text {
        "G" => G.to_vec(),
        file if file.ends_with(".table") => numbers(&shell(&format!("skarnuth words --decimal {file}"))),
        words => numbers(words),
    }
}

fn told(answer: Result<(&str, usize), Refusal>) -> String {
    match answer {
        Ok((how, count)) => format!("{how} {count}"),
        Err(r) => format!("refused {} {} {}", r.number, r.place, r.second),
    }
}

/// Runs one case and checks its answer, what it lists, and what its refusal leaves.
fn check(lines: &[&str]) {
    let entries: Vec<(&str, &str)> = lines.iter().map(|l| l.split_once(' ').map_or((*l, ""), |(k, v)| (k, v.trim()))).collect();
    let all = |key: &str| entries.iter().filter(|e| e.0 == key).map(|e| e.1).collect::<Vec<_>>();
    let one = |key: &str| all(key).first().copied();
    let count = |key: &str, other: usize| one(key).map_or(other, |n| n.parse().unwrap());
    for (key, _) in &entries {
        assert!(["table", "tree", "rows", "plan", "values", "budget", "set", "gives", "row", "word", "value"].contains(key), "no such line: {key}");
    }
    let words = table(one("table").expect("a case has a table"));
    let rules = words.get(1).map_or(0, |&n| n as usize);
    let mut rows = vec![ROW; count("rows", 64 * rules)];
    let mut plan = vec![WORD; count("plan", 256 + 112 * rules)];
    let (mut planned_rows, mut planned) = (rows.clone(), plan.clone());
    let answer = proved::plan(&words, &mut planned_rows, &mut planned);
    let mut values = Vec::new();
    let answer = if let Some(text) = one("tree") {
        let tree: Vec<u16> = numbers(text);
        values = vec![0i32; count("values", tree.len())];
        for (at, v) in all("set").into_iter().map(setting) {
            values[at] = v;
        }
        let found = values.clone();
        let budget = count("budget", u32::MAX as usize) as u32;
        let ran = proved::run(&words, &mut rows, &mut plan, &tree, &mut values, budget);
        assert!(ran.is_ok() || values == found, "a refusal leaves the values");
        assert!(rows == planned_rows && plan == planned, "a run plans first");
        ran.map(|ran| match ran {
            Ran::Done(n) => ("done", n as usize),
            Ran::Stopped(n) => ("stopped", n as usize),
        })
    } else {
        answer.map(|n| ("accepted", n))
    };
    assert_eq!(told(answer), one("gives").expect("a case gives something"), "of {lines:?}");
    if let Err(r) = answer {
        assert!(r.number > 8 || planned_rows.iter().all(|&w| w == ROW), "1 to 8 leave the rows");
        assert!(r.number > 10 || planned.iter().all(|&w| w == WORD), "1 to 10 leave the plan");
    }
    for (at, v) in all("row").into_iter().map(setting::<u64>) {
        assert_eq!(planned_rows[at], v, "row {at} of {lines:?}");
    }
    for (at, v) in all("word").into_iter().map(setting::<u16>) {
        assert_eq!(planned[at], v, "word {at} of {lines:?}");
    }
    for (at, v) in all("value").into_iter().map(setting::<i32>) {
        assert_eq!(values[at], v, "value {at} of {lines:?}");
    }
}

/// Runs a line of shell at the repository's root, with its commands on the path: what it prints on standard output and standard error together.
fn shell(line: &str) -> String {
    let path = format!("{ROOT}/bin:{}", std::env::var("PATH").unwrap());
    let out = Command::new("sh").current_dir(ROOT).env("PATH", path).args(["-c", &format!("exec 2>&1; {line}")]).output().unwrap();
    String::from_utf8(out.stdout).unwrap()
}

/// What a terminal shows: lines that begin with `$ ` are typed, the lines below each are printed.
fn console(lines: &[&str]) {
    assert!(lines[0].starts_with("$ "), "a console begins with a command: {lines:?}");
    let mut printed = Vec::new();
    for (at, line) in lines.iter().enumerate().filter(|(_, line)| line.starts_with("$ ")) {
        let until = lines[at + 1..].iter().position(|l| l.starts_with("$ ")).map_or(lines.len(), |n| at + 1 + n);
        let expected: String = lines[at + 1..until].iter().map(|l| format!("{l}\n")).collect();
        assert_eq!(shell(&line[2..]), expected, "of {line}");
        printed.push(until);
    }
    assert_eq!(printed.last(), Some(&lines.len()));
}

/// The operations of the grammar, with their arguments: each is read, and with an argument less or more it is not.
fn grammar(lines: &[&str]) {
    let text = lines.join("\n");
    let operations = text.split("operation  = ").nth(1).unwrap().split("\noccurrence").next().unwrap();
    let head = "start z\nnonterminal z s.v\nterminal t s.p\nrule z = t\n  z.v =";
    let mut count = 0;
    for line in operations.lines() {
        let words: Vec<&str> = line.trim_start_matches([' ', '|']).split(' ').map(|w| w.trim_matches('"')).collect();
        let argument = if words[1] == "NUMBER" { "-7" } else { "t.p" };
        for given in words.len() - 2..=words.len() {
            let table = format!("{head} {}{}", words[0], format!(" {argument}").repeat(given));
            let status = shell(&format!("printf '{}\n' '{}' | skarnuth words - > /dev/null 2> /dev/null; echo $?", "%s", table));
            assert_eq!(status, if given == words.len() - 1 { "0\n" } else { "2\n" }, "{table}");
        }
        count += 1;
    }
    assert_eq!(count, 9);
}

#[test]
fn every_block_is_true() {
    let mut numbers_given = Vec::new();
    for (kind, lines) in blocks() {
        let (kind, of) = kind.split_once(' ').unwrap_or((kind, ""));
        match kind {
            "case" => {
                check(&lines);
                let gives: Vec<&str> = lines.iter().find(|l| l.starts_with("gives")).unwrap().split_whitespace().collect();
                if gives[1] == "refused" {
                    numbers_given.push(gives[2].parse::<u32>().unwrap());
                }
            }
            "table" => assert_eq!(numbers::<u16>(&lines.join(" ")), table(of)),
            "console" => console(&lines),
            "grammar" => grammar(&lines),
            "file" => {
                let file = std::fs::read_to_string(format!("{ROOT}/{of}")).unwrap_or_else(|e| panic!("{of}: {e}"));
                assert!(file.contains(&lines.join("\n")), "{of} does not have these lines: {lines:?}");
            }
            "sh" => assert_eq!(numbers::<u16>(&shell(&lines.join("\n"))), G),
            _ => panic!("a block of no known kind: {kind}"),
        }
    }
    numbers_given.sort();
    numbers_given.dedup();
    assert_eq!(numbers_given, NUMBERS, "every refusal has an example");
}

#[test]
fn g_is_taken_apart_whole() {
    let section = MANUAL.split("## G, word by word").nth(1).unwrap().split("\n\nAttribute").next().unwrap();
    let mut words: Vec<u16> = Vec::new();
    for row in section.lines().filter(|l| l.starts_with("| ") && l.as_bytes()[2].is_ascii_digit()) {
        let cells: Vec<&str> = row.split('|').map(str::trim).collect();
        assert_eq!(numbers::<usize>(cells[1]), [words.len()], "where {row} begins");
        words.extend(numbers::<u16>(cells[2]));
    }
    assert_eq!(words, G);
}

#[test]
fn lending_from_rust() {
    let tree = lines(2);
    let mut rows = [0u64; 64 * 3];
    let mut plan = [0u16; 256 + 112 * 3];
    let mut values = [0i32; 40];
    (values[16], values[32]) = (3, 5);
    match proved::run(&G, &mut rows, &mut plan, &tree, &mut values, u32::MAX) {
        Ok(Ran::Done(actions)) => println!("value {}, {actions} actions", values[0]),
        Ok(Ran::Stopped(actions)) => println!("stopped after {actions} actions"),
        Err(refusal) => println!("refused {} {} {}", refusal.number, refusal.place, refusal.second),
    }
    assert_eq!(values[0], 0);
}
