//! What the command answers: the file that it is asked of, read and checked, and the proved code's answer with its names.

use crate::arguments::{plain, request, Form, Request, Task, HELP, USAGE};
use crate::check;
use crate::cycle::{CIRCULAR, NOT_ORDERED};
use crate::grammar::Grammar;
use crate::limits;
use crate::proved::{self, Planned, Refusal};
use crate::table::Table;
use crate::text;
use crate::words::{self, Bytes};
use crate::{dot, explain, list, refusal};
use std::ffi::{OsStr, OsString};
use std::io::Read as _;

/// What the command prints and how it ends.
#[derive(Debug, PartialEq, Eq)]
pub struct Outcome {
    /// For standard output.
    pub output: Vec<u8>,
    /// For standard error.
    pub message: String,
    pub status: u8,
}

/// The exit statuses: accepted; refused by the proved code; not read, not written, or not understood.
pub const ACCEPTED: u8 = 0;
pub const REFUSED: u8 = 1;
pub const UNREAD: u8 = 2;

impl Outcome {
    fn accepted(output: impl Into<Vec<u8>>) -> Outcome {
        Outcome { output: output.into(), message: String::new(), status: ACCEPTED }
    }

    fn refused(output: impl Into<Vec<u8>>, message: String) -> Outcome {
        Outcome { output: output.into(), message, status: REFUSED }
    }

    fn unread(message: String) -> Outcome {
        Outcome { output: Vec::new(), message, status: UNREAD }
    }
}

/// Runs the command on the words of its command line.
pub fn run(line: &[OsString]) -> Outcome {
    match line.first().and_then(|word| word.to_str()) {
        Some("help" | "--help" | "-h") if line.len() == 1 => Outcome::accepted(format!("{USAGE}{HELP}")),
        Some("version" | "--version") if line.len() == 1 => Outcome::accepted(format!("skarnuth {}\n", env!("SKARNUTH_VERSION"))),
        _ => match request(line) {
            Ok(request) => answered(&request),
            Err(why) => Outcome::unread(format!("skarnuth: {why}\n{USAGE}")),
        },
    }
}

// The file.

/// The name that messages have for a file.
fn shown(file: &OsStr) -> String {
    if file == "-" {
        "standard input".to_string()
    } else {
        plain(&file.to_string_lossy())
    }
}

/// The bytes of a file, up to a limit and one more.
fn bytes(file: &OsStr, most: usize) -> Result<Vec<u8>, Outcome> {
    let mut bytes = Vec::new();
    let limit = most as u64 + 1;
    let read = if file == "-" {
        std::io::stdin().take(limit).read_to_end(&mut bytes)
    } else {
        std::fs::File::open(file).and_then(|open| open.take(limit).read_to_end(&mut bytes))
    };
    match read {
        Ok(_) => Ok(bytes),
        Err(error) => Err(Outcome::unread(format!("skarnuth: {} cannot be read: {error}\n", shown(file)))),
    }
}

/// The bytes of a text, which has an end.
fn whole_text(file: &OsStr, otherwise: &str) -> Result<Vec<u8>, Outcome> {
    let bytes = bytes(file, limits::TEXT)?;
    if bytes.len() > limits::TEXT {
        return Err(Outcome::unread(format!("skarnuth: {} is longer than {} bytes: {otherwise}\n", shown(file), limits::TEXT)));
    }
    Ok(bytes)
}

fn answered(request: &Request) -> Outcome {
    let form = if request.task == Task::Words { Form::Readable } else { request.form };
    let found = match form {
        Form::Readable => readable(request),
        Form::Words => given_as_bytes(request),
        Form::Decimal => given_in_decimal(request),
    };
    found.unwrap_or_else(|unread| unread)
}

/// A readable table, converted and checked.
fn readable(request: &Request) -> Result<Outcome, Outcome> {
    let name = shown(&request.file);
    let bytes = whole_text(&request.file, "no readable table")?;
    let (source, read) = text::read(&name, &bytes);
    let reading = read.map_err(|faults| Outcome::unread(text::shown(&source, &faults)))?;
    let table = check::conversion(&bytes, &reading.words, &reading.symbols)
        .map_err(|unsound| Outcome::unread(text::shown(&source, &[unsound.fault(&source, &reading.places)])))?;
    if request.task == Task::Words {
        let decimal = request.form == Form::Decimal;
        return Ok(Outcome::accepted(if decimal {
            words::to_decimal(&reading.words).into_bytes()
        } else {
            words::to_bytes(&reading.words)
        }));
    }
    let grammar = Grammar::named(table, &reading);
    Ok(planned(request, &grammar, &proved::plan(&reading.words)))
}

fn given_as_bytes(request: &Request) -> Result<Outcome, Outcome> {
    match words::from_bytes(&bytes(&request.file, limits::LOOKED_AT)?) {
        Bytes::Words(words) => given(request, &words),
        Bytes::Odd(whole) => {
            let told = format!("The count of bytes is odd: word {whole} has one byte of two.\n");
            Ok(not_planned(request, Refusal { number: 1, place: whole, second: 0 }, &told))
        }
    }
}

fn given_in_decimal(request: &Request) -> Result<Outcome, Outcome> {
    let bytes = whole_text(&request.file, "no words in decimal")?;
    let words = words::from_decimal(&shown(&request.file), &bytes).map_err(Outcome::unread)?;
    given(request, &words)
}

/// Words that were given as words: the proved reader alone judges them.
fn given(request: &Request, words: &[u16]) -> Result<Outcome, Outcome> {
    let plan = proved::plan(words);
    if let Some(refusal) = plan.refusal.filter(|refusal| refusal.number < CIRCULAR) {
        return Ok(not_planned(request, refusal, &refusal::of_words(words, refusal)));
    }
    let table = Table::of(words).ok_or_else(|| Outcome::unread(format!("skarnuth: {} cannot be taken apart\n", shown(&request.file))))?;
    Ok(planned(request, &Grammar::numbered(table), &plan))
}

// The answer.

fn planned(request: &Request, grammar: &Grammar, planned: &Planned) -> Outcome {
    let rules = grammar.table.rules.len();
    if let Some(rule) = request.rule.filter(|&rule| rule >= rules) {
        return Outcome::unread(format!("skarnuth: {} has rules 0 to {}; --rule {rule} is none\n", shown(&request.file), rules - 1));
    }
    let Some(refusal) = planned.refusal else {
        return Outcome::accepted(match request.task {
            Task::List | Task::Words => list::listing(&grammar.table, planned),
            Task::Explain => format!(
                "accepted: {}, {}\n\n{}",
                counted(grammar.symbols.len(), "symbol"),
                counted(rules, "rule"),
                explain::explained(grammar, planned)
            ),
            Task::Dot => dot::drawn(grammar, planned, request.rule),
        });
    };
    let told = refusal::of_planning(grammar, planned, refusal);
    if request.task == Task::Dot && [CIRCULAR, NOT_ORDERED].contains(&refusal.number) {
        return Outcome::refused(dot::drawn(grammar, planned, request.rule), format!("{}: {refusal}\n{told}", shown(&request.file)));
    }
    not_planned(request, refusal, &told)
}

/// A refusal: `list` prints it as the listing program does, and the rest on standard error.
fn not_planned(request: &Request, refusal: Refusal, told: &str) -> Outcome {
    let name = shown(&request.file);
    match request.task {
        Task::List | Task::Words => Outcome::refused(format!("{refusal}\n"), format!("{name}: {told}")),
        Task::Explain => Outcome::refused(format!("{refusal}\n{told}"), String::new()),
        Task::Dot => Outcome::refused(Vec::new(), format!("{name}: {refusal}\n{told}")),
    }
}

fn counted(n: usize, what: &str) -> String {
    format!("{n} {what}{}", if n == 1 { "" } else { "s" })
}
