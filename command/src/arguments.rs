//! The command line: what may be asked for, and how.

use crate::limits;
use crate::text;
use std::ffi::OsString;

pub const USAGE: &str = "\
usage: skarnuth words [--decimal] FILE
       skarnuth list [--words | --decimal] FILE
       skarnuth explain [--words | --decimal] FILE
       skarnuth dot [--words | --decimal] [--rule NUMBER] FILE
       skarnuth help | version
";

pub const HELP: &str = "
  words     turns a readable table into words: little-endian bytes, or with --decimal numbers
  list      lists the plan of a table, or why there is none
  explain   says the plan in words: the visits of each symbol, the sequence of each rule
  dot       draws the dependencies of each rule, or of one, for graphviz
  help      prints this
  version   prints the version

FILE is a readable table (docs/MANUAL.md); - is standard input. For list, explain and dot
--words says that it has words as little-endian bytes, --decimal that it has them in decimal.

Exit status: 0 accepted, 1 refused, 2 for what could not be read or written.
";

#[derive(Clone, Copy, PartialEq, Eq)]
pub enum Task {
    Words,
    List,
    Explain,
    Dot,
}

/// What a file holds.
#[derive(Clone, Copy, PartialEq, Eq)]
pub enum Form {
    Readable,
    Words,
    Decimal,
}

pub struct Request {
    pub task: Task,
    pub form: Form,
    pub rule: Option<usize>,
    pub file: OsString,
}

/// What the words of a command line ask for, or what is wrong with them.
pub fn request(line: &[OsString]) -> Result<Request, String> {
    let task = match line.first().map(|word| word.to_string_lossy()).as_deref() {
        None => return Err("what to do is missing".to_string()),
        Some("words") => Task::Words,
        Some("list") => Task::List,
        Some("explain") => Task::Explain,
        Some("dot") => Task::Dot,
        Some("help" | "--help" | "-h" | "version" | "--version") => return Err("help and version take no more words".to_string()),
        Some(other) => return Err(format!("no command {}", plain(other))),
    };
    let mut form = None;
    let mut rule = None;
    let mut files = Vec::new();
    let mut words = line[1..].iter();
    let mut options = true;
    while let Some(word) = words.next() {
        match word.to_str() {
            Some("--") if options => options = false,
            Some("--decimal") if options => once(&mut form, Form::Decimal, "--decimal")?,
            Some("--words") if options && task != Task::Words => once(&mut form, Form::Words, "--words")?,
            Some("--rule") if options && task == Task::Dot => once(&mut rule, rule_number(words.next())?, "--rule")?,
            Some(other) if options && other.len() > 1 && other.starts_with('-') => return Err(format!("no option {} here", plain(other))),
            _ => files.push(word.clone()),
        }
    }
    match <[OsString; 1]>::try_from(files) {
        Ok([file]) => Ok(Request { task, form: form.unwrap_or(Form::Readable), rule, file }),
        Err(files) if files.is_empty() => Err("the file is missing".to_string()),
        Err(files) => Err(format!("one file at a time, not {}", files.len())),
    }
}

fn once<T>(option: &mut Option<T>, value: T, name: &str) -> Result<(), String> {
    match option.replace(value) {
        None => Ok(()),
        Some(_) => Err(format!("{name} comes after another choice of the same kind")),
    }
}

fn rule_number(word: Option<&OsString>) -> Result<usize, String> {
    let text = word.ok_or("--rule takes the number of a rule")?.to_string_lossy();
    let last = limits::RULES as i64 - 1;
    let number =
        text::whole(&text, &(0..=last)).map_err(|why| format!("--rule takes the number of a rule, 0 to {last}; {} {why}", plain(&text)))?;
    Ok(number as usize)
}

/// A text without characters that move the cursor.
pub fn plain(text: &str) -> String {
    text.chars().map(|c| if c.is_control() { '\u{fffd}' } else { c }).collect()
}
