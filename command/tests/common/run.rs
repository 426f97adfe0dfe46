//! Runs the program as a user does.
#![allow(dead_code)]

use std::path::{Path, PathBuf};
use std::process::{Command, Output, Stdio};

pub fn program() -> Command {
    Command::new(env!("CARGO_BIN_EXE_skarnuth"))
}

/// The repository's root.
pub fn root() -> PathBuf {
    Path::new(env!("CARGO_MANIFEST_DIR")).join("..")
}

/// Runs it in a folder.
pub fn run_in(folder: &Path, words: &[&str]) -> Output {
    program().current_dir(folder).args(words).output().expect("the program starts")
}

/// Runs it with bytes on standard input.
pub fn run_on(bytes: &[u8], words: &[&str]) -> Output {
    piped(program().args(words), bytes)
}

/// Runs any program with bytes on standard input. It may end before it has read them all.
pub fn piped(command: &mut Command, bytes: &[u8]) -> Output {
    use std::io::Write as _;
    let mut child = command.stdin(Stdio::piped()).stdout(Stdio::piped()).stderr(Stdio::piped()).spawn().expect("the program starts");
    let mut input = child.stdin.take().expect("standard input is piped");
    let bytes = bytes.to_vec();
    let writer = std::thread::spawn(move || drop(input.write_all(&bytes)));
    let output = child.wait_with_output().expect("the program ends");
    writer.join().expect("the writer ends");
    output
}

pub fn text(bytes: &[u8]) -> String {
    String::from_utf8_lossy(bytes).into_owned()
}

/// The files of a folder with an ending, by name.
pub fn files(folder: &Path, ending: &str) -> Vec<PathBuf> {
    let entries = std::fs::read_dir(folder).unwrap_or_else(|e| panic!("{}: {e}", folder.display()));
    let mut files: Vec<PathBuf> =
        entries.map(|e| e.expect("an entry").path()).filter(|p| p.extension().is_some_and(|e| e == ending)).collect();
    files.sort();
    files
}
