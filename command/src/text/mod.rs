//! The strict reader of the readable form (its grammar is in docs/MANUAL.md). Whatever it does not understand in one way only is a fault.

mod fault;
mod meaning;
mod names;
mod number;
mod source;
mod syntax;

pub use fault::{quoted, shown, Fault};
pub use meaning::{Named, Reading, RuleLines};
pub use number::whole;
pub use source::{Source, Span};

/// Reads a readable table: its reading, or the faults.
pub fn read(name: &str, bytes: &[u8]) -> (Source, Result<Reading, Vec<Fault>>) {
    let (source, mut faults) = Source::of(name, bytes);
    // Words are told apart only in lines whose bytes are good.
    let reading = if faults.is_empty() { understood(&source, &mut faults) } else { None };
    let result = reading.ok_or(faults);
    (source, result)
}

fn understood(source: &Source, faults: &mut Vec<Fault>) -> Option<Reading> {
    let mut lines = Vec::new();
    for at in 0..source.lines.len() {
        lines.push(syntax::line(source, at, faults));
        if faults.len() >= fault::MOST {
            return None;
        }
    }
    meaning::meaning(source, &lines, faults)
}
