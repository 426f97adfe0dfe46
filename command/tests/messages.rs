//! Every wrong table of tests/wrong ends in its message, word for word, in exit status 2, and in no words. A new table wants its message beside it:
//! in tests/wrong, `skarnuth words NAME.table 2> NAME.stderr`, and then read it.

#[path = "common/run.rs"]
mod run;

use run::{files, run_in, text};
use std::path::Path;

#[test]
fn wrong_tables_end_in_their_messages() {
    let folder = Path::new(env!("CARGO_MANIFEST_DIR")).join("tests/wrong");
    let tables = files(&folder, "table");
    assert!(tables.len() >= 90, "{} wrong tables", tables.len());
    let mut different = Vec::new();
    for table in &tables {
        let name = table.file_name().and_then(|n| n.to_str()).expect("a name");
        let expected = std::fs::read_to_string(table.with_extension("stderr")).unwrap_or_else(|e| panic!("{name} has no message: {e}"));
        assert!(expected.starts_with(&format!("{name}:")), "{name}: a message begins with the file");
        for task in ["words", "list", "explain", "dot"] {
            let out = run_in(&folder, &[task, name]);
            if out.status.code() != Some(2) || !out.stdout.is_empty() || text(&out.stderr) != expected {
                different.push(format!("{task} {name}: exit {:?}\n{}", out.status.code(), text(&out.stderr)));
            }
        }
    }
    assert!(different.is_empty(), "{} tables end otherwise:\n{}", different.len(), different.join("\n"));
    assert_eq!(files(&folder, "stderr").len(), tables.len(), "a message without its table");
}
