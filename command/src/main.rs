//! Runs the command on the words of its command line: what it prints, and the exit status.

use skarnuth::command::{self, Outcome, UNREAD};
use std::io::Write as _;
use std::process::ExitCode;
use std::sync::atomic::{AtomicBool, Ordering};

/// Whether standard output was open when the program began. Rust's runtime puts /dev/null where it is closed, and then every write succeeds, so
/// this is looked at before the runtime begins.
static OPEN: AtomicBool = AtomicBool::new(false);

#[used]
#[link_section = ".init_array"]
static LOOK: extern "C" fn() = look;

extern "C" fn look() {
    extern "C" {
        fn fcntl(file: i32, command: i32, ...) -> i32;
    }
    const STANDARD_OUTPUT: i32 = 1;
    const GET_FLAGS: i32 = 1;
    // It only asks for the flags of a file descriptor, which may be closed.
    OPEN.store(unsafe { fcntl(STANDARD_OUTPUT, GET_FLAGS) } != -1, Ordering::Relaxed);
}

fn main() -> ExitCode {
    let words: Vec<_> = std::env::args_os().skip(1).collect();
    let Outcome { output, message, status } = command::run(&words);
    // Nothing can be said where standard error cannot be written.
    let _ = std::io::stderr().write_all(message.as_bytes());
    if let Err(why) = write(&output) {
        let _ = writeln!(std::io::stderr(), "skarnuth: standard output cannot be written: {why}");
        return ExitCode::from(UNREAD);
    }
    ExitCode::from(status)
}

fn write(output: &[u8]) -> Result<(), String> {
    if !output.is_empty() && !OPEN.load(Ordering::Relaxed) {
        return Err("it is closed".to_string());
    }
    let mut out = std::io::stdout();
    out.write_all(output).and_then(|()| out.flush()).map_err(|error| error.to_string())
}
