//! Says where the static library of the proved code is (`bin/build` puts it below command/target), and which version this is: the file VERSION at
//! the root says it for everything.

use std::path::Path;
use std::{env, fs, process};

fn main() {
    let here = env::var("CARGO_MANIFEST_DIR").expect("cargo says where the package is");
    let folder = Path::new(&here).join("target");
    let archive = folder.join("libskarnuth.a");
    let version = Path::new(&here).join("../VERSION");
    for file in [Path::new("build.rs"), &archive, &version] {
        println!("cargo:rerun-if-changed={}", file.display());
    }
    if !archive.exists() {
        stop("command/target/libskarnuth.a is missing: run bin/build at the repository's root");
    }
    match fs::read_to_string(&version) {
        Ok(text) => println!("cargo:rustc-env=SKARNUTH_VERSION={}", text.trim()),
        Err(_) => stop("the file VERSION at the repository's root cannot be read"),
    }
    println!("cargo:rustc-link-search=native={}", folder.display());
    println!("cargo:rustc-link-lib=static=skarnuth");
}

fn stop(why: &str) -> ! {
    eprintln!("{why}");
    process::exit(1);
}
