//! Says where the static library of the proved code is: `rt lib`, run in crates/exports, writes it into that crate's folder out.

use std::path::Path;

fn main() {
    let folder = Path::new(&std::env::var("CARGO_MANIFEST_DIR").unwrap()).join("../crates/exports/out");
    let archive = folder.join("libexports.a");
    println!("cargo:rerun-if-changed=build.rs");
    println!("cargo:rerun-if-changed={}", archive.display());
    if !archive.exists() {
        eprintln!("crates/exports/out/libexports.a is missing: run `rt lib` in crates/exports first");
        std::process::exit(1);
    }
    println!("cargo:rustc-link-search=native={}", folder.display());
    println!("cargo:rustc-link-lib=static=exports");
}
