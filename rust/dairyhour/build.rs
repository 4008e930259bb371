//! Links the static library that `rt lib` writes in crates/dairyhour, which has to stand before Cargo runs.

use std::path::Path;
use std::{env, fs, process};

fn main() {
    let here = env::var("CARGO_MANIFEST_DIR").unwrap_or_else(|_| String::from("."));
    let folder = Path::new(&here).join("../../crates/dairyhour/out");
    let archive = folder.join("libdairyhour.a");
    println!("cargo:rerun-if-changed={}", archive.display());
    if fs::metadata(&archive).is_err() {
        eprintln!("The proved library is missing: {}", archive.display());
        eprintln!("Run `tools/prove.sh` at the top of the repository first (`make test` and `make bench` do).");
        process::exit(1);
    }
    println!("cargo:rustc-link-search=native={}", folder.display());
    println!("cargo:rustc-link-lib=static=dairyhour");
}
