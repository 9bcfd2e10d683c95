//! Links the static library of the clock search, which `tools/clock-library` writes.

use std::path::{Path, PathBuf};
use std::{env, process};

const LIBRARY: &str = "../target/staticlib/libclock.a";

fn main() {
    println!("cargo::rerun-if-env-changed=CLOCK_LIB");
    let library = match env::var_os("CLOCK_LIB") {
        Some(path) => PathBuf::from(path),
        None => Path::new(&env::var("CARGO_MANIFEST_DIR").expect("cargo sets it")).join(LIBRARY),
    };
    println!("cargo::rerun-if-changed={}", library.display());

    let Ok(library) = library.canonicalize() else {
        eprintln!("There is no {}.", library.display());
        eprintln!("Run `tools/clock-library` in the repository's root, which proves and writes it,");
        eprintln!("or set CLOCK_LIB to the path of a libclock.a.");
        process::exit(1);
    };
    let folder = library.parent().expect("a file lies in a folder");
    println!("cargo::rustc-link-search=native={}", folder.display());
    println!("cargo::rustc-link-lib=static=clock");
}
