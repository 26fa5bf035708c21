//! Links libdenimrasp.a: from the folder in DENIMRASP_LIB, else from ../target/staticlib.

use std::path::PathBuf;
use std::{env, process};

fn main() {
    println!("cargo::rerun-if-env-changed=DENIMRASP_LIB");
    let folder = match env::var_os("DENIMRASP_LIB") {
        Some(folder) => PathBuf::from(folder),
        None => PathBuf::from(env::var_os("CARGO_MANIFEST_DIR").unwrap_or_default())
            .join("../target/staticlib"),
    };
    let archive = folder.join("libdenimrasp.a");
    println!("cargo::rerun-if-changed={}", archive.display());
    if !archive.is_file() {
        eprintln!(
            "{} is missing: run `oracle/archive` in the repository, or set DENIMRASP_LIB to its folder",
            archive.display()
        );
        process::exit(1);
    }
    println!("cargo::rustc-link-search=native={}", folder.display());
    println!("cargo::rustc-link-lib=static=denimrasp");
}
