//! Links the library: the archive in DENIMRASP_LIB, or the one that `oracle/archive` leaves in the project's target
//! folder.

use std::env;
use std::path::{Path, PathBuf};

fn main() {
    println!("cargo:rerun-if-env-changed=DENIMRASP_LIB");
    let here = env::var("CARGO_MANIFEST_DIR").unwrap();
    let default = Path::new(&here).join("../../target/staticlib");
    let folder = env::var_os("DENIMRASP_LIB").map_or(default, PathBuf::from);
    println!(
        "cargo:rerun-if-changed={}",
        folder.join("libdenimrasp.a").display()
    );
    println!("cargo:rustc-link-search=native={}", folder.display());
    println!("cargo:rustc-link-lib=static=denimrasp");
}
