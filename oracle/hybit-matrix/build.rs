//! Names hybit-matrix's sources by their absolute paths, so that they are built unchanged from where they stand.

use std::path::{Path, PathBuf};
use std::{env, fs};

const MODULES: [&str; 7] = [
    "abtm",
    "csr32",
    "dense_block",
    "mask",
    "metadata_first",
    "restricted",
    "topology",
];

/// The folder that holds hybit's `crates`: HYBIT_SRC, or the shared copy beside the project.
fn source() -> PathBuf {
    println!("cargo:rerun-if-env-changed=HYBIT_SRC");
    let default =
        Path::new(&env::var("CARGO_MANIFEST_DIR").unwrap()).join("../../../shared/docs/src");
    let root = env::var_os("HYBIT_SRC").map_or(default, PathBuf::from);
    root.canonicalize()
        .unwrap_or_else(|e| panic!("HYBIT_SRC {}: {e}", root.display()))
}

fn main() {
    let folder = source().join("crates/hybit-matrix/src");
    let mut text = String::new();
    for module in MODULES {
        let file = folder.join(module).with_extension("rs");
        println!("cargo:rerun-if-changed={}", file.display());
        text += &format!("#[path = {file:?}]\nmod {module};\npub use {module}::*;\n");
    }
    let out = Path::new(&env::var("OUT_DIR").unwrap()).join("modules.rs");
    fs::write(out, text).unwrap();
}
