//! Names hybit-core's source by its absolute path, so that it is built unchanged from where it stands.

use std::path::{Path, PathBuf};
use std::{env, fs};

/// The folder that holds hybit's `crates`: HYBIT_SRC, or the shared copy beside the project.
fn source() -> PathBuf {
    println!("cargo:rerun-if-env-changed=HYBIT_SRC");
    let default =
        Path::new(&env::var("CARGO_MANIFEST_DIR").unwrap()).join("../../../shared/docs/src");
    let root = env::var_os("HYBIT_SRC").map_or(default, PathBuf::from);
    root.canonicalize()
        .unwrap_or_else(|e| panic!("HYBIT_SRC {}: {e}", root.display()))
}

fn main() {
    let file = source().join("crates/hybit-core/src/lib.rs");
    println!("cargo:rerun-if-changed={}", file.display());
    let text = format!("#[path = {file:?}]\nmod source;\n");
    let out = Path::new(&env::var("OUT_DIR").unwrap()).join("modules.rs");
    fs::write(out, text).unwrap();
}
