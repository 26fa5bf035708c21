//! Hands the compiler's version to the program, which prints it.

use std::env;
use std::process::Command;

fn main() {
    let compiler = env::var_os("RUSTC").unwrap_or_else(|| "rustc".into());
    let version = Command::new(compiler).arg("--version").output();
    let text = version.map(|out| String::from_utf8_lossy(&out.stdout).trim().to_string());
    println!(
        "cargo::rustc-env=RUSTC_VERSION={}",
        text.unwrap_or_default()
    );
    println!("cargo::rerun-if-changed=build.rs");
}
