//! With the feature `linked`: where the C library lies, and which compiler builds this program.

use std::env;
use std::path::Path;
use std::process::Command;

fn main() {
    println!("cargo:rerun-if-changed=build.rs");
    if env::var_os("CARGO_FEATURE_LINKED").is_none() {
        return;
    }
    let folder = Path::new(&env::var("CARGO_MANIFEST_DIR").unwrap_or_default()).join("../../target/staticlib");
    println!("cargo:rustc-link-search=native={}", folder.display());
    println!("cargo:rustc-link-lib=static=yittomere");
    println!("cargo:rerun-if-changed={}", folder.join("libyittomere.a").display());
    println!("cargo:rustc-env=OUTSIDE_COMPILER={}", compiler());
}

fn compiler() -> String {
    let said = Command::new(env::var_os("RUSTC").unwrap_or_else(|| "rustc".into())).arg("--version").output();
    said.map_or(String::new(), |said| String::from_utf8_lossy(&said.stdout).trim().to_string())
}
