//! Tells the linker where the archive of the crate `reactive_c` lies, for the tests that call it.
use std::env;
use std::path::PathBuf;

fn main() {
    let target = env::var_os("REACTIVE_TARGET").map(PathBuf::from).unwrap_or_else(|| {
        PathBuf::from(env::var_os("CARGO_MANIFEST_DIR").expect("set by cargo")).join("../../target")
    });
    let folder = target.join("staticlib");
    let archive = folder.join("libreactive.a");
    if !archive.exists() {
        println!("cargo:warning={} is missing: `tools/build` writes it", archive.display());
    }
    println!("cargo:rustc-link-search=native={}", folder.display());
    println!("cargo:rerun-if-changed={}", archive.display());
    println!("cargo:rerun-if-env-changed=REACTIVE_TARGET");
}
