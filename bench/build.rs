//! Tells the linker where the archive of the crate `reactive_c` lies.
use std::env;
use std::path::PathBuf;

/// The folder is the repository's `target/staticlib`, or that of the environment variable REACTIVE_TARGET.
fn main() {
    let target = env::var_os("REACTIVE_TARGET")
        .map(PathBuf::from)
        .unwrap_or_else(|| PathBuf::from(env::var_os("CARGO_MANIFEST_DIR").expect("set by cargo")).join("../target"));
    let folder = target.join("staticlib");
    println!("cargo:rustc-link-search=native={}", folder.display());
    println!("cargo:rerun-if-changed={}", folder.join("libreactive.a").display());
    println!("cargo:rerun-if-env-changed=REACTIVE_TARGET");
}
