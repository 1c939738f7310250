//! Links the archive of the proved calls.

use std::env;
use std::path::{Path, PathBuf};
use std::process;

/// The archive's file name, and the name under which it is linked.
const ARCHIVE: &str = "libsaltbalance_c.a";
const LIBRARY: &str = "saltbalance_c";

fn main() {
    println!("cargo:rerun-if-env-changed=SALTBALANCE_LIB");
    println!("cargo:rerun-if-changed=build.rs");
    let folder = folder();
    let archive = folder.join(ARCHIVE);
    println!("cargo:rerun-if-changed={}", archive.display());
    if !archive.is_file() {
        explain(&archive);
        process::exit(1);
    }
    println!("cargo:rustc-link-search=native={}", folder.display());
    println!("cargo:rustc-link-lib=static={LIBRARY}");
}

/// The folder of the archive: SALTBALANCE_LIB where it is set, else the folder into which `tools/archive` writes.
fn folder() -> PathBuf {
    let here = PathBuf::from(env::var_os("CARGO_MANIFEST_DIR").expect("cargo sets CARGO_MANIFEST_DIR"));
    match env::var_os("SALTBALANCE_LIB") {
        Some(given) if !given.is_empty() => here.join(given),
        _ => here.join("../../target/staticlib"),
    }
}

/// Says what is missing and the command that makes it.
fn explain(archive: &Path) {
    eprintln!("saltbalance: the archive of the proved calls is missing: {}", archive.display());
    eprintln!("    make it at the repository's root with:  tools/archive");
    eprintln!("    or name the folder that holds {ARCHIVE} in the variable SALTBALANCE_LIB (a full path).");
}
