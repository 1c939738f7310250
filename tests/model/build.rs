//! Links the static archive of the proved library, unless the feature `library` is off.

use std::env;
use std::path::PathBuf;
use std::process::exit;

fn main() {
    println!("cargo:rerun-if-env-changed=SALTBALANCE_LIB");
    println!("cargo:rerun-if-changed=build.rs");
    if env::var_os("CARGO_FEATURE_LIBRARY").is_none() {
        return;
    }
    let here = PathBuf::from(env::var_os("CARGO_MANIFEST_DIR").expect("cargo says where the project is"));
    let folder = match env::var_os("SALTBALANCE_LIB") {
        Some(folder) => PathBuf::from(folder),
        None => here.join("../../target/staticlib"),
    };
    let archive = folder.join("libsaltbalance_c.a");
    println!("cargo:rerun-if-changed={}", archive.display());
    if !archive.is_file() {
        eprintln!("{} is missing.", archive.display());
        eprintln!("Make it at the repository's root with `tools/archive`,");
        eprintln!("or name the folder that holds it in SALTBALANCE_LIB,");
        eprintln!("or build with --no-default-features: everything but `model calls`.");
        exit(1);
    }
    println!("cargo:rustc-link-search=native={}", folder.display());
    println!("cargo:rustc-link-lib=static=saltbalance_c");
}
