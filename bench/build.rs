//! Compiles the plain C calls and the plain C runner, links the calls, and links the archive of the proved calls.

use std::env;
use std::path::{Path, PathBuf};
use std::process::{self, Command};

/// The archive's file name, and the name under which it is linked.
const ARCHIVE: &str = "libsaltbalance_c.a";
const LIBRARY: &str = "saltbalance_c";

/// What the C is compiled with: how, then what it is warned of and where headers stand. Functions begin at multiples of 64 bytes, here as in
/// the archive's copy and in the harness (.cargo/config.toml), so that no figure hangs on where the linker puts a loop.
const HOW: [&str; 3] = ["-std=c11", "-O3", "-falign-functions=64"];
const WHERE: [&str; 4] = ["-Wall", "-Wextra", "-I../include", "-I."];

fn main() {
    for changed in ["build.rs", "plain", "plain.c", "plain.h", "runner", "runner.c", "../include"] {
        println!("cargo:rerun-if-changed={changed}");
    }
    let out = PathBuf::from(env::var_os("OUT_DIR").expect("cargo sets OUT_DIR"));
    compile_calls(&out);
    compile_runner(&out);
    link_archive(&out);
    println!("cargo:rustc-env=BENCH_C_COMPILER={}", first_line("gcc", "--version"));
    println!("cargo:rustc-env=BENCH_RUST_COMPILER={}", first_line("rustc", "--version"));
    println!("cargo:rustc-env=BENCH_C_FLAGS={}", HOW.join(" "));
}

/// The plain C calls as a library.
fn compile_calls(out: &Path) {
    let object = out.join("plain.o");
    run(Command::new("gcc").args(HOW).args(WHERE).args(["-c", "plain.c", "-o"]).arg(&object));
    let library = out.join("libplain.a");
    run(Command::new("ar").arg("rcs").arg(&library).arg(&object));
    println!("cargo:rustc-link-search=native={}", out.display());
    println!("cargo:rustc-link-lib=static=plain");
}

/// The plain C runner as a program; the harness is told where it stands.
fn compile_runner(out: &Path) {
    let program = out.join("runner");
    run(Command::new("gcc").args(HOW).args(WHERE).args(["runner.c", "-o"]).arg(&program));
    println!("cargo:rustc-env=BENCH_RUNNER={}", program.display());
}

/// The archive from the folder SALTBALANCE_LIB, else from the folder into which `tools/archive` writes: a copy in which only the places at
/// which functions may begin differ.
fn link_archive(out: &Path) {
    println!("cargo:rerun-if-env-changed=SALTBALANCE_LIB");
    let here = PathBuf::from(env::var_os("CARGO_MANIFEST_DIR").expect("cargo sets CARGO_MANIFEST_DIR"));
    let folder = here.join(env::var_os("SALTBALANCE_LIB").filter(|given| !given.is_empty()).unwrap_or("../target/staticlib".into()));
    let archive = folder.join(ARCHIVE);
    println!("cargo:rerun-if-changed={}", archive.display());
    if !archive.is_file() {
        eprintln!("bench: the archive of the proved calls is missing: {}", archive.display());
        eprintln!("    make it at the repository's root with:  tools/archive");
        eprintln!("    or name the folder that holds {ARCHIVE} in the variable SALTBALANCE_LIB (a full path)");
        process::exit(1);
    }
    run(Command::new("objcopy").arg("--set-section-alignment").arg(".text.*=64").arg(&archive).arg(out.join(ARCHIVE)));
    println!("cargo:rustc-link-lib=static={LIBRARY}");
}

/// The first line that a command prints.
fn first_line(command: &str, argument: &str) -> String {
    let printed = Command::new(command).arg(argument).output().map(|output| output.stdout).unwrap_or_default();
    String::from_utf8_lossy(&printed).lines().next().unwrap_or("unknown").to_string()
}

/// Runs a command that must succeed.
fn run(command: &mut Command) {
    let done = command.status().is_ok_and(|status| status.success());
    if !done {
        eprintln!("bench: this did not succeed: {command:?}");
        process::exit(1);
    }
}
