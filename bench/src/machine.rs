//! The machine and the compilers.

use std::fs;
use std::process::Command;

/// A fact about the machine: its name and its value.
pub type Fact = (&'static str, String);

/// The processor's name, as the kernel tells it.
fn processor() -> String {
    let told = fs::read_to_string("/proc/cpuinfo").unwrap_or_default();
    let named = told.lines().find_map(|line| line.strip_prefix("model name").and_then(|rest| rest.split(':').nth(1)));
    named.unwrap_or("unknown").trim().to_string()
}

/// How many processors the harness may use.
fn processors() -> String {
    std::thread::available_parallelism().map_or("unknown".to_string(), |count| count.to_string())
}

/// The kernel's release.
fn kernel() -> String {
    fs::read_to_string("/proc/sys/kernel/osrelease").map_or("unknown".to_string(), |release| format!("Linux {}", release.trim()))
}

/// The toolchain that proved and compiled the archive.
fn toolchain() -> String {
    let printed = Command::new("rt").arg("version").output().map(|output| output.stdout).unwrap_or_default();
    String::from_utf8_lossy(&printed).lines().next().unwrap_or("unknown").to_string()
}

/// All facts.
pub fn facts() -> [Fact; 6] {
    [
        ("processor", processor()),
        ("processors", processors()),
        ("kernel", kernel()),
        ("Rattle", toolchain()),
        ("C", format!("{}, {}", env!("BENCH_C_COMPILER"), env!("BENCH_C_FLAGS"))),
        (
            "harness",
            format!("{}, --release, opt-level 3, one codegen unit, functions at multiples of 64 bytes", env!("BENCH_RUST_COMPILER")),
        ),
    ]
}
