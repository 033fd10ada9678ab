//! Tells the program which compiler and profile made it, since it prints both.

use std::env;
use std::process::Command;

fn main() {
    let rustc = env::var_os("RUSTC").expect("cargo sets it");
    let version = Command::new(rustc).arg("--version").output().expect("the compiler that builds this answers");
    println!("cargo:rustc-env=BENCH_RUSTC={}", String::from_utf8_lossy(&version.stdout).trim());
    for (name, variable) in [("BENCH_PROFILE", "PROFILE"), ("BENCH_LEVEL", "OPT_LEVEL"), ("BENCH_TARGET", "TARGET")] {
        println!("cargo:rustc-env={name}={}", env::var(variable).expect("cargo sets it"));
    }
}
