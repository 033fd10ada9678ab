//! What the numbers were measured on.

use std::fs;

pub fn print() {
    println!("processor: {}", processor().unwrap_or_else(|| "unknown".to_string()));
    println!("compiler of the Rust: {}, {}", env!("BENCH_RUSTC"), env!("BENCH_TARGET"));
    println!("profile of the Rust: {}, opt-level {}", env!("BENCH_PROFILE"), env!("BENCH_LEVEL"));
    println!("ours: the archive libladletwig.a as it was linked");
}

fn processor() -> Option<String> {
    let text = fs::read_to_string("/proc/cpuinfo").ok()?;
    let of = |name: &str| Some(text.lines().find(|line| line.starts_with(name))?.split_once(": ")?.1.to_string());
    let count = text.lines().filter(|line| line.starts_with("processor")).count();
    Some(format!("{}, {} MHz, {count} processors", of("model name")?, of("cpu MHz")?))
}
