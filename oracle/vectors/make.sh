#!/bin/sh
# Makes the oracle's list again, the part of crates/cases/stdin and crates/cases/stdout that follows its marker: the
# same bytes each time. What stands before the marker is written by hand, and stays. Needs cargo and the Rust's two
# files (../README.md says where they are looked for), and no network.
set -eu
cd "$(dirname "$0")"
crate=../../crates/cases
CARGO_TARGET_DIR=${CARGO_TARGET_DIR:-$(cd ../.. && pwd)/target/oracle}
export CARGO_TARGET_DIR
cargo run --offline --locked --release --quiet -p vectors -- "$crate/stdin" "$crate/stdout"
