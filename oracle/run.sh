#!/bin/sh
# run.sh [WORDS]: the oracle's tests, and then the comparisons, `compare WORDS` (by default 20,000 calls of each entry).
# Needs the archive that bindings/run.sh links, a Rust compiler and the Rust's two files; where one of the last two is
# missing it says so, and nothing is run.
set -eu
here=$(cd "$(dirname "$0")" && pwd)
root=$(dirname "$here") name=oracle
. "$here/at-hand.sh"
CARGO_TARGET_DIR=$root/target/oracle
export CARGO_TARGET_DIR
cd "$here"
[ $# -gt 0 ] || set -- --calls 20000
cargo test --quiet --offline --locked --release -p model -p reference
cargo run --quiet --offline --locked --release -p compare -- "$@"
