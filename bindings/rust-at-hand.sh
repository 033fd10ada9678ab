#!/bin/sh
# Succeeds where Rust can be built: a cargo that runs, a rustc of 1.82 or later, and a cc for it to link with.
set -eu
cargo --version > /dev/null 2>&1
minor=$(rustc --version 2> /dev/null | sed -n 's/^rustc 1\.\([0-9]*\)\..*/\1/p')
[ "${minor:-0}" -ge 82 ]
command -v cc > /dev/null
