#!/bin/sh
# run.sh: the C program and the Rust tests over the proved archive; the last line says what ran. For x86-64 and aarch64:
# on-aarch64.sh runs it on an emulated aarch64, from x86-64.
# The archive is made by archive.sh, unless LADLETWIG_ARCHIVE_DIR names a folder with a libladletwig.a for this machine's
# processor. The kit is needed for that archive, and on x86-64 for the C program.
set -eu
here=$(cd "$(dirname "$0")" && pwd)
root=$(dirname "$here")
machine=$(uname -m)
work=$(mktemp -d)
trap 'rm -rf "$work"' EXIT

# Our own few declarations stand for the C library's headers, which the kit doesn't have. The program is x86-64, as the kit's
# C library is, and runs under the kit's own loader.
c_with_kit() {
    guide=$(rt doc) # by itself, so that a failure of rt ends the run
    tools=$(dirname "$guide")/toolchain/bin lib=$(dirname "$guide")/toolchain/lib
    "$tools/clang" --target=x86_64-unknown-linux-gnu -std=c99 -O2 -fPIC -ffreestanding -nostdinc \
        -Wall -Wextra -Werror -pedantic -I "$here/c/freestanding" -I "$root/include" \
        -c "$here/c/lookup.c" -o "$work/lookup.o"
    "$tools/ld.lld" -pie --dynamic-linker /lib64/ld-linux-x86-64.so.2 -o "$work/lookup" \
        "$lib/Scrt1.o" "$lib/crti.o" "$lib/crtbeginS.o" "$work/lookup.o" "$archives/libladletwig.a" \
        "$lib/libc.so.6" "$lib/libc_nonshared.a" "$lib/libgcc.a" "$lib/crtendS.o" "$lib/crtn.o"
    "$lib/ld-linux-x86-64.so.2" --library-path "$lib" "$work/lookup" > "$work/printed" || { cat "$work/printed"; exit 1; }
    cat "$work/printed"
}

# The machine's own compiler and headers: on x86-64 they must come to the same lines.
c_with_cc() {
    cc -std=c99 -O2 -Wall -Wextra -Werror -pedantic -I "$root/include" \
        "$here/c/lookup.c" "$archives/libladletwig.a" -o "$work/lookup-cc"
    "$work/lookup-cc" > "$work/printed-cc" || { cat "$work/printed-cc"; exit 1; }
    if [ "$machine" = x86_64 ]; then
        cmp "$work/printed-cc" "$work/printed"
        echo "bindings: the machine's cc gives the same lines"
    else
        cat "$work/printed-cc"
    fi
}

rust_tests() {
    LADLETWIG_ARCHIVE_DIR=$archives CARGO_TARGET_DIR=$root/target/bindings \
        cargo test --release --offline --locked --manifest-path "$here/rust/Cargo.toml"
}

if [ -n "${LADLETWIG_ARCHIVE_DIR:-}" ]; then
    archives=$(cd "$LADLETWIG_ARCHIVE_DIR" && pwd)
else
    "$here/archive.sh"
    archives=$root/target/staticlib
    [ "$machine" = x86_64 ] || archives=$root/target/native
fi

if [ "$machine" = x86_64 ]; then c_with_kit; fi
if command -v cc > /dev/null; then
    c_with_cc
elif [ "$machine" != x86_64 ]; then
    echo "bindings: C program and Rust tests LEFT OUT: no cc is at hand, and the kit's C library is x86-64"
    exit
fi
if "$here/rust-at-hand.sh"; then
    rust_tests
    echo "bindings: C program and Rust tests passed"
else
    echo "bindings: C program passed; Rust tests LEFT OUT: no Rust compiler (cargo, rustc 1.82 or later, cc) is at hand"
fi
