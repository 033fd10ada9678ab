#!/bin/sh
# on-aarch64.sh DIR [WORDS]: bindings/run.sh, and then oracle/run.sh WORDS, as on an aarch64 machine; for an x86-64 Debian,
# as root, by hand. DIR, which is new or empty, becomes an aarch64 Debian with a Rust compiler (about 1 GB), and DIR/work/main
# a clone of this checkout as it is committed; a DIR of an earlier run is used again. The kit is x86-64: here it proves the
# clone and makes its archive for aarch64, target/native. Every program in DIR runs under qemu's emulator of that processor:
# `uname -m` says aarch64, so the two scripts, which are told where the archive is, do what they do on such a machine. On this
# machine debootstrap and qemu-user-static are installed, and the emulator is made known to the kernel; both stay.
set -eu
say() { echo "on-aarch64: $*" >&2; exit 2; }
[ $# -gt 0 ] || say "which folder?"
[ "$(id -u)" = 0 ] || say "it makes a root to change to, so it needs root"
mkdir -p "$1"
dir=$(cd "$1" && pwd)
shift
checkout=$(cd "$(dirname "$0")/.." && pwd)
guide=$(rt doc)
kit=$(dirname "$guide")
"$kit/bin/rattle" build --help | grep -q aarch64-unknown-linux-gnu || say "the kit at $kit has nothing for aarch64"
rust=${LADLETWIG_RUST_SOURCE:-$(dirname "$checkout")/shared/docs/src}
suite=trixie # the first Debian with a Rust of 1.82 or later
formats=/proc/sys/fs/binfmt_misc
ready=$dir/made-by-on-aarch64

# The kernel hands each aarch64 program to the emulator, wherever its root is.
emulate() {
    command -v debootstrap > /dev/null && [ -r /usr/lib/binfmt.d/qemu-aarch64.conf ] ||
        apt-get install -y --no-install-recommends debootstrap qemu-user-static
    [ -e "$formats/register" ] || mount -t binfmt_misc none "$formats"
    [ -e "$formats/qemu-aarch64" ] || tr -d '\n' < /usr/lib/binfmt.d/qemu-aarch64.conf > "$formats/register"
}

# From where this machine has its own Debian.
make_system() {
    [ -z "$(ls -A "$dir")" ] || say "$dir is neither empty nor an earlier run's"
    mirror=$(apt-get indextargets --format '$(REPO_URI)' 'Created-By: Packages' | grep -m 1 '/debian/$') ||
        say "apt has no source of Debian"
    debootstrap --variant=minbase --arch=arm64 --include=rustc,cargo,gcc,libc6-dev "$suite" "$dir" "$mirror"
    touch "$ready"
}

make_house() {
    mkdir -p "$dir/work"
    if [ -d "$dir/work/main" ]; then
        git -C "$dir/work/main" pull --quiet --ff-only "$checkout"
    else
        git clone --quiet "$checkout" "$dir/work/main"
    fi
    rm -rf "$dir/work/shared"
    mkdir -p "$dir/work/shared/docs"
    [ ! -d "$rust" ] || cp -rL "$rust" "$dir/work/shared/docs/src"
}

emulate
[ -e "$ready" ] || make_system
make_house
"$dir/work/main/bindings/archive.sh" aarch64
export dir
# The mounts are seen by these processes alone, and end with them.
unshare --mount sh -euc '
    mount -t proc proc "$dir/proc"
    mount --bind /dev "$dir/dev"
    exec chroot "$dir" /usr/bin/env -i HOME=/root PATH=/usr/bin:/bin \
        LADLETWIG_ARCHIVE_DIR=/work/main/target/native sh -euc "
        cd /work/main
        echo \"on \$(uname -m), with \$(rustc --version)\"
        bindings/run.sh
        oracle/run.sh \"\$@\"" sh "$@"' sh "$@"
