#!/bin/sh
# archive.sh [MACHINE]: proves the C face and writes it as one archive, target/staticlib/libladletwig.a for x86-64 and
# target/native/libladletwig.a for any other processor. MACHINE is x86_64 or aarch64; without it, this machine's own.
# `rt lib` makes an archive of a static library, and the C face is one: crates/ladletwig_c, which calls the crates abi_*. Every
# other name in the archive is local. An entry left out there would be missed only by who calls it: so the exports are held to
# include/ladletwig.h, and no archive is written that has one less or one more. Nor is one that calls anything but memcpy and memset.
set -eu
here=$(cd "$(dirname "$0")" && pwd)
root=$(dirname "$here")
machine=${1:-$(uname -m)}
folder=$root/target/native
[ "$machine" != x86_64 ] || folder=$root/target/staticlib
rm -f "$folder/libladletwig.a" # none of an earlier run is linked
guide=$(rt doc) # by itself, so that a failure of rt ends the run
tools=$(dirname "$guide")/toolchain/bin
work=$(mktemp -d)
trap 'rm -rf "$work"' EXIT

declared() {
    sed -n 's/^[a-z][a-z0-9_]* \(ladletwig_[a-z0-9_]*\)(.*/\1/p' "$root/include/ladletwig.h" | LC_ALL=C sort
}

# The kit has no nm. But its linker lists each name that an archive defines for others.
exported() {
    "$tools/ld.lld" -r --whole-archive --cref "$1" -o /dev/null > "$work/table"
    awk 'names && /^[^ ]/ { print $1 }  $1 == "Symbol" { names = 1 }' "$work/table" | LC_ALL=C sort
}

# Ends the run, with a line for each name that only one side has, unless archive and header have the same.
hold_to_header() {
    declared > "$work/declared"
    exported "$1" > "$work/exported"
    LC_ALL=C comm -23 "$work/declared" "$work/exported" | sed 's/^/archive: in the header, and ladletwig_c does not export it: /' >&2
    LC_ALL=C comm -13 "$work/declared" "$work/exported" | sed 's/^/archive: exported, and not in the header: /' >&2
    [ -s "$work/declared" ] && cmp -s "$work/declared" "$work/exported" || exit 1
}

# Ends the run where the archive calls anything but memcpy and memset, all that the header lets it call: linked with these two
# alone, no name of it may be open.
hold_to_two_calls() {
    "$tools/ld.lld" --entry=0 --defsym=memcpy=0 --defsym=memset=0 --whole-archive "$1" -o "$work/linked"
}

"$here/native-archive.sh" "$root" ladletwig_c "$work" "$machine"
hold_to_header "$work/libladletwig_c.a"
hold_to_two_calls "$work/libladletwig_c.a"
mkdir -p "$folder"
mv "$work/libladletwig_c.a" "$folder/libladletwig.a"
echo "archive: target/${folder##*/}/libladletwig.a has the $(wc -l < "$work/declared") functions of include/ladletwig.h"
