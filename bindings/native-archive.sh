#!/bin/sh
# native-archive.sh ROOT NAME OUT [MACHINE]: proves the static library NAME in the checkout ROOT, and writes OUT/libNAME.a for
# MACHINE, x86_64 or aarch64; without it, for this machine's own processor. The kit's compiler makes either, wherever it runs,
# and here for every processor of the kind: by itself it takes one of x86-64-v2 or later.
set -eu
root=$1 name=$2
mkdir -p "$3"
out=$(cd "$3" && pwd)
machine=${4:-$(uname -m)}
case $machine in
    x86_64) cpu=x86-64 ;;
    aarch64) cpu=generic ;;
    *) echo "native-archive: the kit makes nothing for $machine" >&2; exit 2 ;;
esac
cd "$root/crates/$name"
rm -f "out/lib$name.a"
rt lib --target "$machine-unknown-linux-gnu" --cpu "$cpu"
# Away from where rt puts it: there one for another processor would be taken for this one's.
mv "out/lib$name.a" "$out/"
