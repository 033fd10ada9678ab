#!/bin/sh
# planted.sh [NAME...]: shows that the comparisons can fail. Each planted/NAME.edit (all, if none is named) is an error
# for the model; put into a copy, it must make `compare` tell a difference at the entry that the edit names. A panic or
# a gap in the list is not enough. Needs what run.sh needs. Exit 1 if one isn't told.
set -eu
here=$(cd "$(dirname "$0")" && pwd)
root=$(dirname "$here") name=planted
. "$here/at-hand.sh"
CARGO_TARGET_DIR=$root/target/planted
# In many units, each built again only if it changed: as run.sh builds, every edit would cost ten seconds.
CARGO_INCREMENTAL=1 CARGO_PROFILE_RELEASE_CODEGEN_UNITS=64
export CARGO_TARGET_DIR CARGO_INCREMENTAL CARGO_PROFILE_RELEASE_CODEGEN_UNITS
# The same folder every time, and the files' times kept: in another one cargo would build everything again.
copy=$CARGO_TARGET_DIR/copy log=$CARGO_TARGET_DIR/copy/log
trap 'rm -rf "$copy"' EXIT
rm -rf "$copy" && mkdir -p "$copy"
(cd "$root" && tar -cf - --exclude=target oracle bindings/rust) | (cd "$copy" && tar -xpf -)
# The model that was built last may have an error in it, and be younger than the files.
touch "$copy"/oracle/model/src/*.rs
cd "$copy/oracle"

compared() {
    cargo build --quiet --offline --locked --release -p compare > "$log" 2>&1 || return 100
    "$CARGO_TARGET_DIR/release/compare" --calls 200 "$@" > "$log" 2>&1
}
# Open, reply and discard are run together, whichever is named: the number is that of the entry's own part.
own='$1 == entry || $1 == entry "," { mine = 1 }  mine && / different [0-9]+$/ { print $NF; exit }'
# An old line must be there exactly once, so that no edit outlives what it changes.
edited='
    NR == FNR { if (sub(/^old: /, "")) old[++pairs] = $0; else if (sub(/^new: /, "")) new[++news] = $0; next }
    { line = $0; for (i = 1; i <= pairs; i++) if ($0 == old[i]) { hits[i]++; line = new[i] }; print line }
    END { for (i = 1; i <= pairs; i++) if (hits[i] != 1) { bad = 1; print hits[i] + 0 " times: " old[i] | "cat >&2" }
          exit bad || !pairs || pairs != news }'

compared || { tail -n 20 "$log"; echo "planted: without an error it isn't sound"; exit 1; }
[ $# -gt 0 ] || set -- "$here"/planted/*.edit
told=0 not=0
for edit in "$@"; do
    name=$(basename "$edit" .edit) edit=$here/planted/$(basename "$edit" .edit).edit
    [ -r "$edit" ] || { echo "planted: there is no $name"; exit 2; }
    file=$(sed -n 's/^file: //p' "$edit") entry=$(sed -n 's/^entry: //p' "$edit")
    awk "$edited" "$edit" "$here/$file" > "$file" || { echo "planted $name: does not fit $file"; exit 1; }
    compared --entry "$entry" && status=0 || status=$?
    different=$(awk -v entry="$entry" "$own" "$log")
    if [ $status = 1 ] && [ "${different:-0}" -gt 0 ]; then
        echo "planted $name: told, $different different"
        told=$((told + 1))
    else
        tail -n 20 "$log"
        echo "planted $name: NOT TOLD (exit $status; 100: does not build, 101: a panic)"
        not=$((not + 1))
    fi
    cp "$here/$file" "$file"
done
echo "planted: $told told, $not not"
[ $not = 0 ]
