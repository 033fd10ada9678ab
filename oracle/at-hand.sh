# at-hand.sh: sourced by run.sh and planted.sh, with $root (the checkout) and $name. Where a Rust compiler or the Rust's two
# files are missing it says so and ends the script; else it exports where they and the archive are, as whole paths: a build
# script runs in the folder of its own package.
usual=$root/target/staticlib
[ "$(uname -m)" = x86_64 ] || usual=$root/target/native
source=${LADLETWIG_RUST_SOURCE:-$(dirname "$root")/shared/docs/src}
archive=${LADLETWIG_ARCHIVE_DIR:-$usual}
if ! "$root/bindings/rust-at-hand.sh"; then
    echo "$name: LEFT OUT, no Rust compiler (cargo, rustc 1.82 or later, cc) is at hand"
    exit 0
fi
for file in chalametpir_common/src/matrix.rs chalametpir_client/src/client.rs; do
    if [ ! -r "$source/$file" ]; then
        echo "$name: LEFT OUT, the Rust is not at hand: no $file in LADLETWIG_RUST_SOURCE, or in shared/docs/src" \
            "beside the checkout"
        exit 0
    fi
done
LADLETWIG_RUST_SOURCE=$(cd "$source" && pwd)
LADLETWIG_ARCHIVE_DIR=$(cd "$archive" && pwd)
export LADLETWIG_RUST_SOURCE LADLETWIG_ARCHIVE_DIR
