#!/bin/sh
# linked.sh TARGET: programs in Rust over the archive that cargo builds below TARGET, linked by odht-ffi. A panic of such
# a program is caught. One line for each.
#
# named: all tests of odht-ffi, with ODHT_LIB_DIR. installed: tests/panics.rs of it after `make install`, by pkg-config.
# rejected: the archive before its names are hidden.
set -eu
here=$(cd "$(dirname "$0")" && pwd)
bindings=$(cd "$here/../../bindings/rust" && pwd)
mkdir -p "$1"
target=$(cd "$1" && pwd)
room=$(mktemp -d)
trap 'rm -rf "$room"' EXIT
trap 'exit 1' HUP INT TERM
export CARGO_TARGET_DIR="$target-linked"
build() {
    "${MAKE:-make}" -s -C "$here" CARGO_TARGET_DIR="$target" "$@"
}

# What must succeed: its output is shown only where it does not.
quietly() {
    "$@" > "$room/printed" 2>&1 || { cat "$room/printed" >&2; exit 1; }
}

build lib
cd "$bindings"
quietly env ODHT_LIB_DIR="$target/library" cargo test --quiet --offline
echo 'named: well'

# elsewhere, where the package does not see build/ of the repository
mkdir "$room/package"
cp -r Cargo.toml build.rs README.md src tests "$room/package"
cd "$room/package"
unset ODHT_LIB_DIR
if command -v pkg-config > /dev/null 2>&1; then
    quietly build install PREFIX="$room/usr"
    quietly env PKG_CONFIG_PATH="$room/usr/lib/pkgconfig" cargo test --quiet --offline --test panics
    grep -q '^test result: ok. 1 passed' "$room/printed"
    echo 'installed: well'
fi
if ODHT_LIB_DIR="$target/release" cargo build --quiet --offline > "$room/printed" 2>&1; then
    echo 'an archive with the names of the standard library is linked' >&2
    exit 1
fi
grep -q 'make -C rust/c' "$room/printed"
echo 'rejected: well'
