#!/bin/sh
# run.sh CFLAGS ODHT: reads the tables of the machine's Rust toolchain, in the files of metadata up to 9 MB, by the
# program in C over the installed library (CFLAGS), the one in Rust, the one in Rattle, and the program `odht` (ODHT).
# Each has to find the same tables. `odht` also writes one out and makes it again. Prints how many tables there are, and
# nothing where there is no toolchain.
set -eu
cflags=$1
odht=$2
here=$(cd "$(dirname "$0")" && pwd)
room=$(mktemp -d)
trap 'rm -rf "$room"' EXIT
cd "$room"

fail() {
    echo "toolchain: $1" >&2
    exit 1
}

files=$(find "$(rustc --print sysroot)/lib/rustlib" -name '*.rmeta' -size -9216k 2> /dev/null | sort) || exit 0
[ -n "$files" ] || exit 0

# Compares what a program prints of all files with what the program in C has.
compare() {
    cmp tables "$1" || fail "$2 reads other tables than the program in C"
}

# What `odht find` says of a file, in the columns of the other programs. Each table is valid.
found() {
    status=0
    "$odht" find "$1" > rows 2> errors || status=$?
    [ "$status" = 0 ] || { [ "$status" = 1 ] && [ ! -s errors ]; } || fail "odht find: status $status, $(cat errors)"
    awk -F '\t' '$3 == 8 && $4 == 4 { if ($8 != "unhash" || $9 != "valid") exit 1; print $1, $2, $5, $6 }' rows ||
        fail "odht find: a table of $1 is not valid"
}

# Writes the table at an offset of a file out, looks its keys up, and makes it again: definition by definition, as the
# compiler does, in a table that grows.
remake() {
    "$odht" dump "$1" --at "$2" > pairs
    "$odht" check "$1" --at "$2" --hash unhash > answer && grep -q ": valid, and no search reads more than" answer || fail "odht check: $(cat answer)"
    cut -f 1 pairs | "$odht" get "$1" --at "$2" - | cmp pairs - || fail 'odht get finds other values'
    rm -f again.odht
    sort -n -k 2 pairs | "$odht" build again.odht --key hex8 --value u32
    tail -c +$(($2 + 1)) "$1" | head -c "$3" | cmp - again.odht || fail 'odht build makes other bytes'
}

# shellcheck disable=SC2086
cc -std=c11 -O1 "$here/definitions.c" $cflags -o definitions
# shellcheck disable=SC2086
./definitions $files > tables
[ -s tables ] || fail 'the program in C finds no table'

if command -v cargo > /dev/null 2>&1; then
    export CARGO_TARGET_DIR="$room/target"
    (cd "$here" && cargo build --quiet --offline --release)
    # shellcheck disable=SC2086
    target/release/definitions $files > by_rust
    compare by_rust 'the program in Rust'
fi
sh "$here/../rattle/setup.sh" "$room/rattle" > /dev/null
# shellcheck disable=SC2086
(cd rattle/crates/definitions && rt try --seconds 300 -- $files) > printed 2>&1 || { cat printed >&2; fail 'Rattle'; }
grep '^[0-9]' printed > by_rattle
compare by_rattle 'the program in Rattle'
for file in $files; do found "$file"; done > by_odht
compare by_odht 'odht find'
for file in $files; do
    found "$file" | while read -r offset length _; do remake "$file" "$offset" "$length"; done
done
languages='C, Rattle'
if [ -s by_rust ]; then languages='C, Rust, Rattle'; fi
echo "the same $(wc -l < tables) tables in $languages and by odht"
