#!/bin/sh
# run.sh ODHT LIBRARY FILE..: two jobs for the program `odht` (ODHT), as docs/TOOL.md has them: the symbols of a shared
# library by address, and a set of the hashes of files. What comes out is compared with what nm and sha256sum say.
# Prints how many symbols and hashes there are.
set -eu
odht=$1
library=$2
shift 2
room=$(mktemp -d)
trap 'rm -rf "$room"' EXIT

fail() {
    echo "jobs: $1" >&2
    exit 1
}

# The address of each function and its size, in decimal; an address with two names is there twice.
nm -D --defined-only -S -t d "$library" | awk '$3 == "T" { printf "%d\t%d\n", $1, $2 }' > "$room/symbols"
"$odht" build "$room/symbols.odht" --key u64 --value u64 < "$room/symbols"
sort -u -n "$room/symbols" > "$room/expected"
"$odht" dump "$room/symbols.odht" | sort -n | cmp - "$room/expected" || fail 'the symbols are not those of nm'
cut -f 1 "$room/expected" | "$odht" get "$room/symbols.odht" - | cmp - "$room/expected" ||
    fail 'a symbol is not found at its address'

# Files that are known, and one that is not.
sha256sum "$@" | cut -c 1-64 > "$room/hashes"
"$odht" build "$room/known.odht" --key hex32 --value none < "$room/hashes"
"$odht" get "$room/known.odht" - < "$room/hashes" > "$room/found" || fail 'a file that is known is not found'
awk '{ print $0 "\t" }' "$room/hashes" | cmp - "$room/found" || fail 'other hashes are found'
echo changed | cat "$1" - | sha256sum | cut -c 1-64 > "$room/changed"
if "$odht" get "$room/known.odht" - < "$room/changed" > "$room/found"; then fail 'a changed file is known'; fi

echo "$(grep -c . "$room/expected") symbols, $(sort -u "$room/hashes" | grep -c .) hashes"
