#!/bin/sh
# hashes.sh [LENGTH..]: `get` by FxHashFn and by Xxh64HashFn, as Markdown: the instructions of a call of bench/single.rs,
# by callgrind, and its time in tables of bench/hashes.rs. rustc and valgrind are needed, and nothing proved.
set -eu
here=$(cd "$(dirname "$0")" && pwd)
[ $# != 0 ] || set -- 8 16 32 64
work=$(mktemp -d)
trap 'rm -rf "$work"' EXIT
for kind in checked default; do
  mkdir "$work/$kind"
  rustc --edition 2021 -C opt-level=3 -A warnings --crate-name odht --crate-type rlib --cfg 'feature="std"' \
    --cfg "feature=\"$kind\"" --out-dir "$work/$kind" "$here/../rust/src/lib.rs"
done

# count PROGRAM ROUNDS: its instructions
count() {
  valgrind --tool=callgrind --callgrind-out-file=/dev/null "$1" "$2" 2>&1 | awk '/Collected/ { print $4 }'
}

# figure KIND LENGTH HASH: the instructions of a call
figure() {
  echo "const LEN: usize = $2;" > "$work/len.rs"
  LEN_FILE=$work/len.rs rustc --edition 2021 -C opt-level=3 -A warnings -A unexpected_cfgs --cfg 'job="get"' --cfg "$3" \
    --extern odht="$work/$1/libodht.rlib" -o "$work/single" "$here/single.rs"
  few=$(count "$work/single" 2) more=$(count "$work/single" 6)
  awk -v few="$few" -v more="$more" 'BEGIN { printf "%.0f", (more - few) / 4 / 800 }'
}

echo '| key bytes | `checked`, fx | xxh64 | default, fx | xxh64 |'
echo '|---|---|---|---|---|'
for length; do
  echo "| $length | $(figure checked "$length" fx) | $(figure checked "$length" xxh64) |" \
    "$(figure default "$length" fx) | $(figure default "$length" xxh64) |"
done
echo
for kind in checked default; do
  rustc --edition 2021 -C opt-level=3 --extern odht="$work/$kind/libodht.rlib" -o "$work/hashes" "$here/hashes.rs"
  "$work/hashes" "$kind"
done
