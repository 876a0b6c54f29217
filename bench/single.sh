#!/bin/sh
# single.sh START NOW [LENGTH..]: the instructions of single calls by two checkouts of this repository, as Markdown: a row
# for each key length, of each figure first that of START. rustc and valgrind are needed, and nothing proved.
set -eu
here=$(cd "$(dirname "$0")" && pwd)
start=$1 now=$2
shift 2
[ $# != 0 ] || set -- 8 12 16 20 24 32 64 65 128 255
work=$(mktemp -d)
trap 'rm -rf "$work"' EXIT

# library CHECKOUT NAME: the crate for Rust, as it is and with the feature `checked`
library() {
  for kind in default checked; do
    mkdir -p "$work/$2.$kind"
    rustc --edition 2021 -C opt-level=3 -A warnings --crate-name odht --crate-type rlib --cfg 'feature="std"' \
      --cfg "feature=\"$kind\"" --out-dir "$work/$2.$kind" "$1/rust/src/lib.rs"
  done
}

# count PROGRAM ROUNDS: its instructions
count() {
  valgrind --tool=callgrind --callgrind-out-file=/dev/null "$1" "$2" 2>&1 | awk '/Collected/ { print $4 }'
}

# figure NAME KIND LENGTH JOB [CFG..]: instructions of a call, without what comes before the rounds
figure() {
  echo "const LEN: usize = $3;" > "$work/len.rs"
  library=$work/$1.$2/libodht.rlib job=$4
  shift 4
  for word; do shift; set -- "$@" --cfg "$word"; done
  LEN_FILE=$work/len.rs rustc --edition 2021 -C opt-level=3 -A warnings --cfg "job=\"$job\"" "$@" \
    --extern odht="$library" -o "$work/single" "$here/single.rs"
  few=$(count "$work/single" 2) more=$(count "$work/single" 6)
  awk -v few="$few" -v more="$more" 'BEGIN { printf "%.1f", (more - few) / 4 / 800 }'
}

# row LENGTH FIGURES: a row of a table, whose figures are words of `figure` with `/` between them
row() {
  length=$1 line="| $1 |"
  shift
  for words; do
    kind=${words%%/*} rest=$(echo "${words#*/}" | tr / ' ')
    # shellcheck disable=SC2086
    line="$line $(figure start "$kind" "$length" $rest), $(figure now "$kind" "$length" $rest) |"
  done
  echo "$line"
}

library "$start" start
library "$now" now
heads() {
  printf '\n| key bytes |'
  for kind in default '`checked`'; do for head; do printf ' %s %s |' "$kind" "$head"; done; done
  printf '\n|---|'
  for kind in default checked; do for head; do printf -- '---|'; done; done
  printf '\n'
}

for job in get has; do
  heads "$job present" absent 'called, present' 'called, absent'
  for length; do
    row "$length" default/$job default/$job/absent default/$job/called default/$job/called/absent \
      checked/$job checked/$job/absent checked/$job/called checked/$job/called/absent
  done
done
heads 'list present' absent overwrite insert
for length; do
  row "$length" default/list default/list/absent default/insert default/insert/absent \
    checked/list checked/list/absent checked/insert checked/insert/absent
done
