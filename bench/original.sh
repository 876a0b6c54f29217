#!/bin/sh
# original.sh FOLDER TO: copies the sources of the Rust crate to TO/src. FOLDER is a checkout, or a flat folder in
# which a file is named as its path, with `--` for `/` and `.txt` behind it: src--lib.rs.txt or, from one folder above,
# src--src--lib.rs.txt.
set -e
if [ -z "$1" ]; then
  echo 'ODHT_RUST=folder is needed: the sources of the Rust crate' >&2
  exit 1
fi
rm -rf "$2/src" && mkdir -p "$2/src"
if [ -f "$1/src/lib.rs" ]; then
  cp -R "$1/src/." "$2/src"
  exit
fi
for above in src--src-- src--; do
  [ -f "$1/${above}lib.rs.txt" ] || continue
  for file in "$1/$above"*.rs.txt; do
    name=$(basename "$file" .txt)
    name=$(echo "${name#"$above"}" | sed 's|--|/|g')
    mkdir -p "$(dirname "$2/src/$name")"
    cp "$file" "$2/src/$name"
  done
  exit
done
echo "ODHT_RUST=$1 is no folder with the Rust crate: it has none of src/lib.rs, src--lib.rs.txt and" \
  'src--src--lib.rs.txt' >&2
exit 1
