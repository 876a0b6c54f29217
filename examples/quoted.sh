#!/bin/sh
# Each block of code in README, and in rust/examples/README.md, is a run of whole lines of a file that is compiled: in
# README of Rattle of the view's source, of C of c/readme.c, and of Rust of the example of rust/README.md, which is a
# test of its documentation; in the other page of the two files of the example `embedded`.
set -eu
cd "$(dirname "$0")/.."

# quoted PAGE BLOCKS FILES: the blocks of code of a page, so many, each by the files of its language, which come in
# pairs with it
quoted() {
  awk -v page="$1" -v wanted="$2" -v files="$3" '
  function lines(file,   line, all) { while ((getline line < file) > 0) all = all line "\n"; return all }
  BEGIN {
    count = split(files, names, " ")
    for (at = 1; at < count; at += 2) compiled["```" names[at]] = compiled["```" names[at]] lines(names[at + 1])
  }
  $0 in compiled { language = $0; block = ""; next }
  $0 == "```" && language != "" {
    blocks++
    if (!index(compiled[language], "\n" block)) { printf "%s: not in the file that is compiled:\n%s", page, block; wrong++ }
    language = ""
    next
  }
  language != "" { block = block $0 "\n" }
  END {
    if (blocks != wanted) { printf "%s: %d blocks of code and not %d\n", page, blocks, wanted; wrong++ }
    exit wrong > 0
  }' "$1"
}

quoted README.md 3 "rattle crates/odht/src/hash_table.rt c examples/c/readme.c rust rust/README.md"

# "Grow on FULL" in odht.h is the function of c/grow.c, which is compiled and run
in_header=$(sed -n '/^ \*     static uint32_t insert_and_grow/,/^ \*     }/s/^ \*     //p' include/odht.h)
in_example=$(sed -n '/^static uint32_t insert_and_grow/,/^}/p' examples/c/grow.c)
if [ -z "$in_header" ] || [ "$in_header" != "$in_example" ]; then
  echo 'include/odht.h: "Grow on FULL" is not the function of examples/c/grow.c'
  exit 1
fi

embedded=rust/examples/embedded
quoted rust/examples/README.md 2 "rust,ignore $embedded/build.rs rust,ignore $embedded/src/main.rs"
