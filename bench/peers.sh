#!/bin/sh
# peers.sh PICTURES WORD..: builds build/peers with those of the other libraries that are installed, and runs it with
# these words. It draws into the folder PICTURES, and needs build/libodht.a. The compiler for Rust and its flags are in
# BENCH_RUST, that for C is in CC.
set -e
here=$(dirname "$0")
to=build/peers_room
rm -rf "$to" && mkdir -p "$to"
trap 'rm -rf "$to"' EXIT
flags="-O3 -march=x86-64-v2 -Wall -Wextra -Werror -I include -I $here/peers"
CC=${CC:-cc}

compile() {
  $CC $flags -c "$here/peers/$1.c" -o "$to/$1.o"
}

compile odht
objects="$to/odht.o"
words=
for peer in cdb:cdb lmdb:lmdb sqlite:sqlite3; do
  name=${peer%:*}
  library=${peer#*:}
  # whether its header and the library are there
  echo 'int main(void) { return 0; }' > "$to/empty.c"
  if $CC -include "$library.h" "$to/empty.c" -l "$library" -o "$to/empty" 2> /dev/null; then
    compile "$name"
    objects="$objects $to/$name.o"
    words="$words --cfg $name -l $library"
  fi
done
ar rcs "$to/libpeers.a" $objects
$BENCH_RUST --edition 2021 -D warnings --check-cfg 'cfg(cdb, lmdb, sqlite)' "$here/peers.rs" \
  -L "native=$to" -l static=peers $words -L native=build -l static=odht -o build/peers
build/peers "$to" "$@"
