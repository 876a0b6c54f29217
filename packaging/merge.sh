#!/bin/sh
# merge.sh OUT ARCHIVE..: one archive of all that is in these, in which only the names odht_* are seen from outside. It
# can be linked beside other libraries that define the same functions: for memory, or of Rust's standard library.
set -eu
out=$1
shift
room=$(mktemp -d)
trap 'rm -rf "$room"' EXIT
# A linker keeps one of several groups of the same name. Without groups, no other archive's copy replaces ours.
ld -r --force-group-allocation --whole-archive "$@" -o "$room/odht.o"
# The sections of LLVM are of single objects, so they are not valid once objects are merged.
objcopy --wildcard --keep-global-symbol='odht_*' \
    --remove-section=.llvmbc --remove-section=.llvmcmd --remove-section=.llvm_addrsig "$room/odht.o"
rm -f "$out"
ar rcsD "$out" "$room/odht.o"
