#!/bin/sh
# installed.sh TARGET: what README says of `make install`, with what cargo builds below TARGET: the program there is
# compiled by what pkg-config prints, by CMake and with the archive, and run; all that was installed is removed again.
# One line for each.
set -eu
here=$(cd "$(dirname "$0")" && pwd)
mkdir -p "$1"
target=$(cd "$1" && pwd)
room=$(mktemp -d)
trap 'rm -rf "$room"' EXIT
trap 'exit 1' HUP INT TERM
build() {
    "${MAKE:-make}" -s -C "$here" CARGO_TARGET_DIR="$target" "$@"
}

cd "$room"
awk '/^```/ { inside = $0 == "```c"; next } inside' "$here/README.md" > program.c
wanted='3 has 4, and 7 is absent'
runs() {
    test "$("$@")" = "$wanted" || { echo "$*: not what README says" >&2; exit 1; }
}

build lib
build install PREFIX="$room/usr" > printed
grep -q "rpath,$room/usr/lib" printed
warnings='-Wall -Wextra -Wpedantic -Werror'
if command -v pkg-config > /dev/null 2>&1; then
    export PKG_CONFIG_PATH="$room/usr/lib/pkgconfig"
    # shellcheck disable=SC2046,SC2086
    cc $warnings program.c $(pkg-config --cflags --libs odht) -o program
    runs env LD_LIBRARY_PATH="$room/usr/lib" ./program
    # shellcheck disable=SC2046,SC2086
    cc $warnings program.c $(pkg-config --cflags --libs odht) "-Wl,-rpath,$room/usr/lib" -o program
    runs ./program
    rm usr/lib/libodht.so
    runs ./program # by the SONAME
    ln -s libodht.so.0 usr/lib/libodht.so
    echo 'pkg-config: well'
fi
# shellcheck disable=SC2086
cc $warnings -Iusr/include program.c usr/lib/libodht.a -Wl,--gc-sections -s -o program
runs ./program
test "$(wc -c < program)" -lt 500000 || { echo 'a static program has more than half a megabyte' >&2; exit 1; }
echo 'static: well'
if command -v cmake > /dev/null 2>&1; then
    mkdir project
    cp program.c project
    cat > project/CMakeLists.txt << 'END'
cmake_minimum_required(VERSION 3.13)
project(program C)
find_package(odht 0.4 REQUIRED)
add_executable(program program.c)
target_link_libraries(program PRIVATE odht::odht)
END
    cmake -S project -B made -DCMAKE_PREFIX_PATH="$room/usr" > printed 2>&1 || { cat printed >&2; exit 1; }
    cmake --build made > printed 2>&1 || { cat printed >&2; exit 1; }
    runs made/program
    echo 'cmake: well'
fi
build install DESTDIR="$room/staged" PREFIX=/opt/odht LIBDIR=/opt/odht/lib64 > printed
test ! -s printed
grep -q '^prefix=/opt/odht$' staged/opt/odht/lib64/pkgconfig/odht.pc
build uninstall DESTDIR="$room/staged" PREFIX=/opt/odht LIBDIR=/opt/odht/lib64
build uninstall PREFIX="$room/usr"
# at the top, where there is no kit and nothing was made: only what make, cargo and the recipes call is on the PATH
mkdir bare
for name in cargo rustc cc ld ar objcopy make sh cat chmod cp echo find install ln mktemp realpath rm rmdir sed; do
    for folder in $(echo "$PATH" | tr : ' '); do
        if [ -x "$folder/$name" ]; then
            ln -s "$folder/$name" "bare/$name"
            break
        fi
    done
done
at_top() {
    PATH="$room/bare" make -s -C "$here/../.." CARGO_TARGET_DIR="$target" MADE= DESTDIR="$room/staged" "$@"
}
at_top install > printed
test "$(wc -l < printed)" -eq 1
grep -q '^there is no rt here.*rust/c' printed
# shellcheck disable=SC2086
cc $warnings -Istaged/usr/local/include program.c staged/usr/local/lib/libodht.a -o program
runs ./program
at_top uninstall
echo 'without the kit: well'
left=$(find staged usr ! -type d)
test -z "$left" || { echo "not removed: $left" >&2; exit 1; }
echo 'uninstall: well'
