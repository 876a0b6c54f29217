#!/bin/sh
# Installs the library in a new folder, and there, outside of the repository, compiles and runs the examples as a user
# of the library does. Then the tests of the calls for C and of the two programs run once more, over what was proved.
# One line a program. What this machine does not have is left out, and the line does not name it. The last line counts.
set -eu
top=$(cd "$(dirname "$0")/.." && pwd)
room=$(mktemp -d)
trap 'rm -rf "$room"' EXIT
cd "$room"
"${MAKE:-make}" -s -C "$top" install PREFIX="$room/usr" > /dev/null
cp -R "$top/examples/." .
export PKG_CONFIG_PATH="$room/usr/lib/pkgconfig"
warnings='-Wall -Wextra -Wpedantic -Werror'

has() {
    command -v "$1" > /dev/null 2>&1
}

passed=0

# Says that something went well.
well() {
    passed=$((passed + 1))
    echo "$1"
}

fail() {
    echo "examples: $1" >&2
    echo "$passed passed, 1 failed"
    exit 1
}

# The flags of a way to link.
link_flags() {
    case $1 in
    shared)
        if has pkg-config; then pkg-config --cflags --libs odht; else echo "-Iusr/include -Lusr/lib -lodht"; fi
        echo "-Wl,-rpath,$room/usr/lib" ;;
    static) echo "-Iusr/include usr/lib/libodht.a" ;;
    sanitized) echo "-Iusr/include usr/lib/libodht.a -g -fsanitize=address,undefined -fno-sanitize-recover=all" ;;
    esac
}

sources() {
    case $1 in
    example) echo "c/main.c c/orders.c c/views.c" ;;
    view) echo "c/view.cpp" ;;
    *) echo "c/$1.c" ;;
    esac
}

# Runs a command that is one of the programs, and compares what it prints and stores.
run() {
    program=$1
    shift
    case $program in
    example)
        "$@" stored.odht > printed || fail "$*: status $?"
        diff expected printed >&2 || fail "$*: this is not what examples/expected has"
        if [ ! -f first.odht ]; then cp stored.odht first.odht; fi
        cmp first.odht stored.odht || fail "$*: it stores other bytes than the first program" ;;
    *) "$@" > printed || fail "$*: status $?" ;;
    esac
}

# Whether this compiler makes programs with sanitizers that run here.
sanitizes() {
    echo 'int main(void) { return 0; }' > empty.c
    "$@" -fsanitize=address,undefined empty.c -o empty 2> /dev/null && ./empty 2> /dev/null
}

# A program in a language, by a compiler with its flags, in each way to link; a program in C with the sanitizers and
# under valgrind too.
try() {
    program=$1
    language=$2
    shift 2
    ways='shared static'
    if [ "$language" = C ] && sanitizes "$@"; then ways="$ways sanitized"; fi
    for way in $ways; do
        # shellcheck disable=SC2046,SC2086
        "$@" -O1 $warnings $(sources "$program") -x none $(link_flags "$way") -o "$program.$way" ||
            fail "$program: $1 does not compile it"
        run "$program" "./$program.$way"
    done
    if [ "$language" = C ] && has valgrind; then
        ways="$ways valgrind"
        run "$program" valgrind -q --error-exitcode=9 --leak-check=full "./$program.static"
    fi
    well "$program: well in $language by $1 ($(echo $ways | sed 's/ /, /g'))"
}

# The header alone, in each version of a language that the compiler knows.
header() {
    compiler=$1
    language=$2
    shift 2
    clean=''
    echo '#include <odht.h>' > header.c
    for version in "$@"; do
        if "$compiler" -std="$version" -x "$language" -fsyntax-only /dev/null 2> /dev/null; then
            # shellcheck disable=SC2086
            "$compiler" -std="$version" -x "$language" -fsyntax-only $warnings -Iusr/include header.c ||
                fail "odht.h: not clean in $version"
            clean="$clean $version"
        fi
    done
    well "odht.h: no warnings by $compiler in$clean"
}

try_cmake() {
    cmake -S cmake -B made -DCMAKE_PREFIX_PATH="$room/usr" > printed 2>&1 || { cat printed >&2; fail "cmake"; }
    cmake --build made > printed 2>&1 || { cat printed >&2; fail "cmake --build"; }
    run example made/example
    run null made/null
    well "example, null: well by cmake"
}

# The tests of the crate for Rust, which read the repository's vectors too, and the example that uses it.
try_rust() {
    export ODHT_LIB_DIR="$room/usr/lib" CARGO_TARGET_DIR="$room/target"
    (cd "$top/bindings/rust" && cargo test --quiet --offline) > printed 2>&1 ||
        { cat printed >&2; fail "the tests of bindings/rust"; }
    sed "s|path = \"\.\..*\"|path = \"$top/bindings/rust\"|" "$top/examples/rust/Cargo.toml" > rust/Cargo.toml
    (cd rust && cargo build --quiet --offline --release) || fail "example: cargo does not compile it"
    run example target/release/example
    run pages target/release/pages
    well "example, pages: well in Rust by cargo, and the tests of its crate"
}

sh "$top/crates/odht_c/exports/statuses.sh"
sh "$top/examples/quoted.sh"
if has cc; then
    for program in example null forged sets lengths grow readme pages; do try "$program" C cc -std=c11; done
    header cc c c99 c11 c17 c2x
fi
if has c++; then
    for program in example null forged sets lengths grow pages view; do try "$program" C++ c++ -std=c++17 -x c++; done
    header c++ c++ c++11 c++14 c++17 c++20
fi
if has clang; then
    try null C clang -std=c11
    header clang c c99 c11 c17 c2x
fi
if has clang++; then
    for program in null view; do try "$program" C++ clang++ -std=c++17 -x c++; done
    header clang++ c++ c++11 c++14 c++17 c++20
fi
if has cc && has cmake; then try_cmake; fi
if has cargo; then try_rust; fi
if has cc; then
    sh "$top/tests/c/run.sh" usr/lib/libodht.a > printed || { cat printed; fail "the calls for C"; }
    well "calls for C: $(tail -n 1 printed)"
fi
for program in tool table; do
    built="$top/crates/odht_$program/out/odht_$program"
    # there once the gate has proved and built it
    if [ -x "$built" ] && has python3; then
        cases=$([ "$program" = tool ] && echo tool || echo script)
        python3 "$top/tests/cases.py" "$built" "$top/tests/$cases" > printed || { cat printed; fail "odht_$program"; }
        well "odht_$program: $(tail -n 1 printed)"
    fi
done
if has nm && has sha256sum && [ -x "$top/crates/odht_tool/out/odht_tool" ]; then
    sh "$top/examples/jobs/run.sh" "$top/crates/odht_tool/out/odht_tool" usr/lib/libodht.so "$top"/docs/*.md > printed ||
        fail "the jobs of docs/TOOL.md"
    well "jobs: $(cat printed)"
fi
if has cc && has rustc && [ -x "$top/crates/odht_tool/out/odht_tool" ]; then
    sh "$top/examples/toolchain/run.sh" "-I$room/usr/include $room/usr/lib/libodht.a" \
        "$top/crates/odht_tool/out/odht_tool" > printed || { cat printed; fail "the tables of the Rust toolchain"; }
    if [ -s printed ]; then well "toolchain: $(cat printed)"; fi
fi
echo "$passed passed, 0 failed"
