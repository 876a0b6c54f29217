#!/bin/sh
# examples.sh FOLDER: compiles the examples in C over the libodht.a and the libodht.so of a folder, runs them and
# compares what they print; and that of odht.hpp with each compiler for C++ that is here. One line a program.
set -eu
top=$(cd "$(dirname "$0")/../.." && pwd)
libraries=$(cd "$1" && pwd)
room=$(mktemp -d)
trap 'rm -rf "$room"' EXIT
trap 'exit 1' HUP INT TERM
cd "$room"
flags="-std=c11 -O1 -Wall -Wextra -Wpedantic -Werror -I$top/include"

# A program of these sources, linked in both ways.
try() {
    program=$1
    shift
    # shellcheck disable=SC2086
    {
        cc $flags "$@" "$libraries/libodht.a" -o "$program.static"
        cc $flags "$@" -L"$libraries" "-Wl,-rpath,$libraries" -l:libodht.so -o "$program.shared"
    }
    for way in static shared; do
        "./$program.$way" stored.odht > "printed.$way"
    done
    cmp printed.static printed.shared
    echo "$program: well"
}

cd "$room"
try example "$top/examples/c/main.c" "$top/examples/c/orders.c" "$top/examples/c/views.c"
diff "$top/examples/expected" printed.static
for program in null forged sets lengths grow readme; do
    try "$program" "$top/examples/c/$program.c"
done

# odht.h in the versions of C that it is for, and in the one that it says it is not for
for version in c99 c11 c17; do
    cc "-std=$version" -Wall -Wextra -Wpedantic -Werror "-I$top/include" -fsyntax-only "$top/examples/c/readme.c"
done
if cc -std=c89 "-I$top/include" -fsyntax-only "$top/examples/c/readme.c" 2> told; then exit 1; fi
grep -q 'error.*needs C99' told
echo 'versions of C: well'

# odht.hpp in each version, without exceptions, and where the calls are the symbols themselves
for compiler in g++ clang++; do
    command -v "$compiler" > /dev/null 2>&1 || continue
    for way in -std=c++17 -std=c++20 '-std=c++17 -fno-exceptions' '-std=c++20 -DODHT_PLAIN'; do
        # shellcheck disable=SC2086
        "$compiler" $way -O1 -Wall -Wextra -Wpedantic -Werror "-I$top/include" "$top/examples/c/view.cpp" \
            "$libraries/libodht.a" -o view
        test "$(./view)" = 'odht.hpp: well' || { ./view >&2; exit 1; }
    done
    # types that no shape has are named by a message, which lists those that are there
    for use in 'odht::view<int, int>::open("", 0);' 'odht::table<int, int> it;' \
        'odht::view<odht::bytes<3>>::open("", 0);'; do
        printf '#include "odht.hpp"\nint main() { %s }\n' "$use" > none.cpp
        if "$compiler" -std=c++17 "-I$top/include" -fsyntax-only none.cpp 2> told; then exit 1; fi
        grep -q 'has no tables of this Key.*std::uint64_t to std::uint32_t; .*bytes<32>\.' told
    done
    echo "view by $compiler: well"
done
