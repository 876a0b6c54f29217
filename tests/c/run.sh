#!/bin/sh
# run.sh LIBRARY [CC]: compiles the tests of the calls for C over this archive and runs them: with CC, or with cc and,
# where there is one, with clang. The last of these whose sanitizers run here also has them, unless SANITIZERS is `no`.
# With one compiler there is a run without them too. The sanitizers watch the tests and the header: the archive is
# compiled without them, so a second compiler's would watch the same.
# Prints what the program prints. The status is 0 only where each run went well.
set -eu
if [ $# -lt 1 ] || [ ! -f "$1" ]; then
    echo 'usage: run.sh LIBRARY [CC]' >&2
    exit 2
fi
library=$(cd "$(dirname "$1")" && pwd)/$(basename "$1")
shift
cd "$(dirname "$0")"
room=$(mktemp -d)
trap 'rm -rf "$room"' EXIT
trap 'exit 1' HUP INT TERM
flags='-std=c11 -D_DEFAULT_SOURCE -O2 -Wall -Wextra -Wpedantic -Werror'
sanitizers='-g -fsanitize=address,undefined -fno-sanitize-recover=all'
# the archive's requests for memory go through requests.c
wrapped='-Wl,--wrap=malloc,--wrap=calloc,--wrap=realloc,--wrap=free'
wrapped="$wrapped -Wl,--wrap=aligned_alloc,--wrap=posix_memalign"

has() {
    command -v "$1" > /dev/null 2>&1
}

# Whether a compiler makes programs with sanitizers that run here.
sanitizes() {
    echo 'int main(void) { return 0; }' > "$room/empty.c"
    # shellcheck disable=SC2086
    "$1" $sanitizers "$room/empty.c" -o "$room/empty" 2> /dev/null && "$room/empty" 2> /dev/null
}

# Compiles with a compiler and further flags, and prints the folder of the object files. Where OBJECTS names a folder,
# what is without sanitizers stays there: a run over another archive takes it, with the same compiler and sources.
compiled() {
    made=$room/objects
    rm -rf "$made"
    if [ -n "${OBJECTS-}" ] && [ -z "$2" ] && has flock; then
        sum=$({ "$1" --version && echo "$flags" && cat ./*.c ./*.h generated/*.h ../../include/*; } | sha256sum | cut -c1-16)
        made=$OBJECTS/$1-$sum
    fi
    mkdir -p "$made"
    # shellcheck disable=SC2086
    (
        if has flock; then flock 9; fi
        if [ ! -f "$made/whole" ]; then
            for source in ./*.c; do
                "$1" $flags $2 -I../../include -c "$source" -o "$made/${source%.c}.o" || exit 1
            done
            touch "$made/whole"
        fi
    ) 9> "$made/lock" >&2 || return 1
    echo "$made"
}

# Compiles with a compiler and further flags, and runs.
try() {
    # shellcheck disable=SC2086
    if ! objects=$(compiled "$1" "$2") || ! "$1" $2 "$objects"/*.o "$library" $wrapped -o "$room/tests" ||
        ! "$room/tests"; then
        echo "tests/c: failed with $1 $2" >&2
        status=1
    fi
}

if [ $# = 0 ]; then
    set -- cc
    if has clang; then set -- cc clang; fi
fi
sanitizing=
if [ "${SANITIZERS-}" != no ]; then
    for compiler in "$@"; do
        if sanitizes "$compiler"; then sanitizing=$compiler; fi
    done
fi
status=0
for compiler in "$@"; do
    if [ $# = 1 ] || [ "$compiler" != "$sanitizing" ]; then try "$compiler" ''; fi
    if [ "$compiler" = "$sanitizing" ]; then try "$compiler" "$sanitizers"; fi
done
exit "$status"
