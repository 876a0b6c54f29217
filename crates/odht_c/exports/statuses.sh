#!/bin/sh
# Compares the numbers of the statuses in include/odht.h with those of docs/FORMAT.md and of status.rt in odht_calls.
set -eu
top=$(cd "$(dirname "$0")/../../.." && pwd)
room=$(mktemp -d)
trap 'rm -rf "$room"' EXIT
trap 'exit 1' HUP INT TERM

# lines "number NAME Error", and with the texts "number NAME Error text"
sed -n 's|^ *\(ODHT_[A-Z_]*\) = \([0-9]*\),\{0,1\} *\(/\* Error::\([A-Za-z]*\)\)\{0,1\}.*|\2 \1 \4|p' \
    "$top/include/odht.h" | sort -n > "$room/header"
sed -n 's/^| \([0-9]*\) | `\(ODHT_[A-Z_]*\)` | `\{0,1\}\([A-Za-z]*\)`\{0,1\} *| \(.*\) |$/\1 \2 \3/p' \
    "$top/docs/FORMAT.md" > "$room/format"
diff "$room/header" "$room/format" >&2 || { echo "statuses: odht.h and docs/FORMAT.md differ" >&2; exit 1; }

sed -n 's/^ *case \(ODHT_[A-Z_]*\): return "\(.*\)";/\1 \2/p' "$top/include/odht.h" > "$room/texts"
sed -n 's/^| [0-9]* | `\(ODHT_[A-Z_]*\)` | [^|]*| \(.*\) |$/\1 \2/p' "$top/docs/FORMAT.md" > "$room/format"
diff "$room/texts" "$room/format" >&2 || { echo "statuses: texts in odht.h and docs/FORMAT.md differ" >&2; exit 1; }

grep ' [A-Za-z]*[a-z]$' "$room/header" | sed 's/ ODHT_[A-Z_]* / /' > "$room/errors"
sed -n 's/^ *Error::\([A-Za-z]*\).* => \([0-9]*\),$/\2 \1/p' "$top/crates/odht_calls/src/status.rt" > "$room/source"
diff "$room/errors" "$room/source" >&2 || { echo "statuses: odht.h and status.rt differ" >&2; exit 1; }

sed -n 's/^pub const \([A-Z_]*\): u32 = \([0-9]*\);/\2 ODHT_\1/p' "$top/crates/odht_calls/src/status.rt" |
    while read -r number name; do
        grep -q "^$number $name " "$room/header" || { echo "statuses: odht.h has no $name = $number" >&2; exit 1; }
    done
echo "statuses: the same in odht.h, docs/FORMAT.md and the library"
