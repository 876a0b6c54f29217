# sh examples/rattle/quoted.sh
# Each block of Rattle and each proof in docs/USING.md and README.md is a run of whole lines of one of the example's files.
set -eu
cd "$(dirname "$0")"
find crates -type f -name '*.txt' | xargs awk -v pages='../../docs/USING.md README.md' '
  { all = all $0 "\n" }
  END {
    count = split(pages, names, " ")
    for (at = 1; at <= count; at++) while ((getline line < names[at]) > 0) {
      if (line == "```rattle" || line == "```antt") { block = ""; inside = 1 }
      else if (line == "```" && inside) {
        inside = 0; blocks++
        if (!index(all, "\n" block)) { printf "in no file:\n%s\n", block; missing++ }
      } else if (inside) block = block line "\n"
    }
    printf "%d blocks, %d of them in no file\n", blocks, missing
    exit missing > 0
  }'
