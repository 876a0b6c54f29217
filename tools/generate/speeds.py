#!/usr/bin/env python3
"""The speeds in README.md and rust/README.md, of the tables of bench/RESULTS.md.

  speeds.py            writes them: between the two comments in README.md, and a sentence of rust/README.md
  speeds.py --check    reports those that are not current, with status 1
"""
import os
import re
import sys
import textwrap

TOP = os.path.dirname(os.path.dirname(os.path.dirname(os.path.realpath(__file__))))
BEGIN, END = "<!-- Generated from bench/RESULTS.md by make generate. -->\n", "<!-- End of the generated part. -->\n"
WIDTH = 120
SIZE = "10^5"
# the text of a row, and where its ratio is: the heading of a table, and a line of it
ROWS = [
    ("`insert` of a new key, from Rust", "## The crate for Rust", "insert"),
    ("`get` of a present key, from Rust", "## The crate for Rust", "get, present"),
    ("a walk, from Rust", "## The crate for Rust", "walk"),
    ("`odht_*_insert` of a new key, from C", "# A run", "presized, insert from C"),
    ("`odht_*_view_get` of a present key, from C", "# A run", "hits, view_get"),
    ("`odht_*_get` of a present key, from C; it checks the header at each call", "# A run", "hits, get from C"),
]
# the rows of the crate for Rust that rust/README.md has
CRATE_TOLD = ["insert", "get, present", "walk"]


def read(file):
    with open(file, encoding="utf-8") as it:
        return it.read()


def ratios(results, part, name):
    """Returns the ratios of a line, of the first table with keys of 64 bits after the heading `part`."""
    table = results[results.index(part) :]
    table = table[table.index("| 64-bit keys |") :].split("\n\n")[0].split("\n")
    columns = [it.strip() for it in table[0].split("|")]
    line = next(it for it in table if it.startswith(f"| {name} |")).split("|")
    return re.sub(r"<br>.*|\*", "", line[columns.index(SIZE)]).strip().split(" / ")


def made(results):
    rows = [f"| {text} | {ratios(results, part, name)[0]} |" for text, part, name in ROWS]
    return "\n".join(["| call | time over the original's |", "|---|---|", *rows]) + "\n"


def of_readme(text, results):
    before, rest = text.split(BEGIN)
    return before + BEGIN + made(results) + END + rest.split(END)[1]


def of_crate(text, results):
    """Returns the text with the paragraph that begins so written again; the sentence after it stays."""
    found = [ratios(results, "## The crate for Rust", name) for name in CRATE_TOLD]
    (insert, insert_checked), (get, get_checked), (walk, walk_checked) = found
    told = (
        f"Time divided by that of the original, for {SIZE} numbers, by default and with `checked`: `insert` {insert} and "
        f"{insert_checked}, `get` of a present key {get} and {get_checked}, a walk {walk} and {walk_checked}."
    )
    paragraph = re.search(r"Time divided by that of the original, .*?\n\n", text, re.S)[0]
    behind = re.search(r"`bench/RESULTS.md` .*", " ".join(paragraph.split()))[0]
    return text.replace(paragraph, textwrap.fill(f"{told} {behind}", WIDTH) + "\n\n")


def main(*words):
    if words not in ((), ("--check",)):
        sys.exit(__doc__)
    results = read(f"{TOP}/bench/RESULTS.md")
    wrong = 0
    for name, of in (("README.md", of_readme), ("rust/README.md", of_crate)):
        text = read(f"{TOP}/{name}")
        current = of(text, results)
        if words and current != text:
            print(f"not current: the speeds in {name}: run make generate")
            wrong = 1
        if not words:
            with open(f"{TOP}/{name}", "w", encoding="utf-8") as it:
                it.write(current)
    return wrong


if __name__ == "__main__":
    sys.exit(main(*sys.argv[1:]))
