#!/usr/bin/env python3
"""Puts a run of the benchmark into RESULTS.md: its seven tables, each in the place of the one that was there. A table
after these is by hand.

    make bench MARKDOWN=1 ODHT_RUST=folder > RUN
    bench/results.py RUN

The text around the tables is by hand. `make generate` then makes the speeds of README.md of it.
"""
import os
import re
import sys

HERE = os.path.dirname(os.path.realpath(__file__))
GOALS = {
    "insert": "1.0 / 1.2", "insert_all": "0.6 / 0.9", "get, present": "1.05 / 1.3", "get, absent": "1.05 / 1.3",
    "walk": "0.6 / 0.9", "open": " / 1.0",
}


def cells_of(line):
    return [cell.strip() for cell in line.strip().strip("|").split("|")]


def tables_of(text):
    """Returns the tables of a text, each a list of rows, each a list of cells; the row of hyphens is left out."""
    found, lines = [], text.splitlines()
    for line, below in zip(lines, [*lines[1:], ""]):
        if line.startswith("|---"):
            continue
        if below.startswith("|---"):
            found.append([])
        if line.startswith("|"):
            found[-1].append(cells_of(line))
    return found


def placed(lines, head):
    return "\n".join([head, "|" + "---|" * (head.count("|") - 1), *lines]) + "\n"


def sizes(rows, column):
    return list(dict.fromkeys(row[column] for row in rows))


def calls_for_c(table, keys):
    """A line for each measure: the ratios as linked and moved, and the least nanoseconds of each as linked."""
    rows, lines = table[1:], []
    counts = sizes(rows, 0)
    for measure in [it for it in sizes(rows, 1) if "2 MB" not in it]:
        cells = []
        for count in counts:
            of = {row[2]: row for row in rows if row[:2] == [count, measure]}
            if not of:
                cells.append("")
                continue
            linked = of["as linked"]
            times = [it for it in (f"{linked[3]}, {linked[5]}", ", ".join(linked[-2:])) if it != "-, -"]
            ratios = " / ".join(row[7].strip("*") for row in of.values())
            cells.append(f"**{ratios}**<br>{'; '.join(times)}" if "-" not in linked[5] else times[0])
        lines.append(f"| {measure} | " + " | ".join(cells) + " |")
    return placed(lines, f"| {keys} | " + " | ".join(counts) + " |")


def crate(table, keys, name):
    """A line for each job: the ratios of the crate as it is and with `checked`."""
    rows, lines = [row for row in table[1:] if row[1] == keys], []
    counts = sizes(rows, 2)
    for job in sizes(rows, 0):
        cells = [" / ".join(next(row for row in rows if [row[0], row[2]] == [job, count])[6:8]) for count in counts]
        lines.append(f"| {job} | {GOALS.get(job, '')} | " + " | ".join(cells) + " |")
    powers = ["10^" + str(len(count) - 1) for count in counts]
    return placed(lines, f"| {name} | goals | " + " | ".join(powers) + " |")


def made(run):
    numbers, bytes_, check, forged, _, jobs = tables_of(run)[1:7]
    as_it_is = [placed([f"| {' | '.join(row)} |" for row in table[1:]], f"| {' | '.join(table[0])} |")
                for table in (check, forged)]
    about = placed([f"| {' | '.join(row)} |" for row in tables_of(run)[0][1:]], "| run | |")
    return [
        calls_for_c(numbers, "64-bit keys"), calls_for_c(bytes_, "16-byte keys"), about, *as_it_is,
        crate(jobs, "u64", "64-bit keys"), crate(jobs, "16 bytes", "16-byte keys"),
    ]


def main(*words):
    if len(words) != 1:
        sys.exit(__doc__)
    with open(words[0], encoding="utf-8") as it:
        tables = iter(made(it.read()))
    with open(f"{HERE}/RESULTS.md", encoding="utf-8") as it:
        results = it.read()
    results = re.sub(r"(?:^\|.*\n)+", lambda it: next(tables, it[0]), results, flags=re.M)
    with open(f"{HERE}/RESULTS.md", "w", encoding="utf-8") as it:
        it.write(results)


if __name__ == "__main__":
    main(*sys.argv[1:])
