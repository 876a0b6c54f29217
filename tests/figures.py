#!/usr/bin/env python3
"""Checks how bench/run makes its figures by pairs, by values that were worked out by hand, and what it runs."""
import os
import subprocess
import sys
import tempfile

sys.dont_write_bytecode = True
TOP = os.path.dirname(os.path.dirname(os.path.abspath(__file__)))
BENCH = os.path.join(TOP, "bench")
sys.path[:0] = [BENCH, os.path.join(TOP, "tools")]
import pairs  # noqa: E402
import watched  # noqa: E402

# What is found, and what it must be.
FIGURES = [
    # a quarter of the way from the first of five to the last is the second; of four it is 0.75 behind the first
    (lambda: pairs.quartiles([5.0, 1.0, 4.0, 2.0, 3.0]), [2, 3, 4]),
    (lambda: pairs.quartiles([4.0, 3.0, 2.0, 1.0]), [1.75, 2.5, 3.25]),
    (lambda: pairs.quartiles([1.0, 3.0]), [1.5, 2, 2.5]),
    # on both sides of 1, and at it
    (lambda: pairs.told(0.99, 1.01), "no difference"),
    (lambda: pairs.told(1.0, 1.2), "no difference"),
    (lambda: pairs.told(0.8, 1.0), "no difference"),
    (lambda: pairs.told(1.01, 1.2), "faster"),
    (lambda: pairs.told(0.8, 0.99), "slower"),
    (lambda: pairs.row("order", [5.0, 1.0, 4.0, 2.0, 3.0], (12_400_000_000, 3_100_000_000)),
     "| order | 3.00 | 2.00 to 4.00 | faster | 12,400 | 3,100 | 4.00 |"),
    (lambda: pairs.row("text", [0.5, 1.0, 1.5, 0.75, 1.25], None),
     "| text | 1.00 | 0.75 to 1.25 | no difference | - | - | - |"),
    # 0x9E3779B9 is 2654435769, and twice that less 2^32 is 1013904242
    (lambda: [pairs.seed_of("7", pair) for pair in (0, 1, 2)], [7, 2_654_435_776, 1_013_904_249]),
    (lambda: pairs.seed_of(str(2**32 - 1), 1), 2_654_435_768),
    (lambda: [pairs.order_of(pair)[0] for pair in range(4)], ["old", "new", "old", "new"]),
    (lambda: pairs.one_round(["build", "3", "1000000", "SEED"]), ["build", "1", "1000000", "SEED"]),
    (lambda: pairs.one_round(["check", "1", "100", "SEED"]), ["check", "1", "100", "SEED"]),
]


# a program that writes its words into a file, and prints something
PROGRAM = """#!/bin/sh
echo "$0" "$@" >> "${{0%/*}}/../../../../words"
echo {}
"""
# what it is given for two pairs of one round of `order`, of which the second begins with the new side
WORDS = """old order 1 1000000 7
new order 1 1000000 7
new order 1 1000000 2654435776
old order 1 1000000 2654435776
"""


def said(old, new, *words):
    """What bench/run says of `order` in two checkouts whose programs print these texts, and what they were given."""
    with tempfile.TemporaryDirectory() as room:
        for side, text in (("old", old), ("new", new)):
            os.makedirs(f"{room}/{side}/crates/odht_bench/out")
            program = f"{room}/{side}/crates/odht_bench/out/odht_bench"
            with open(program, "w", encoding="utf-8") as it:
                it.write(PROGRAM.format(text))
            os.chmod(program, 0o755)
        # without a PATH there is no valgrind, which would run them once more
        env = {"PATH": "", "NAMES": "order", "TURNS": "1"}
        ran = subprocess.run([sys.executable, f"{BENCH}/run", *words, f"{room}/old", f"{room}/new", "7"], env=env,
                             stdout=subprocess.PIPE, stderr=subprocess.STDOUT, universal_newlines=True)
        with open(f"{room}/words", encoding="utf-8") as it:
            given = it.read().replace(f"{os.path.realpath(room)}/", "").replace("/crates/odht_bench/out/odht_bench", "")
    return ran.returncode, ran.stdout, given


def last_line(text):
    return text.rstrip("\n").rpartition("\n")[2]


def runs():
    """What is found of runs, and what it must be."""
    status, printed, given = said("same", "same", "--pairs", "2")
    yield status, 0
    yield last_line(printed).split(" | ")[0], "| order"
    yield last_line(printed).split(" | ")[4:], ["-", "-", "- |"]
    yield given, WORDS
    status, printed, given = said("same", "same")
    yield status, 0
    yield given, "old order 2 1000000 7\nnew order 2 1000000 7\n"
    for words in ([], ["--pairs", "2"]):
        status, printed, _ = said("same", "other", *words)
        yield (status, last_line(printed)), (1, "order: the outputs differ: b'same\\n' and b'other\\n'")


def is_right(number, found, wanted):
    if found != wanted:
        print(f"FAILED figure {number}: found {found!r}, wanted {wanted!r}")
    return found == wanted


def main():
    watched.end_on_signals()
    rows = [*((find(), wanted) for find, wanted in FIGURES), *runs()]
    results = [is_right(number, *row) for number, row in enumerate(rows)]
    print(f"{sum(results)} passed, {len(results) - sum(results)} failed")
    return 0 if all(results) else 1


if __name__ == "__main__":
    sys.exit(main())
