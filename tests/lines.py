#!/usr/bin/env python3
"""Runs `odht build` of a program on many lines, by each word of --duplicates, with other delimiters and line ends.

  tests/lines.py PROGRAM

The table that has to be made is computed by docs/FORMAT.md alone (crates/odht_tool/data/model.py), of the pairs that a
plain walk over the lines keeps. Lines of one key are near and far: within the 1,024 that are inserted at once, and over
them. The last line counts the runs.
"""
import os
import random
import subprocess
import sys
import tempfile

TOP = os.path.dirname(os.path.dirname(os.path.realpath(__file__)))
sys.path.insert(0, f"{TOP}/crates/odht_tool/data")
import model
import tables

# the words of a shape, the lengths of its keys and values, their texts, and the hash function where none is named
SHAPES = [("u64", "u32", 8, 4, tables.number, tables.number, model.fx),
          ("hex3", "hex5", 3, 5, bytes.hex, bytes.hex, model.xxh64)]
COUNT = 2600
# lines that repeat the key of another one, which is so far before them
NEAR, FAR, FURTHER = 1, 1024, 2300


def keys_of(distances):
    """The number of the key of each line: its own, or that of a line before."""
    found = [*range(COUNT)]
    for distance, at in distances:
        found[at] = found[at - distance]
    return found


def kept(numbers, policy):
    """Which line gives each key its value, by the first line of the key; and the first line of an earlier key, if it is
    an error."""
    found = {}
    for at, number in enumerate(numbers):
        if number in found and policy == "error":
            return found, at
        if number not in found or policy == "last":
            found[number] = at
    return found, None


def key_bytes(shape, number):
    return number.to_bytes(shape[2], "little")


def values(shape):
    chance = random.Random(7)
    return [bytes(chance.randrange(256) for _ in range(shape[3])) for _ in range(COUNT)]


MADE = {}


def image(shape, numbers, found, data):
    """The bytes of the table, which are computed once of the same pairs."""
    of = shape, tuple(dict.fromkeys(numbers)), tuple(found.values())
    if of not in MADE:
        MADE[of] = computed(shape, numbers, found, data)
    return MADE[of]


def computed(shape, numbers, found, data):
    table = model.Table(shape[2], shape[3], shape[6], 87, 12)
    for number in dict.fromkeys(numbers):
        table.put(key_bytes(shape, number), data[found[number]])
    return table.image()


def runs():
    """Each run: its shape, which lines have one key, the policy, the delimiter and the end of lines."""
    repeated = [[], [(NEAR, 5)], [(NEAR, 1024)], [(FAR, 1500)], [(FURTHER, 2599)],
                [(NEAR, 1023), (NEAR, 1025), (FAR, 2047), (FURTHER, 2400), (2, 2050), (2, 2052)]]
    for shape in SHAPES:
        for distances in repeated:
            for policy in ("last", "first", "error"):
                yield shape, distances, policy, "\t", "\n"
        for delimiter in (",", " "):
            for policy in ("last", "first"):
                yield shape, repeated[-1], policy, delimiter, "\r\n"


def ran(program, room, words, text):
    return subprocess.run([program, "build", *words], cwd=room, capture_output=True, input=text.encode())


def is_right(program, room, run):
    shape, distances, policy, delimiter, end = run
    numbers, data = keys_of(distances), values(shape)
    found, fault = kept(numbers, policy)
    text = "".join(f"{shape[4](key_bytes(shape, it))}{delimiter}{shape[5](data[at])}{end}" for at, it in enumerate(numbers))
    options = [f"--duplicates={policy}", *([] if delimiter == "\t" else ["--delimiter", delimiter])]
    wanted = (0, b"", b"")
    if fault is not None:
        key = shape[4](key_bytes(shape, numbers[fault]))
        told = f'odht: made: standard input, line {fault + 1}: the key "{key}" is in the table already\n'
        wanted = (1, b"", told.encode())
    shown = ["made", "--key", shape[0], "--value", shape[1], *options]
    checked, made = ran(program, room, [*shown, "--check-only"], text), f"{room}/made"
    if (checked.returncode, checked.stdout, checked.stderr) != wanted or os.path.exists(made):
        return False
    built = ran(program, room, shown, text)
    if (built.returncode, built.stdout, built.stderr) != wanted or os.path.exists(made) != (fault is None):
        return False
    if fault is None:
        with open(made, "rb") as file:
            stored = file.read()
        os.remove(made)
        return stored == image(shape, numbers, found, data)
    return True


def main(program):
    program, passed, failed = os.path.abspath(program), 0, 0
    with tempfile.TemporaryDirectory(prefix="odht-lines-") as room:
        for run in runs():
            if is_right(program, room, run):
                passed += 1
            else:
                failed += 1
                print(f"FAILED {run[0][:2]}, lines of one key {run[1]}, --duplicates {run[2]}, delimiter {run[3]!r}")
    print(f"{passed} passed, {failed} failed")
    return 1 if failed else 0


if __name__ == "__main__":
    if len(sys.argv) != 2:
        sys.exit(__doc__)
    sys.exit(main(sys.argv[1]))
