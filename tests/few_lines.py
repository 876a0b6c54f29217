#!/usr/bin/env python3
"""Tests `odht get FILE -` of lines that are few for the file, which are looked up by position, in a table that is all
but full: a key that is stored near its home has its value, and an absent one is refused, since its search is longer
than the bound. Without a bound it is absent. And of a pipe that has more lines than are few: those after them are
answered as if all were.

  tests/few_lines.py PROGRAM..

The last line counts.
"""
import os
import subprocess
import sys
import tempfile

# with a load factor of 100 percent, 2^17 slots take all but two items
ITEMS = (1 << 17) - 2
# as many take half of these slots or more
PAIRS = 70_000
# the search for it passes more than 128 groups
ABSENT = 1_000_000
BOUND = "Searches from slot "
HINT = " may read more than 128 groups; --whole works without this bound\n"


def run(program, words, folder, lines):
    with open(f"{folder}/lines", "w", encoding="utf-8") as it:
        it.write(lines)
    with open(f"{folder}/lines", encoding="utf-8") as it:
        done = subprocess.run([program, *words], stdin=it, capture_output=True, text=True, timeout=60, cwd=folder)
    return done.returncode, done.stdout, done.stderr


def test(program, room):
    pairs = "".join(f"{key}\t{key + 1}\n" for key in range(ITEMS))
    words = ["build", "full", "--key", "u32", "--value", "u32", "--percent", "100", "--capacity", str(ITEMS)]
    status, _, _ = run(program, words, room, pairs)
    assert status == 0, status
    # the first key of all was placed in its home
    assert run(program, ["get", "full", "-"], room, "0\n") == (0, "0\t1\n", "")
    status, output, errors = run(program, ["get", "full", "-"], room, f"0\n{ABSENT}\n")
    assert (status, output) == (2, "0\t1\n"), (status, output)
    assert errors.startswith(f"odht: full: {BOUND}") and errors.endswith(HINT), errors
    for words, lines in (["--whole"], f"0\t1\n{ABSENT}\n"), (["--whole", "--values"], "1\n\n"):
        found = run(program, ["get", "full", "-", *words], room, f"0\n{ABSENT}\n")
        assert found == (1, lines, ""), found
    # more lines are looked up in memory, where the bound is tested first
    status, output, errors = run(program, ["get", "full", "-"], room, "0\n" * 1000)
    assert (status, output) == (2, "") and errors.startswith(f"odht: full: {BOUND}"), (status, output, errors)


def piped(program, words, folder, lines, end="\n"):
    text = "".join(line + end for line in lines).encode()
    done = subprocess.run([program, *words], input=text, capture_output=True, timeout=60, cwd=folder)
    return done.returncode, done.stdout.decode(), done.stderr.decode()


def line_of(words, key):
    value = key + 1 if key < PAIRS else None
    if "--json" in words and "--values" in words:
        return '{"value":' + ("null" if value is None else f'"{value}"') + "}"
    if "--json" in words:
        return f'{{"key":"{key}","value":' + ("null" if value is None else f'"{value}"') + "}"
    if "--values" in words:
        return "" if value is None else f"{value}"
    return f"{key}" if value is None else f"{key}\t{value}"


def test_pipe(program, room):
    """The first lines of a pipe are looked up by position, as long as they are few, and the others in memory."""
    pairs = "".join(f"{key}\t{key + 1}\n" for key in range(PAIRS))
    status, _, _ = run(program, ["build", "half", "--key", "u32", "--value", "u32"], room, pairs)
    assert status == 0, status
    most = os.path.getsize(f"{room}/half") // 16384
    assert 50 < most < 200, most
    keys = [key * 37 % PAIRS for key in range(300)]
    early, late = keys[:3] + [PAIRS] + keys[3:], keys[:200] + [PAIRS] + keys[200:]
    for words in [], ["--json"], ["--values"], ["--values", "--json"], ["-0"]:
        end = "\0" if "-0" in words else "\n"
        for some, status in (keys, 0), (early, 1), (late, 1), (keys[:3], 0), (keys[:3] + [PAIRS], 1):
            found = piped(program, ["get", "half", "-", *words], room, map(str, some), end)
            assert found == (status, "".join(line_of(words, key) + end for key in some), ""), (words, some[:5], found)
        for at in 0, 2, 5, 100, 250:
            lines = [*map(str, late[:at]), "x", *map(str, late[at:])]
            found = piped(program, ["get", "half", "-", *words], room, lines, end)
            message = f'odht: half: standard input, line {at + 1}: the key "x" is not a number below 2^32\n'
            assert found == (2, "".join(line_of(words, key) + end for key in late[:at]), message), (words, at, found)
    # each line has its answer before the next one comes, on both sides of the bound
    with subprocess.Popen([program, "get", "half", "-"], stdin=subprocess.PIPE, stdout=subprocess.PIPE, cwd=room) as child:
        for key in early[:60]:
            os.write(child.stdin.fileno(), f"{key}\n".encode())
            found = child.stdout.readline().decode()
            assert found == line_of([], key) + "\n", (key, found)
        child.stdin.close()
    assert child.returncode == 1, child.returncode


def main(*programs):
    failed = 0
    for program in map(os.path.abspath, programs):
        with tempfile.TemporaryDirectory() as room:
            try:
                test(program, room)
                test_pipe(program, room)
            except (AssertionError, subprocess.TimeoutExpired) as error:
                failed += 1
                print(f"FAILED few_lines: {program}: {error}")
    print(f"{len(programs) - failed} passed, {failed} failed")
    return failed


if __name__ == "__main__":
    sys.exit(main(*sys.argv[1:]) != 0)
