#!/usr/bin/env python3
"""Times `odht build` and `odht get` beside other programs that make a file of pairs and look one up.

    bench/programs.py ODHT.. [LINES]

Each ODHT is a program of this repository, crates/odht_tool/out/odht_tool or what `make cli` makes, and LINES, 1000000
where it is left out, the number of pairs: distinct numbers below 2^63, from a fixed seed, and numbers below 2^32.
Beside them are sqlite3, cdb (of the package tinycdb) and this Python, as far as they are installed. Printed are a table's
rows: the least seconds of five turns, in which each has its turn, and the bytes of the file. That each finds the value
of the key that is asked for is checked.
"""
import os
import random
import shutil
import sys
import tempfile
import time

TURNS = 5
PICKLE = "import pickle, sys; pickle.dump(dict(tuple(map(int, line.split())) for line in open('pairs')), open('out', 'wb'), 5)"
LOOK = "import pickle; print(pickle.load(open('out', 'rb'))[int('{}')])"
IMPORT = "create table pairs(key integer primary key, value integer); pragma journal_mode = off; pragma synchronous = off"


def inputs(lines):
    """Writes the pairs as lines, and in the form that cdb reads. Returns a pair."""
    numbers = random.Random(20261128)
    pairs = {}
    while len(pairs) < lines:
        pairs[numbers.getrandbits(63)] = numbers.getrandbits(32)
    with open("pairs", "w", encoding="ascii") as it:
        it.writelines(f"{key}\t{value}\n" for key, value in pairs.items())
    with open("records", "w", encoding="ascii") as it:
        for key, value in pairs.items():
            it.write(f"+{len(str(key))},{len(str(value))}:{key}->{value}\n")
        it.write("\n")
    return list(pairs.items())[lines // 2]


def contenders(programs, key):
    """The name of each, how it makes its file, and how it looks the key up."""
    for program in programs:
        made = [program, "build", "out", "--key", "u64", "--value", "u32"]
        yield os.path.basename(program), made, "pairs", [program, "get", "out", str(key)]
    if shutil.which("sqlite3"):
        made = ["sqlite3", "out", "-cmd", IMPORT, ".mode tabs", ".import pairs pairs"]
        yield "sqlite3 .import", made, os.devnull, ["sqlite3", "out", f"select value from pairs where key = {key}"]
    if shutil.which("cdb"):
        yield "cdb -c", ["cdb", "-c", "out", "records"], os.devnull, ["cdb", "-q", "out", str(key)]
    yield "a dict by pickle", [sys.executable, "-c", PICKLE], os.devnull, [sys.executable, "-c", LOOK.format(key)]


def ran(words, given):
    """Runs a program: its output, and the seconds until it ends."""
    begun = time.monotonic()
    with open(given, "rb") as standard_input, open("said", "wb") as said:
        actions = [(os.POSIX_SPAWN_DUP2, standard_input.fileno(), 0), (os.POSIX_SPAWN_DUP2, said.fileno(), 1)]
        child = os.posix_spawnp(words[0], words, os.environ, file_actions=actions)
    _, status = os.waitpid(child, 0)
    took = time.monotonic() - begun
    if status:
        sys.exit(f"{words}: status {status}")
    with open("said", encoding="utf-8") as said:
        return said.read(), took


def main(*words):
    lines = int(words[-1]) if words and words[-1].isdigit() else 1_000_000
    programs = [os.path.realpath(it) for it in words if not it.isdigit()]
    if not programs:
        sys.exit(__doc__)
    with tempfile.TemporaryDirectory() as room:
        os.chdir(room)
        key, value = inputs(lines)
        found = {}
        for _ in range(TURNS):
            for number, (name, made, given, look) in enumerate(contenders(programs, key)):
                if os.path.exists("out"):
                    os.remove("out")
                built = ran(made, given)[1]
                said, looked = ran(look, os.devnull)
                if said.split()[-1] != str(value):
                    sys.exit(f"{name}: {said}")
                of = found.setdefault(number, [name, [], [], os.path.getsize("out")])
                of[1].append(built)
                of[2].append(looked)
    for name, built, looked, size in found.values():
        print(f"| {name} | {min(built):.2f} | {min(looked) * 1000:.1f} | {size:,} |")


if __name__ == "__main__":
    main(*sys.argv[1:])
