#!/usr/bin/env python3
"""Runs two programs `odht` on the same random words, files and lines: what they write, return and leave must be equal.

  tests/beside.py PROVED ERASED [SEED [COUNT]]     one that the kit compiles, and that of erased source

The files are the tables of crates/odht_tool/data, some bytes changed, cut off or added; links, a folder and names that
are no text stand beside them. The words are commands, options and values, right and wrong ones. The texts of both are
compared byte for byte, but for the word of the version. The last line counts the runs.
"""
import os
import random
import shutil
import stat
import sys
import tempfile

TOP = os.path.dirname(os.path.dirname(os.path.realpath(__file__)))
sys.path[:0] = [f"{TOP}/tools", f"{TOP}/tools/generate/commands"]
import command_list
import watched

TABLES = f"{TOP}/crates/odht_tool/data"
COMMANDS = [it.name for it in command_list.read()[0]]
# more of these, and words that are no command
COMMANDS += "count get diff build put help --version -V inof chek buid".split() + [""]
FILES = "table table table table - none folder link dangling loop odd".split()
WORDS = """--hash fx unhash xxh64 --at 0 7 99999999999999999999 --whole --slots -- - -h --help --key u64 u32 hex16 hex8 none
    -0 --null --json --values hex0 --value --percent 87 0 100 101 --capacity 5 1000 18446744073709551615 --break-links
    --progress x -x --hsah
    --key=u64 --value=u32 --percent= \u00e9 \u0301 \u200b \x7f "q" a'b \\ \U0001f600 \u0378 \ue000 \x1b[0m
    \udcff""".split()
# of processor time, for one run
SECONDS = 20


def changed(content, dice):
    """Returns a table with some bytes changed, cut off or added; or none of this."""
    found = bytearray(content)
    for _ in range(dice.choice([0, 0, 1, 1, 2, 5, 30])):
        kind = dice.randrange(5 if found else 2)
        if kind == 0:
            found += bytes(dice.choices(range(256), k=dice.randrange(40)))
        elif kind == 1:
            found[0:0] = bytes(dice.choices(range(256), k=dice.randrange(20)))
        elif kind == 2:
            found[dice.randrange(len(found))] = dice.randrange(256)
        elif kind == 3:
            found[dice.randrange(min(len(found), 32))] = dice.choice([0, 1, 2, 8, 16, 255])
        else:
            del found[dice.randrange(len(found)):]
    return bytes(found)


def line(dice):
    """Returns a line of a key and a value, mostly numbers."""
    odd = [str(dice.randrange(2**64)), str(dice.randrange(2**66)), "%032x" % dice.getrandbits(128), "", "x", "0007"]
    key = dice.choice(odd) if dice.random() < 0.05 else str(dice.randrange(5000))
    value = dice.choice(["", "x", "\t", "4294967296", "-1"]) if dice.random() < 0.01 else str(dice.randrange(2**32))
    end = dice.choice(["\n"] * 20 + ["\r\n", "\n\n", "\0\n"])
    return f"{key}{'' if dice.random() < 0.01 else chr(9)}{value}{end}".encode()


def words(dice):
    """Returns the words of a run."""
    command = dice.choice(COMMANDS)
    found = [command] + [dice.choice(FILES)] * (dice.random() < 0.95)
    if command == "build" and dice.random() < 0.8:
        key, value = ["u64", "u32", "hex16", "i64", "u64be", "text:8"], ["u32", "u64", "none", "i32", "u32be"]
        found += ["--key", dice.choice(key), "--value", dice.choice(value)]
        said = ["--duplicates=first", "--duplicates=error", "--duplicates=x", "--delimiter=,", "--delimiter=3", "--check-only"]
        found += dice.choices(said, k=dice.choice([0, 0, 1, 2]))
    if command in ("get", "dump", "keys", "put") and dice.random() < 0.3:
        found += ["--key", dice.choice(["i64", "u64be", "u64", "i32", "text:8", "text:16"])]
    if command == "diff" and dice.random() < 0.9:
        found.append(dice.choice(["second", "second", "second", "table", "-"]))
    if command == "get":
        found += dice.choices(["-", "3", "5", "00" * 16, "x", "1", "7"], k=dice.choice([1, 1, 2, 4]))
    return [os.fsencode(it) for it in found + dice.choices(WORDS, k=dice.choice([0, 0, 0, 1, 1, 2, 3]))]


def left(folder):
    """Returns what is in a folder: of each name the kind, the mode, and the bytes or where it leads."""
    found = {}
    for name in sorted(os.listdir(folder)):
        place = f"{folder}/{name}"
        mode = os.lstat(place).st_mode
        found[name] = mode, os.readlink(os.fsencode(place)) if stat.S_ISLNK(mode) else None
        if stat.S_ISREG(mode):
            with open(place, "rb") as it:
                found[name] = mode, it.read()
    return found


def ended(program, given, folder):
    """Runs a program in a new folder. Returns how it ended, and what it left."""
    args, table, second, lines = given
    os.mkdir(folder)
    for name, content in (("table", table), ("second", second)):
        with open(f"{folder}/{name}", "wb") as it:
            it.write(content)
    os.chmod(f"{folder}/table", 0o640)
    os.mkdir(f"{folder}/folder")
    for name, to in (("link", b"table"), ("dangling", b"made"), ("loop", b"loop"), ("odd", b"\xff")):
        os.symlink(to, os.fsencode(f"{folder}/{name}"))
    ran = watched.run_limited([program, *args], SECONDS, lines, cwd=folder)
    found = ran.returncode, ran.stdout.replace(b"(proved)", b"(erased)"), ran.stderr, left(folder)
    shutil.rmtree(folder)
    return found


def main(proved, erased, seed="1", count="400"):
    tables = []
    for name in sorted(os.listdir(TABLES)):
        if name.endswith((".odht", ".bin")):
            with open(f"{TABLES}/{name}", "rb") as it:
                tables.append(it.read())
    dice, failed = random.Random(int(seed)), 0
    with tempfile.TemporaryDirectory(prefix="odht-beside-") as room:
        for _ in range(int(count)):
            lines = b"".join(line(dice) for _ in range(dice.choice([0, 1, 3, 20, 3000])))
            table = dice.choice(tables)
            second = changed(dice.choice([table, dice.choice(tables)]), dice)
            given = words(dice), changed(table, dice), second, dice.choice([lines, lines[:-1], tables[0]])
            one, other = (ended(os.path.abspath(it), given, f"{room}/run") for it in (proved, erased))
            if one != other:
                print(f"FAILED {given[0]}: {one[:3]}\n    and {other[:3]}, of a table of {len(given[1])} bytes")
                failed += 1
    print(f"{int(count) - failed} passed, {failed} failed")
    return 1 if failed else 0


if __name__ == "__main__":
    sys.exit(main(*sys.argv[1:]))
