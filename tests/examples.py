#!/usr/bin/env python3
"""Runs the examples in the help of each command of `odht` as they are printed, in a folder with the files that they name.
What each must print, and what the file that it makes must hold afterwards, stands below.

  tests/examples.py PROGRAM..

Each example of `odht COMMAND --help` must be among these, and each of these must be in the help. The last line counts.
"""
import hashlib
import os
import subprocess
import sys
import tempfile

TOP = os.path.dirname(os.path.dirname(os.path.realpath(__file__)))
COMMANDS = f"{TOP}/lists/commands.txt"
TEXT = "a text\n"
HASH = hashlib.sha256(TEXT.encode()).hexdigest()
# the tables: their types, and their pairs in lines
NUMBERS, PRICES = "--key u64 --value u32", "--key text:16 --value u32"
TABLES = {
    "symbols.odht": (NUMBERS, ["4198400\t7", "42\t1"]),
    "names.odht": (PRICES, ["apple\t3"]),
    "known.odht": ("--key hex32 --value none", [f"{HASH}\t"]),
    "prices.odht": (PRICES, ["apple\t1", "pear\t2", "plum\t3"]),
    "a.odht": (NUMBERS, ["1\t10", "2\t20"]),
    "b.odht": (NUMBERS, ["3\t30"]),
    "old.odht": (NUMBERS, ["1\t10", "2\t20"]),
    "new.odht": (NUMBERS, ["1\t11", "3\t30"]),
}
FILES = {"new.md": TEXT, "prices.tsv": "apple\t120\tEUR\npear\t95\tEUR\n", "new-prices.tsv": "apple\t130\nfig\t40\n"}
VALID = "valid, and no search reads more than 128 groups"
# what each prints, in lines of any order, and its status; of `info` some of the lines
PRINTED = {
    "odht info symbols.odht": (["key bytes     8", "value bytes   4", "items         2", "slots         16"], 0),
    "odht check *.odht": ([f"{it}: {VALID}" for it in TABLES], 0),
    "odht count *.odht": ([f"{name}\t{len(lines)}" for name, (_, lines) in TABLES.items()], 0),
    "odht count --check symbols.odht": (["2"], 0),
    "odht get symbols.odht 4198400": (["4198400\t7"], 0),
    "sha256sum new.md | cut -c 1-64 | odht get known.odht -": ([f"{HASH}\t"], 0),
    "odht dump symbols.odht": (["4198400\t7", "42\t1"], 0),
    "odht dump --json names.odht --key text:16": (['{"key":"apple","value":"3"}'], 0),
    "odht keys symbols.odht | sort -n | head -1": (["42"], 0),
    "odht find *.rmeta": (["4\t256\t8\t4\t2\t16\t12\tfx\tvalid"], 0),
    "odht diff old.odht new.odht": (["~\t1\t10\t11", "-\t2\t20", "+\t3\t30"], 1),
}
# the others print nothing: the file that each makes, and the pairs that it holds afterwards
MADE = {
    "odht order a.odht | odht build b.odht --key u64 --value u32": ("b.odht", ["1\t10", "2\t20"]),
    "cut -f 1,2 prices.tsv | odht build prices.odht --key text:16 --value u32": ("prices.odht", ["apple\t120", "pear\t95"]),
    "odht put prices.odht --key text:16 --value u32 < new-prices.tsv":
        ("prices.odht", ["apple\t130", "fig\t40", "pear\t2", "plum\t3"]),
    "odht put prices.odht --key text:16 --value u32 apple 120 pear 95": ("prices.odht", ["apple\t120", "pear\t95", "plum\t3"]),
    "odht delete prices.odht --key text:16 apple pear": ("prices.odht", ["plum\t3"]),
    "odht rebuild prices.odht --percent 50": ("prices.odht", ["apple\t1", "pear\t2", "plum\t3"]),
    "odht merge all.odht a.odht b.odht --duplicates error": ("all.odht", ["1\t10", "2\t20", "3\t30"]),
}


def shell(line, folder, stdin=None):
    """Runs a line as a user types it, in the folder. The program `odht` is in the folder `bin` beside it."""
    env = {**os.environ, "PATH": f"{os.path.dirname(folder)}/bin:{os.environ['PATH']}", "LC_ALL": "C"}
    done = subprocess.run(["sh", "-c", line], input=stdin, capture_output=True, text=True, cwd=folder, env=env, timeout=60)
    return done.returncode, done.stdout, done.stderr


def fill(folder):
    os.mkdir(folder)
    for name, text in FILES.items():
        with open(f"{folder}/{name}", "w", encoding="utf-8") as file:
            file.write(text)
    for name, (words, lines) in TABLES.items():
        done = shell(f"odht build {name} {words}", folder, "".join(f"{it}\n" for it in lines))
        assert done == (0, "", ""), (name, done)
    with open(f"{folder}/symbols.odht", "rb") as table, open(f"{folder}/libx.rmeta", "wb") as file:
        file.write(b"rust" + table.read() + b"more")


def listed(folder):
    """The examples in the help of all commands, as it is printed."""
    with open(COMMANDS, encoding="utf-8") as file:
        # the second line of a command says what it does
        lines = file.read().split("\n")
        names = [line.split()[0] for line, below in zip(lines, lines[1:]) if line[:1].isalpha() and below[:1].islower()]
    found = []
    for name in names:
        status, text, errors = shell(f"odht {name} --help", folder)
        assert (status, errors) == (0, ""), (name, status, errors)
        examples = [it.strip()[2:] for it in text.split("\n") if it.strip().startswith("$ ")]
        assert examples, f"the help of {name} has no example"
        found += examples
    return found


def fault_of(example, folder):
    """What is wrong with an example, or None."""
    fill(folder)
    status, printed, errors = shell(example, folder)
    lines = printed.split("\n")[:-1]
    if example in PRINTED:
        wanted, wanted_status = PRINTED[example]
        is_right = set(wanted) <= set(lines) if " info " in example else sorted(lines) == sorted(wanted)
    else:
        wanted, wanted_status = [], 0
        is_right = not lines
    if not is_right or errors or status != wanted_status:
        return f"status {status}, {errors!r}, prints {lines}, not {wanted}"
    if example in MADE:
        name, pairs = MADE[example]
        words = "--key text:16" if name == "prices.odht" else ""
        status, held, errors = shell(f"odht check {name} && odht dump {name} {words}", folder)
        if (status, errors) != (0, "") or sorted(held.split("\n")[1:-1]) != sorted(pairs):
            return f"{name} holds {held!r} {errors}"
    return None


def test(program, room):
    """Returns how many examples are right, and prints what is wrong with the others."""
    for name in ("bin", "empty"):
        os.mkdir(f"{room}/{name}")
    os.symlink(program, f"{room}/bin/odht")
    examples = listed(f"{room}/empty")
    others = set(examples) ^ {*PRINTED, *MADE}
    assert not others and len(examples) == len(set(examples)), f"the help and {__file__} differ: {others}"
    faults = [(it, fault_of(it, f"{room}/{at}")) for at, it in enumerate(examples)]
    for example, fault in faults:
        if fault:
            print(f"FAILED {example}: {fault}")
    failed = sum(fault is not None for _, fault in faults)
    return len(faults) - failed, failed


def main(*programs):
    passed = failed = 0
    for program in map(os.path.abspath, programs):
        with tempfile.TemporaryDirectory() as room:
            try:
                done = test(program, room)
            except AssertionError as error:
                print(f"FAILED {program}: {error}")
                done = 0, 1
        passed, failed = passed + done[0], failed + done[1]
    print(f"{passed} passed, {failed} failed")
    return failed


if __name__ == "__main__":
    sys.exit(main(*sys.argv[1:]) != 0)
