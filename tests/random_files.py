#!/usr/bin/env python3
"""Runs a program `odht` on random table files, of which it is told the types of keys and values, and nothing else.

  tests/random_files.py PROGRAM [COUNT]      COUNT files, or those that RANDOM_FILES says, or 1,000

Each has 1 to 20 items. Each pair of types takes its turn with each hash function; sizes, load factor, capacity and items
are random, by a seed that is printed. The bytes and the expected texts are from crates/odht_tool/data/model.py, which
follows docs/FORMAT.md and shares no code with the programs. `info`, `count` and `check` take many files at once, without
a word beside them. `dump` prints the pairs of each in slot order. `get` prints each key, and one that is absent: as words
for one half of the files, as lines for the other. The last line counts the files.
"""
import functools
import itertools
import os
import random
import re
import shlex
import subprocess
import sys
import tempfile

TOP = os.path.dirname(os.path.dirname(os.path.realpath(__file__)))
sys.path.insert(0, f"{TOP}/crates/odht_tool/data")
import model

SEED = 20
# how many files are there at once
BATCH = 250
# types of numbers: their bytes, whether they have a sign, and which byte comes first
NUMBERS = {
    "u32": (4, False, "little"), "i32": (4, True, "little"), "u32be": (4, False, "big"),
    "u64": (8, False, "little"), "i64": (8, True, "little"), "u64be": (8, False, "big"),
}
KEYS = [*NUMBERS, "hex", "bytes:", "text:"]
VALUES = [*KEYS, "none"]
HASHES = [functools.lru_cache(maxsize=4096)(it) for it in model.HASHES]
# of texts that are words of a command line: with a quote, an option's first sign, and characters of more bytes than one
SIGNS = "abcdefxyz0123456789 -'\"\\$*=,\u00e9\u65e5\U0001f600"
# of texts on lines: no NUL, tab or line end
BYTES = bytes(it for it in range(1, 256) if it not in b"\t\n\r")


class Type:
    """A type of keys or values with its number of bytes."""

    def __init__(self, kind, chosen, least):
        self.kind = kind
        sizes = [it for it in (*range(1, 33), 64, 100, 255) if it >= least]
        self.size = NUMBERS[kind][0] if kind in NUMBERS else 0 if kind == "none" else chosen.choice(sizes)
        self.name = f"{kind}{self.size}" if kind in ("hex", "bytes:", "text:") else kind

    def item(self, chosen, is_word):
        """Its text, and its stored bytes."""
        if self.kind in NUMBERS:
            return self.number(chosen)
        if self.kind == "text:":
            text = word(chosen, self.size) if is_word else bytes(chosen.choices(BYTES, k=chosen.randint(0, self.size)))
            return text, text.ljust(self.size, b"\0")
        stored = chosen.randbytes(self.size)
        return stored.hex().encode(), stored

    def number(self, chosen):
        size, is_signed, order = NUMBERS[self.kind]
        low = -(2 ** (8 * size - 1)) if is_signed else 0
        high = low + 2 ** (8 * size) - 1
        small = chosen.randint(max(low, -40), 40)
        number = chosen.choice([low, high, small, small, chosen.randint(low, high), chosen.randint(low, high)])
        return str(number).encode(), number.to_bytes(size, order, signed=is_signed)


def word(chosen, most):
    """A text of characters that has at most that many bytes."""
    text = "".join(chosen.choices(SIGNS, k=chosen.randint(0, most))).encode()[:most]
    return text.decode("utf-8", "ignore").encode()


class File:
    """A random table file: its bytes, what is said of it, and what is expected."""

    def __init__(self, number, chosen):
        key, value, hash_at = TURNS[number % len(TURNS)]
        self.number, self.is_of_words = number, number // len(TURNS) % 2 == 0
        # `unhash` needs keys of four bytes
        self.key, self.value = Type(key, chosen, 4 if hash_at == 1 else 1), Type(value, chosen, 1)
        texts = {}
        for _ in range(chosen.randint(1, 20)):
            text, stored = self.key.item(chosen, self.is_of_words)
            texts[stored] = text
        self.table = model.Table(
            self.key.size, self.value.size, HASHES[hash_at], chosen.choice([87, 87, chosen.randint(20, 100)]),
            chosen.choice([1, 12, 12, chosen.randint(1, 60), 3000 if self.key.size + self.value.size < 64 else 100]))
        self.lines = {}
        for stored, text in texts.items():
            value_text, value_stored = self.value.item(chosen, False)
            self.table.put(stored, value_stored)
            self.lines[stored] = b"%s\t%s\n" % (text, value_text)
        self.keys = list(texts.values())
        self.absent = self.other_key(chosen, texts)

    def other_key(self, chosen, texts):
        """The text of a key that is absent."""
        while True:
            text, stored = self.key.item(chosen, self.is_of_words)
            if stored not in texts:
                return text

    def dump(self):
        """What `dump` prints."""
        return b"".join(self.lines[cell[0]] for cell in self.table.cells if cell)

    def got(self):
        """What `get` prints of the keys, and of one that is absent."""
        return b"".join(self.lines.values()) + self.absent + b"\n"

    def told(self):
        return f"file {self.number}: {self.key.name} {self.value.name} {self.table.hash.__name__}, {len(self.keys)} items"


TURNS = list(itertools.product(KEYS, VALUES, range(len(HASHES))))


def run(words, room, script=b""):
    ran = subprocess.run(words, cwd=room, input=script, capture_output=True, check=False)
    return ran.returncode, ran.stdout, ran.stderr


def expect(is_so, *what):
    if not is_so:
        raise AssertionError(" ".join(map(str, what)))


def opened(program, files, room):
    """All files at once by the commands that take many, without another word."""
    names = [str(it.number) for it in files]
    status, printed, errors = run([program, "count", *names], room)
    wanted = "".join(f"{it.number}\t{it.table.count()}\n" for it in files).encode()
    expect((status, printed, errors) == (0, wanted, b""), "count", names[0], status, errors)
    status, printed, errors = run([program, "check", *names], room)
    wanted = "".join(f"{it}: valid, and no search reads more than 128 groups\n" for it in names).encode()
    expect((status, printed, errors) == (0, wanted, b""), "check", names[0], status, errors, differing(printed, wanted))
    status, printed, errors = run([program, "info", *names], room)
    found = re.findall(rb"^(key bytes|value bytes|items|slots) +(\d+)$", printed, re.M)
    wanted = [number for it in files for number in (it.key.size, it.value.size, it.table.count(), len(it.table.cells))]
    expect((status, [int(it) for _, it in found], errors) == (0, wanted, b""), "info", names[0], status, errors)


def differing(printed, wanted):
    """The first line that differs."""
    return next((pair for pair in itertools.zip_longest(printed.split(b"\n"), wanted.split(b"\n")) if pair[0] != pair[1]), "")


def read(program, files, room):
    """Each file by `dump` and by `get`, of one shell, which is the cheapest way to start a program so often."""
    script, wanted = [], []
    for it in files:
        types = f"{it.number} --key {it.key.name} --value {it.value.name}"
        script += [f'"$0" dump {types}; echo "$?"']
        wanted += [it.dump() + b"0\n"]
        if it.is_of_words:
            words = b" ".join(map(quoted, [*it.keys, it.absent])).decode()
            script += [f'"$0" get {types} -- {words}; echo "$?"']
        else:
            with open(f"{room}/keys{it.number}", "wb") as out:
                out.write(b"".join(b"%s\n" % key for key in [*it.keys, it.absent]))
            script += [f'"$0" get {types} - < keys{it.number}; echo "$?"']
        wanted += [it.got() + b"1\n"]
    with open(f"{room}/script", "w", encoding="utf-8") as out:
        out.write("\n".join(script))
    _, printed, errors = run(["sh", "-c", '. ./script', program], room)
    at = 0
    for it, dumped, got in zip(files, wanted[::2], wanted[1::2]):
        part = printed[at:at + len(dumped) + len(got)]
        expect(part == dumped + got, it.told(), differing(part, dumped + got), errors[:300])
        at += len(part)
    expect(printed[at:] == errors == b"", "more is printed", printed[at:], errors)


def quoted(text):
    return shlex.quote(text.decode()).encode()


def main(program, count=os.environ.get("RANDOM_FILES", "1000")):
    passed, chosen, program = 0, random.Random(SEED), os.path.abspath(program)
    print(f"the seed is {SEED}")
    try:
        for first in range(0, int(count), BATCH):
            with tempfile.TemporaryDirectory(prefix="odht-random-") as room:
                files = [File(it, chosen) for it in range(first, min(first + BATCH, int(count)))]
                for it in files:
                    with open(f"{room}/{it.number}", "wb") as out:
                        out.write(it.table.image())
                opened(program, files, room)
                read(program, files, room)
                passed += len(files)
    except AssertionError as what:
        print(f"FAILED {what}\n{passed} passed, 1 failed")
        return 1
    print(f"{passed} passed, 0 failed")
    return 0


if __name__ == "__main__":
    sys.exit(main(*sys.argv[1:]))
