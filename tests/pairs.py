#!/usr/bin/env python3
"""Runs a program `odht` on a table of each pair of types of each ready shape (lists/shapes.txt): numbers as they are, with a sign
and with the highest byte first, and bytes as digits and as texts. Each is of the hash function of the shape, and of xxh64.

  tests/pairs.py PROGRAM

`build` makes the bytes, and `dump` writes the lines, that docs/FORMAT.md and docs/TOOL.md say (crates/odht_tool/data). The
lines of `order`, built again, are the same bytes and lines, and those of `dump` the same pairs. The last line counts the
pairs of types.
"""
import itertools
import os
import re
import subprocess
import sys
import tempfile

TOP = os.path.dirname(os.path.dirname(os.path.realpath(__file__)))
sys.path.insert(0, f"{TOP}/crates/odht_tool/data")
import tables

HASHES = {it.__name__: it for it in tables.HASHES}
PAIRS = 20
# how the bytes of each type are written: of a text without its zeros
NUMBERS = {"u": tables.number, "i": tables.signed, "be": tables.high_first}
# keys and values of these are texts: of no byte, of some, and of bytes that are no UTF-8
TEXTS = [b"", b"a", "\u00fc".encode(), b"\xff\xfe", b"a b", b'"\\,', b"-1"]


def shapes():
    """The types of keys and of values of each ready shape, and the name of its hash function."""
    with open(f"{TOP}/lists/shapes.txt", encoding="utf-8") as file:
        for line in file:
            if not line.startswith("#"):
                yield line.split()[2:5]


def forms(stored):
    """The name, the length and the text of each type of these stored bytes."""
    size = 0 if stored == "()" else int(re.sub(r"\D", " ", stored).split()[-1])
    if stored == "()":
        return [("none", 0, lambda data: b"")]
    if stored.startswith("["):
        return [(f"hex{size}", size, lambda data: data.hex().encode()), (f"text:{size}", size, lambda data: data.rstrip(b"\0"))]
    names = [(f"u{size}", "u"), (f"i{size}", "i"), (f"u{size}be", "be")]
    return [(name, size // 8, lambda data, text=NUMBERS[kind]: text(data).encode()) for name, kind in names]


def stored_bytes(name, size, at):
    """The bytes of the key or the value of this number: numbers near zero and near the ends among them."""
    if name.startswith("text"):
        text = TEXTS[at] if at < len(TEXTS) else b"x" * (size - 2) + b"%02d" % at
        return text.ljust(size, b"\0")
    ends = [0, 1, 256 ** size - 1, 256 ** size // 2, 256 ** size // 2 - 1]
    return ((ends[at] if at < len(ends) else at * 0x9E3779B97F4A7C15 % 256 ** size) if size else 0).to_bytes(size, "little")


def fault_of(program, room, key, value, hash):
    """What is wrong with the table of these types, or None."""
    (key_name, key_size, key_text), (value_name, value_size, value_text) = key, value

    def ran(*words, given=b""):
        done = subprocess.run([program, *words, "--key", key_name, "--value", value_name, "--hash", hash], input=given,
                              cwd=room, capture_output=True)
        return done.stdout if (done.returncode, done.stderr) == (0, b"") else done

    def content(name):
        with open(f"{room}/{name}", "rb") as file:
            return file.read()

    table = tables.Table(key_size, value_size, HASHES[hash], 87, 12)
    pairs = [(stored_bytes(key_name, key_size, at), stored_bytes(value_name, value_size, at)) for at in range(PAIRS)]
    for pair in pairs:
        table.put(*pair)
    lines = lambda some: b"".join(key_text(k) + b"\t" + value_text(v) + b"\n" for k, v in some)
    made, dumped = ran("build", "x", given=lines(pairs)), lines(filter(None, table.cells))
    if made != b"" or content("x") != table.image() or ran("dump", "x") != dumped:
        return f"{made}, {ran('dump', 'x')}, not {dumped}"
    for order, name in (("order", "y"), ("dump", "z")):
        made = ran("build", name, "--capacity", str(table.most()), given=ran(order, "x"))
        again = ran("dump", name)
        is_same = again == dumped and content(name) == content("x")
        if made != b"" or not (is_same if order == "order" else sorted(again.split(b"\n")) == sorted(dumped.split(b"\n"))):
            return f"the lines of {order}, built again: {made}, {again}, not {dumped}"
    return None


def cases():
    """Each pair of types of each ready shape, and the name of a hash function."""
    for stored_key, stored_value, hash in shapes():
        for key, value in itertools.product(forms(stored_key), forms(stored_value)):
            yield key, value, hash
            yield key, value, "xxh64"


def main(program):
    program, faults, count = os.path.abspath(program), [], 0
    for key, value, hash in cases():
        with tempfile.TemporaryDirectory() as room:
            fault, count = fault_of(program, room, key, value, hash), count + 1
            faults += [f"FAILED {key[0]} to {value[0]} by {hash}: {fault}"] if fault else []
    print("".join(f"{it}\n" for it in faults), end="")
    print(f"{count - len(faults)} passed, {len(faults)} failed")
    return 1 if faults else 0


if __name__ == "__main__":
    if len(sys.argv) != 2:
        sys.exit(__doc__)
    sys.exit(main(sys.argv[1]))
