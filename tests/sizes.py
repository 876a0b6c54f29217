#!/usr/bin/env python3
"""Runs a program `odht` on a table of each length of keys and of each length of values, from 0 to 255, and on one of each
two types that may be said of keys and values.

  tests/sizes.py PROGRAM

The tables, and what `check`, `count`, `dump`, `order`, `keys` and `get` write of them, are computed by docs/FORMAT.md alone
(crates/odht_tool/data/tables.py); `build` of some pairs and `put` of the others make the same bytes. Where a ready shape
has the lengths the texts are its own, and the table is left out: tests/tool has those. Where types are said, `build` and
`dump` turn each other's lines round, and a type of another length is rejected. The last line counts the runs.
"""
import os
import subprocess
import sys
import tempfile

TOP = os.path.dirname(os.path.dirname(os.path.realpath(__file__)))
sys.path.insert(0, f"{TOP}/crates/odht_tool/data")
import tables

# the lengths that ready shapes have
READY = {(4, 4), (8, 4), (8, 8), (8, 0), (16, 4), (16, 8), (20, 8), (32, 8), (16, 16), (32, 32), (16, 0), (20, 0), (32, 0)}


# each type that may be said: its name, its length, and the text of its bytes
TYPES = [("u32", 4, tables.number), ("i32", 4, tables.signed), ("u32be", 4, tables.high_first),
         ("u64", 8, tables.number), ("i64", 8, tables.signed), ("u64be", 8, tables.high_first),
         ("none", 0, tables.nothing), ("hex7", 7, bytes.hex), ("bytes:9", 9, bytes.hex),
         ("text:2", 2, tables.plain), ("text:4", 4, tables.plain), ("text:8", 8, tables.plain),
         ("text:10", 10, tables.plain), ("text:255", 255, tables.plain)]


def own(size, hash=None):
    """The name and the text of what keys under this hash function, or values, of a length are where nothing is said."""
    if size in (4, 8) and hash != "unhash":
        return f"u{size * 8}", tables.number
    return f"hex{size}", bytes.hex


def stored(name, size, at):
    """Bytes of a type, others for each number: of texts some are as long as they may be, and some values are empty."""
    if name.startswith("text"):
        return f"{at}{'é' * size}".encode()[:size if at % 3 else 2].decode(errors="ignore").encode().ljust(size, b"\0")
    return tables.spread(at, size)


def typed():
    """The cases of each two types: their table, how they are said, and the name of its hash function."""
    for key, key_size, key_text in TYPES:
        for value, value_size, value_text in TYPES:
            if key == "none" or (key_size, value_size) in READY:
                continue
            hashes = tables.HASHES if key_size >= 4 else [tables.fx, tables.xxh64]
            hash = hashes[value_size % len(hashes)]
            pairs = [(stored(key, key_size, at + 1), b"\0" * value_size if at == 4 else stored(value, value_size, at + 9))
                     for at in range(9)]
            case = tables.Case("x", "", key_size, value_size, hash, 87, 12, pairs, key_text, value_text)
            yield case, [f"--key={key}", f"--value={value}"], hash.__name__


def typed_runs(case, kinds, name):
    """The same as `runs` of a case, of which this is said."""
    hash, lines = f"--hash={name}", case.pairs.splitlines(True)
    own_key, own_value = own(case.table.key_size, name), own(case.table.value_size)
    yield ["dump", "x", hash], "", tables.dump_text(case.table, own_key[1], own_value[1]), ""
    yield ["dump", "x", *kinds], "", case.dump, ""
    yield ["dump", "x", hash, "--slots", *kinds], "", case.slots, ""
    yield ["order", "x", *kinds], "", case.order, ""
    yield ["keys", "x", kinds[0]], "", case.key_lines, ""
    yield ["get", "x", hash, *kinds, "--", *case.key_lines.split("\n")[:-1]], "", case.dump, ""
    yield ["get", "x", *kinds, "-"], case.key_lines, case.dump, ""
    for own_name, part, size in (own_key[0], "key", case.table.key_size), (own_value[0], "value", case.table.value_size):
        wanted = f"odht: x: --{part} does not fit its {part}s, which are {own_name if size else 'none'}\n"
        yield ["dump", "x", f"--{part}=text:{size % 255 + 1}"], "", "", wanted
    yield ["build", "y", *kinds, hash], "".join(lines[:5]), "", ""
    yield ["put", "y", hash, *kinds], "".join(lines[5:]), "", ""
    yield ["diff", "x", "y", *kinds], "", "same bytes\n", ""
    yield ["merge", "z", "x", *kinds], "", "", ""
    yield ["delete", "z", kinds[0], "-"], case.key_lines, "", ""
    yield ["count", "z"], "", "0\n", ""


def sizes():
    """The lengths of keys and of values, the hash function, how many items a table has at most, and for how many it is
    made: where there are more it grows, twice."""
    for size in range(256):
        yield size, 5, tables.fx, 5, 5
        yield 12, size, tables.fx, 5, 5
        yield 3, size, tables.fx, 40, 12
        yield 0, size, tables.fx, 1, 1
        yield size, size % 6, tables.xxh64, 9, 9
        if size >= 4:
            yield size, size % 7, tables.unhash, 9, 9


def runs(case, digits, name, capacity):
    """The words of each run of a case, and of the same with both texts as digits, its lines, and what it has to write. The
    last two make the file `y`."""
    hash, key, value = f"--hash={name}", f"--key=bytes:{case.table.key_size}", f"--value=hex{case.table.value_size}"
    yield ["check", "x", hash], "", f"x: {tables.VALID}"
    yield ["count", "x", hash], "", f"{case.table.count()}\n"
    yield ["dump", "x", hash], "", case.dump
    yield ["dump", "x"], "", case.dump
    yield ["dump", "x", hash, "--slots"], "", case.slots
    yield ["order", "x", hash], "", case.order
    yield ["keys", "x", hash], "", case.key_lines
    yield ["keys", "x", key], "", digits.key_lines
    yield ["get", "x", hash, *case.key_lines.split("\n")[:-1]], "", case.dump
    yield ["get", "x", "-", hash, key, value], digits.key_lines.upper(), digits.dump
    lines = digits.pairs.splitlines(True)
    yield ["build", "y", key, value, hash, f"--capacity={capacity}"], "".join(lines[:len(lines) // 2]), ""
    yield ["put", "y", hash, key, value], "".join(lines[len(lines) // 2:]), ""


def cases():
    """The table of each case, what is to run, and of which lengths it is."""
    for key_size, value_size, hash, count, capacity in sizes():
        if (key_size, value_size) not in READY:
            pairs = [(tables.spread(at + 1, key_size), tables.spread(at + 99, value_size))
                     for at in range(min(count, 256 ** key_size))]
            made = "x", "", key_size, value_size, hash, 87, capacity, pairs
            case = tables.Case(*made, own(key_size, hash.__name__)[1], own(value_size)[1])
            digits = tables.Case(*made, bytes.hex, bytes.hex)
            wanted = [(*run, "") for run in runs(case, digits, hash.__name__, capacity)]
            yield case.table, wanted, f"{key_size} and {value_size} bytes"
    for case, kinds, name in typed():
        yield case.table, typed_runs(case, kinds, name), " ".join(kinds)


def main(program):
    program, passed, failed = os.path.abspath(program), 0, 0
    with tempfile.TemporaryDirectory(prefix="odht-sizes-") as room:
        for table, wanted_runs, name in cases():
            with open(f"{room}/x", "wb") as file:
                file.write(table.image())
            for words, lines, wanted, errors in wanted_runs:
                ran = subprocess.run([program, *words], cwd=room, capture_output=True, input=lines.encode())
                if (ran.returncode, ran.stdout, ran.stderr) == (1 if errors else 0, wanted.encode(), errors.encode()):
                    passed += 1
                else:
                    failed += 1
                    print(f"FAILED {name}: {' '.join(words)}: {ran}")
            with open(f"{room}/y", "rb") as file:
                if file.read() != table.image():
                    failed += 1
                    print(f"FAILED {name}: the bytes that are made")
            for made in set(os.listdir(room)) - {"x"}:
                os.remove(f"{room}/{made}")
    print(f"{passed} passed, {failed} failed")
    return 1 if failed else 0


if __name__ == "__main__":
    if len(sys.argv) != 2:
        sys.exit(__doc__)
    sys.exit(main(sys.argv[1]))
