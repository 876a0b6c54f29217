#!/usr/bin/env python3
"""Writes xxh64.txt: hashes by `xxhsum` of Debian's package xxhash, and tables of them by the reading of docs/FORMAT.md in
crates/odht_tool/data/model.py.

  python3 crates/odht_vectors/data/xxh64.py > crates/odht_vectors/data/xxh64.txt
"""
import os
import subprocess
import sys

sys.path.insert(0, os.path.join(os.path.dirname(os.path.realpath(__file__)), "../../odht_tool/data"))
from model import Table

HEAD = """\
# XXH64 with seed 0, of which the hash has the low 32 bits: hashes by `xxhsum -H64`, and tables. Written by xxh64.py.

== Hash values of Xxh64HashFn, of each number of bytes from 0 to 255
config b16_u32_xxh64 16 4 Xxh64HashFn"""


def xxh64(key):
    said = subprocess.run(["xxhsum", "-H64"], input=key, stdout=subprocess.PIPE, check=True).stdout
    return int(said.split()[0], 16) % 2 ** 32


def text(number):
    return f"sym_{number}".encode().ljust(16, b"\0")


def written(pair):
    return ":".join(it.hex() for it in pair)


def made(capacity, percent, count):
    """A line that inserts texts into a new table, and the table."""
    table = Table(16, 4, xxh64, percent, capacity)
    pairs = [(text(it), it.to_bytes(4, "little")) for it in range(count)]
    for pair in pairs:
        table.put(*pair)
    pieces = " ".join(["with_capacity", str(capacity), str(percent), *map(written, pairs)])
    return f"{pieces} = {count} ok ", table


def main():
    print(HEAD)
    for length in range(256):
        key = bytes((167 * at + length) % 256 for at in range(length))
        print(f"hash {key.hex() or '-'} = {xxh64(key)}")
    print("\n== Tables of texts that grow, by XXH64\nconfig b16_u32_xxh64 16 4 Xxh64HashFn")
    for capacity, percent, count in ((3, 95, 3), (13, 87, 14), (1, 50, 40)):
        line, table = made(capacity, percent, count)
        print(line + table.image().hex())
    print(f"let texts = {table.image().hex()}\ncheck texts = ok")
    for number in (0, 7, 39, 40):
        groups, slot = table.find(text(number))
        value = table.cells[slot][1].hex() if table.cells[slot] else "none"
        print(f"get texts {text(number).hex()} = {value} {groups}")


main()
