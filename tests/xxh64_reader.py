#!/usr/bin/env python3
"""Looks up keys in a table of `Xxh64HashFn`, by docs/FORMAT.md and the module `xxhash`.

  tests/xxh64_reader.py TABLE KEYS    KEYS has a line for each key, in hexadecimal digits

Prints the value of each key, or none, and how many groups the longest search read. Debian has the module in the package
python3-xxhash.
"""
import struct
import sys

import xxhash


def opened(data):
    """Returns the slots: of each its entry, the key and then the value, or None where it is free."""
    tag, _, key_len, value_len, _, count, slots = struct.unpack_from("<4s4BQQ", data)
    entry_len, control_at = key_len + value_len, 32 + slots * (key_len + value_len)
    assert tag == b"ODHT" and len(data) == control_at + slots + 16, "no table"
    entries = [data[32 + at * entry_len:32 + (at + 1) * entry_len] for at in range(slots)]
    cells = [it if data[control_at + at] < 128 else None for at, it in enumerate(entries)]
    assert sum(it is not None for it in cells) == count, "another count"
    return cells


def found(cells, key):
    """Returns the value of a key, or None, and how many groups of sixteen slots the search read."""
    home = (xxhash.xxh64(key, seed=0).intdigest() & 0xffffffff) % len(cells)
    for group in range(len(cells) // 16):
        for at in range(16):
            cell = cells[(home + 8 * group * (group + 1) + at) % len(cells)]
            if cell is None or cell[:len(key)] == key:
                return cell and cell[len(key):], group + 1
    return None, len(cells) // 16


def main(table, keys):
    with open(table, "rb") as file:
        cells = opened(file.read())
    with open(keys, encoding="ascii") as lines:
        results = [found(cells, bytes.fromhex(line)) for line in lines]
    for value, _ in results:
        print("none" if value is None else value.hex())
    print(max(groups for _, groups in results))


main(*sys.argv[1:])
