#!/usr/bin/env python3
"""Tests that the program `odht` counts the items of a table that is larger than memory: it reads only the header. The
file is sparse: a header of 2^36 slots for keys of eight bytes and values of four, and no other byte written. Also:

- 3 GB of zeros, also on standard input, are rejected at once, in little memory; `find` searches them in little memory
- a table whose first slots fit no hash function is rejected at once by each command that needs one
- `--at` reads only the table, of a file of 3 GB
- `get` looks up 1,000 keys of a table of 1.7 GB in little memory: as words, and as lines of a file and of a pipe

  tests/large.py PROGRAM..

The last line counts.
"""
import os
import resource
import subprocess
import sys
import tempfile

SLOTS = 1 << 36
LENGTH = 32 + SLOTS * (8 + 4) + SLOTS + 16
ITEMS = 123_456_789
# as docs/FORMAT.md has them: tag, lengths, item count, slot count, version, load factor, padding
HEADER = (b"ODHT" + bytes([1, 8, 4, 32]) + ITEMS.to_bytes(8, "little") + SLOTS.to_bytes(8, "little") + bytes([0, 0, 0, 2])
          + (57015).to_bytes(2, "little") + bytes(2))
ZEROS = 3 << 30
# what is told of a file of zeros, and by which commands with which status: `check` has it as its verdict
FOREIGN = 'zeros: not an odht table: it begins with 00 00 00 00, "\\x00\\x00\\x00\\x00"\n'
REJECTED = [
    (["info", "zeros"], (1, "", f"odht: {FOREIGN}")),
    (["check", "zeros"], (1, FOREIGN, "")),
    (["count", "zeros"], (1, "", f"odht: {FOREIGN}")),
    (["get", "zeros", "1"], (2, "", f"odht: {FOREIGN}")),
]
NOT_FOUND = "odht: {}: no table is in it\n"
ENDLESS = "odht: -: standard input cannot be read: it is a device, not a regular file\n"
UNFIT = ("odht: unfit: the control bytes fit no hash function with keys of 8 and values of 4 bytes; `odht check` and "
         "`odht info` say more\n")
# commands that need the hash function of a file, their input, and the status of their failure; `small` is a table
OF_UNFIT = [
    (["get", "unfit", "0"], None, 2),
    (["get", "unfit", "--key", "u64", "0"], None, 2),
    (["get", "unfit", "-"], b"0\n", 2),
    (["dump", "unfit"], None, 1),
    (["dump", "unfit", "--values"], None, 1),
    (["dump", "unfit", "--slots"], None, 1),
    (["keys", "unfit", "--key", "u64"], None, 1),
    (["order", "unfit"], None, 1),
    (["count", "unfit", "--check"], None, 1),
    (["diff", "unfit", "small"], None, 2),
    (["diff", "small", "unfit"], None, 2),
    (["put", "unfit", "0", "0"], None, 1),
    (["put", "unfit"], b"0\t0\n", 1),
    (["delete", "unfit", "0"], None, 2),
    (["delete", "unfit", "-"], b"0\n", 2),
    (["rebuild", "unfit"], None, 1),
    (["merge", "new", "unfit", "small"], None, 1),
    (["merge", "new", "small", "unfit"], None, 1),
    (["merge", "-", "small", "unfit"], None, 1),
]
# commands that read a table in a longer file
OF_PART = [
    ["check", "long", "--at", "0"],
    ["info", "long", "--at", "0"],
    ["dump", "long", "--at", "0"],
    ["dump", "long", "--at", "0", "--slots"],
    ["keys", "long", "--at", "0"],
    ["order", "long", "--at", "0"],
    ["count", "long", "--at", "0", "--check"],
]
# how many keys a table of 2^27 slots has, and how many slots are from one to the next
KEYS, APART, KEY_SLOTS = 1000, 5, 1 << 27
# FxHashFn multiplies a key of eight bytes: modulo 2^32, this gives the key of a hash
INVERSE = pow(0x517CC1B727220A95, -1, 1 << 32)
# bytes of memory, and seconds of processor time, that the program may have
MEMORY, SECONDS = 1 << 28, 2


def limited():
    resource.setrlimit(resource.RLIMIT_AS, (MEMORY, MEMORY))
    resource.setrlimit(resource.RLIMIT_CPU, (SECONDS, SECONDS))


# the same for a command that goes through all bytes
def limited_in_memory():
    resource.setrlimit(resource.RLIMIT_AS, (MEMORY, MEMORY))


def run(program, words, folder, given=None, limit=limited):
    done = subprocess.run([program, *words], stdin=given, capture_output=True, preexec_fn=limit, timeout=60, cwd=folder)
    return done.returncode, done.stdout.decode(), done.stderr.decode()


def test_unfit(program, room):
    with open(f"{room}/unfit", "wb") as it:
        it.write(HEADER)
        it.truncate(LENGTH)
        # the tag 1 in sixteen slots, by keys that are zero, whose tag it is under no hash function
        it.seek(32 + SLOTS * (8 + 4))
        it.write(bytes([1]) * 16)
    words = ["build", "small", "--key", "u64", "--value", "u32"]
    subprocess.run([program, *words], input=b"1\t2\n", check=True, cwd=room)
    for words, lines, status in OF_UNFIT:
        before = sorted(os.listdir(room))
        done = subprocess.run([program, *words], input=lines, capture_output=True, preexec_fn=limited, timeout=60, cwd=room)
        assert (done.returncode, done.stdout, done.stderr.decode()) == (status, b"", UNFIT), (words, done)
        assert sorted(os.listdir(room)) == before, words


def key_of(home, top):
    """The key whose hash by FxHashFn has these highest five bits, and this home."""
    return (top << 27 | home) * INVERSE % 2 ** 32


def write_keys(name):
    """Writes a table of keys in their homes, whose values are these. No other control byte is read than the first ones,
    so that the file is sparse."""
    entries, control = bytearray(8192 * (8 + 4)), bytearray(b"\xff" * 8192)
    for number in range(KEYS):
        home, top = number * APART, number % 32
        entries[home * 12:home * 12 + 12] = key_of(home, top).to_bytes(8, "little") + home.to_bytes(4, "little")
        control[home] = top << 2
    with open(name, "wb") as it:
        it.write(HEADER[:8] + KEYS.to_bytes(8, "little") + KEY_SLOTS.to_bytes(8, "little") + HEADER[24:])
        it.write(entries)
        it.seek(32 + KEY_SLOTS * (8 + 4))
        it.write(control)
        it.truncate(32 + KEY_SLOTS * (8 + 4) + KEY_SLOTS + 16)


def test_keys(program, room):
    write_keys(f"{room}/keys")
    homes = [number * APART for number in range(KEYS)]
    stored = [(str(key_of(home, number % 32)), f"\t{home}") for number, home in enumerate(homes)]
    # with other highest bits, the same home is that of an absent key
    absent = [(str(key_of(home, (number + 1) % 32)), "") for number, home in enumerate(homes)]
    for pairs, status in (stored, 0), (stored[:500] + absent[:1] + stored[500:], 1), (absent, 1):
        wanted = (status, "".join(f"{key}{value}\n" for key, value in pairs), "")
        found = run(program, ["get", "keys", *(key for key, _ in pairs)], room)
        assert found == wanted, (status, "as words", found[::2])
        lines = "".join(f"{key}\n" for key, _ in pairs)
        with open(f"{room}/lines", "w", encoding="utf-8") as it:
            it.write(lines)
        for given in f"< {room}/lines", "":
            words = ["sh", "-c", f'exec "$0" get keys - {given}', program]
            done = subprocess.run(words, input=lines.encode(), capture_output=True, preexec_fn=limited, timeout=60,
                                  cwd=room)
            found = done.returncode, done.stdout.decode(), done.stderr.decode()
            assert found == wanted, (status, given, found[::2])


def counted(program, name, *words):
    return run(program, ["count", name, *words], None)


def test_zeros(program, room):
    with open(f"{room}/zeros", "wb") as it:
        it.truncate(ZEROS)
    for words, wanted in REJECTED:
        found = run(program, words, room)
        assert found == wanted, (words, found)
        # the same bytes, and a device without an end, on standard input
        words = ["-" if it == "zeros" else it for it in words]
        for name in f"{room}/zeros", "/dev/zero":
            with open(name, "rb") as zeros:
                found = run(program, words, room, zeros)
            assert found == tuple(it.replace("zeros", "-") if isinstance(it, str) else it for it in wanted), (words, found)


def test_part(program, room):
    """The table `small`, with 3 GB after it, is read as if nothing came after it."""
    with open(f"{room}/small", "rb") as small, open(f"{room}/long", "wb") as it:
        it.write(small.read())
        it.truncate(ZEROS)
    for words in OF_PART:
        alone = run(program, [{"long": "small"}.get(it, it) for it in words], room)
        assert alone[0] == 0 and alone[1], (words, alone)
        found = run(program, words, room)
        assert found == (0, alone[1].replace("small", "long"), ""), (words, found)
    os.remove(f"{room}/long")


def test_find(program, room):
    """3 GB of zeros, and 16 MB with two tables, the first of which lies across the border of a part that is read."""
    with open(f"{room}/small", "rb") as it:
        table = it.read()
    for length, offsets in (ZEROS, []), (1 << 24, [(1 << 16) - 2, (1 << 24) - len(table) - 1]):
        with open(f"{room}/zeros", "r+b") as it:
            it.truncate(length)
            for offset in offsets:
                it.seek(offset)
                it.write(table)
        # keys of 8 and values of 4 bytes, one item in sixteen slots
        lines = "".join(f"{it}\t{len(table)}\t8\t4\t1\t16\t6\tfx\tvalid\n" for it in offsets)
        for file in "zeros", "-":
            with open(f"{room}/zeros", "rb") as given:
                found = run(program, ["find", file], room, given, limited_in_memory)
            wanted = (0, lines, "") if offsets else (1, "", NOT_FOUND.format(file))
            assert found == wanted, (file, found)
    with open("/dev/zero", "rb") as given:
        found = run(program, ["find", "-"], room, given)
    assert found == (1, "", ENDLESS), found


def test(program, room):
    name = f"{room}/large"
    for before, words in ((b"", ()), (b"some bytes", ("--at", "10"))):
        with open(name, "wb") as it:
            it.write(before + HEADER)
            it.truncate(len(before) + LENGTH)
        found = counted(program, name, *words)
        assert found == (0, f"{ITEMS}\n", ""), found
    # a byte less is an error of the length
    os.truncate(name, LENGTH - 1 + len(before))
    status, output, _ = counted(program, name, *words)
    assert status != 0 and output == "", (status, output)


def main(*programs):
    failed = 0
    for program in map(os.path.abspath, programs):
        with tempfile.TemporaryDirectory() as room:
            try:
                test(program, room)
                test_zeros(program, room)
                test_unfit(program, room)
                test_part(program, room)
                test_find(program, room)
                test_keys(program, room)
            except (AssertionError, subprocess.TimeoutExpired) as error:
                failed += 1
                print(f"FAILED large: {program}: {error}")
    print(f"{len(programs) - failed} passed, {failed} failed")
    return failed


if __name__ == "__main__":
    sys.exit(main(*sys.argv[1:]) != 0)
