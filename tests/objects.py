#!/usr/bin/env python3
"""Runs a program `odht` with --json, and without, on each table of crates/odht_tool/data, under names of many kinds.

  tests/objects.py PROGRAM

Each line that is written with --json is an object that Python's json reads, with no name twice, and what it says is what
the same command says without --json, which tests/tool has; the status and standard error are the same. The last line
counts the runs.
"""
import json
import os
import re
import subprocess
import sys
import tempfile

TOP = os.path.dirname(os.path.dirname(os.path.realpath(__file__)))
TABLES = f"{TOP}/crates/odht_tool/data"
# a quote, a backslash, control bytes, and characters of two bytes and of four
NAMES = ["table", 'a"b', "a\\b", "\\", '"', "\x01\x1f\x7f\t\n", "\u00e9\u2028\U0001f600", "\\u0041"]
# the texts of keys and values that are no UTF-8, and some that are
PLAIN = [b"\xe9", b"\xff\xfe", "\u00e9".encode(), b'"\\\x01\x7f', b"a\xed\xa0\x80", b"", b"plain", b"\xf0\x9f\x98\x80"]
HEADINGS = {"key_bytes": "key bytes", "value_bytes": "value bytes", "header_bytes": "header bytes",
            "all_bytes": "all bytes", "items": "items", "slots": "slots", "maximum": "maximum", "load_percent": "load",
            "maximum_load_percent": "maximum load"}
COLUMNS = ["offset", "bytes", "key_bytes", "value_bytes", "items", "slots", "load_percent", "hash", "check"]


def no_name_twice(pairs):
    found = dict(pairs)
    assert len(found) == len(pairs), pairs
    return found


def objects(text):
    """The objects of the lines. Each line is UTF-8, without control bytes."""
    assert text == b"" or text.endswith(b"\n"), text
    lines = text.decode().split("\n")[:-1]
    assert not any(ord(it) < 32 for line in lines for it in line), text
    return [json.loads(line, object_pairs_hook=no_name_twice) for line in lines]


def as_info(name, text, words):
    """What `info` says, read from its lines."""
    if not text:
        return []
    lines = text.decode().splitlines()
    said = {it[:14].strip(): it[14:] for it in lines if it[:14].strip() and not it.startswith("  ")}
    found = {"file": name, "at": None, **{key: int(said[it].split()[0]) for key, it in HEADINGS.items()}}
    is_known = said["hash"] != "none of fx, unhash and xxh64"
    found["hash"] = said["hash"] if is_known else None
    found["bound"] = None if "--whole" in words else 128
    counts = [re.match(r" +(\d+)\+? +(\d+)  ", it) for it in lines]
    found["histogram"] = [int(it[2]) for it in counts if it]
    for key, it in ("longest_hit", "longest hit"), ("longest_miss", "longest miss"):
        number = re.match(r"(more than )?(\d+)", said.get(it, ""))
        found[key] = number and int(number[2]) + (1 if number[1] else 0)
    help = re.search(r": odht rebuild .* (--(percent|hash) \w+( --whole)?)$", said.get("may help", ""))
    return [{**found, "may_help": help and help[1], "along_slots": said["along slots"]}]


def with_signs(found):
    """The object of `info` with the signs of its counts along the slots, which are those of all items."""
    counts, size = found["along_slots"], max(1, found["slots"] // 64)
    assert sum(counts) == found["items"], counts
    signs = ["." if it == 0 else "9" if it == size else str(it * 8 // size + 1) for it in counts]
    return {**found, "along_slots": "".join(signs)}


def as_check(name, text, words):
    rest = text[len(name.encode()) + 2:-1].decode()
    if not text:
        return []
    is_valid = rest == "valid" or rest.startswith("valid, and no search")
    bound = None if "--whole" in words else 128
    return [{"file": name, "valid": is_valid, "bound": bound, "rule": None if is_valid else rest}]


def as_find(name, text, words):
    if b"is forged" in text:
        return []
    rows = [it.split("\t") for it in text.decode().splitlines()]
    numbers = [[int(it) for it in row[:7]] + row[7:] for row in rows]
    return [{"file": name, "tables": [dict(zip(COLUMNS, row)) for row in numbers]}]


def as_dump(name, text, words):
    return [pair(line.split(b"\t"), "--slots" in words) for line in text.split(b"\n")[:-1]]


def as_list(name, text, words):
    return [field("key" if words[0] == "keys" else "value", line) for line in text.split(b"\n")[:-1]]


def as_get(name, text, words):
    rows = [line.split(b"\t") for line in text.split(b"\n")[:-1]]
    return [pair(row, False) if len(row) == 2 else {**field("key", row[0]), "value": None} for row in rows]


def pair(columns, has_slots):
    found = dict(zip(["slot", "control", "groups"], map(int, columns[:3]))) if has_slots else {}
    return {**found, **field("key", columns[-2]), **field("value", columns[-1])}


def field(name, text):
    try:
        return {name: text.decode()}
    except UnicodeDecodeError:
        return {f"{name}_hex": text.hex()}


READ = {"info": as_info, "check": as_check, "find": as_find, "keys": as_list, "dump": as_dump, "get": as_get}
WORDS = [["info"], ["info", "--whole"], ["check"], ["check", "--whole"], ["check", "--hash=unhash"],
         ["check", "--hash=xxh64"], ["find"], ["find", "--whole"], ["keys"], ["dump", "--values"], ["dump"],
         ["dump", "--slots"], ["get"]]
# those that write keys and values
LISTS = WORDS[-5:]
TEXTS = ["--key=text:16", "--value=text:16"]


def run(program, words, room, lines=b""):
    ran = subprocess.run([program, *words], cwd=room, capture_output=True, input=lines)
    return ran.stdout, (ran.returncode, ran.stderr)


def looked_up(program, words, name, room):
    """The words behind the name, and the lines of standard input: for `get` each key, and another that may be absent."""
    if words[0] != "get":
        return [], b""
    dump, _ = run(program, ["dump", *words[1:], "--", name], room)
    keys = [line.split(b"\t")[0] for line in dump.split(b"\n")[:-1]]
    return ["-"], b"".join(b"%s\n%s0\n" % (key, key[:-1]) for key in keys)


def differs(program, words, name, room):
    """What is wrong with a command on the file of this name, or None."""
    behind, lines = looked_up(program, words, name, room)
    plain, ended = run(program, [*words, "--", name, *behind], room, lines)
    told, ended_too = run(program, [*words, "--json", "--", name, *behind], room, lines)
    if ended != ended_too:
        return f"{ended} and {ended_too}"
    try:
        found = [with_signs(it) if words[0] == "info" else it for it in objects(told)]
        wanted = (as_list if "--values" in words else READ[words[0]])(name, plain, words)
        if words[0] == "find" and b"forged" in ended[1]:
            wanted = []
        return None if found == wanted else f"{found} and not {wanted}"
    except (AssertionError, ValueError, KeyError) as what:
        return repr(what)


def files(program, room):
    """The bytes of each file that is read, and the words with which it is too."""
    for it in sorted(os.listdir(TABLES)):
        if it.endswith((".odht", ".bin")):
            with open(f"{TABLES}/{it}", "rb") as file:
                yield it, file.read(), [[*words, *TEXTS] for words in LISTS if it.startswith("text16")]
    lines = b"".join(b"%s\t%s\n" % (it, PLAIN[at - 1]) for at, it in enumerate(PLAIN))
    built = subprocess.run([program, "build", "-", *TEXTS], input=lines, capture_output=True, cwd=room)
    yield "plain texts", built.stdout, [[*words, *TEXTS] for words in LISTS]
    yield "no table", b"no table, but longer than a header of thirty-two bytes", []


def main(program):
    program, passed, failed = os.path.abspath(program), 0, 0
    with tempfile.TemporaryDirectory(prefix="odht-objects-") as room:
        os.mkdir(f"{room}/files")
        for at, (title, held, more) in enumerate(files(program, room)):
            names = ["table"] if at else NAMES
            for name in names:
                with open(f"{room}/files/{name}", "wb") as file:
                    file.write(held)
                for words in WORDS + more:
                    what = differs(program, words, name, f"{room}/files")
                    passed, failed = passed + (what is None), failed + (what is not None)
                    if what is not None:
                        print(f"FAILED {title} as {name!r}: {' '.join(words)}: {what}")
                os.remove(f"{room}/files/{name}")
    print(f"{passed} passed, {failed} failed")
    return 1 if failed else 0


if __name__ == "__main__":
    if len(sys.argv) != 2:
        sys.exit(__doc__)
    sys.exit(main(sys.argv[1]))
