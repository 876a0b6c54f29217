#!/usr/bin/env python3
"""Runs a program `odht` on files that do not say their hash function or their texts.

  tests/evidence.py PROGRAM

Every pair of types that `build` names can be built, and is read as it was given. The one key of a table is found by each
hash function, though another one may have its tag too. `put` and `delete` ask for a type where a file does not show it.
`merge` takes the hash function of a file that has items, and asks where those of two files show other types. The last
line counts the tests.
"""
import os
import random
import subprocess
import sys
import tempfile

# a type, and a text of it that is no text of another type of its length
TYPES = {
    "u32": "4294967290", "i32": "-7", "u32be": "258", "u64": "18446744073709551610", "i64": "-7", "u64be": "258",
    "hex4": "0a0b0c0d", "hex8": "0a0b0c0d0e0f1011", "hex16": "0a" * 16, "hex20": "0b" * 20, "hex32": "0c" * 32,
    "bytes:3": "0d0e0f", "bytes:12": "0d" * 12, "text:3": "ab", "text:4": "abc", "text:8": "word", "text:16": "a word",
    "text:24": "two words",
}
HASHES = "fx", "unhash", "xxh64"
TABLES = 300


def check(is_so, what):
    if not is_so:
        raise AssertionError(what)


def run(*words, given="", status=0):
    """What it writes on standard output and on standard error."""
    done = subprocess.run(words, input=given.encode(), capture_output=True, check=False)
    check(done.returncode == status, f"{words}: status {done.returncode}\n{done.stderr.decode()}")
    return done.stdout.decode(), done.stderr.decode()


def pairs(program, file):
    """Each pair of types, by the default hash function of its keys and by each other one that takes them."""
    for key, key_text in TYPES.items():
        for value, value_text in list(TYPES.items()) + [("none", "")]:
            line = f"{key_text}\t{value_text}\n"
            named = [f"--key={key}", f"--value={value}"]
            for hash_name in ("",) + HASHES:
                words = named + ([f"--hash={hash_name}"] if hash_name else [])
                if hash_name == "unhash" and key in ("bytes:3", "text:3"):
                    run(program, "build", file, *words, given=line, status=2)
                    continue
                run(program, "build", file, "--force", *words, given=line)
                check(run(program, "dump", file, *named)[0] == line, f"dump {words}")
                check(run(program, "get", file, *named, key_text)[0] == line, f"get {words}")
                check("valid" in run(program, "check", file)[0], f"check {words}")
                run(program, "dump", file)
            yield f"{key} {value}"


def one_key(program, file):
    """Tables of one item, whose tag another hash function may have too."""
    chosen = random.Random(92)
    for number in range(TABLES):
        word = "iefidee" if number == 0 else "".join(chosen.choices("abcdefghij", k=chosen.randint(4, 16)))
        hash_name = HASHES[number % 3]
        kind = "text:16" if number == 0 else chosen.choice(["text:16", "bytes:16"])
        key = word if kind == "text:16" else word.encode().ljust(16, b"\0").hex()
        run(program, "build", file, "--force", "--key", kind, "--value", "u32", "--hash", hash_name, "--capacity", "3000",
            given=f"{key}\t7\n")
        line = f"{key}\t7\n"
        check(run(program, "get", file, "--key", kind, "--value", "u32", key)[0] == line, f"get {word} by {hash_name}")
        check(run(program, "get", file, "--key", kind, "-", given=f"{key}\n")[0] == line, f"get - {word} by {hash_name}")
        check("valid" in run(program, "check", file)[0], f"check {word} by {hash_name}")
        check(run(program, "count", "--check", file)[0] == "1\n", f"count {word} by {hash_name}")
        # the key is in its home, so that a search by the right hash function reads one group
        told = run(program, "info", file)[0]
        check("\nlongest hit   1 groups\n" in told, f"info {word} by {hash_name}: {told}")
        yield f"{word} by {hash_name}"


# what is built, what is said to `put`, and what `put` says, "" where it adds the pair
ASKED = [
    ("u64", "u32", "7", "", ""), ("u32", "none", "", "", ""), ("hex16", "u64", "7", "", ""),
    ("u64be", "u32", "7", "", "--key"), ("text:8", "u32", "7", "", "--key"), ("text:16", "u32", "7", "", "--key"),
    ("text:16", "u32", "7", "--key=text:16", ""), ("bytes:16", "u32", "7", "--key=bytes:16", ""),
    ("u64", "text:24", "two words", "", "--value"), ("u64", "text:24", "two words", "--value=text:24", ""),
    ("u64", "text:4", "abc", "", "--value"), ("u64", "u32be", "7", "", "--value"),
    ("u64", "u32be", "7", "--value=u32be", ""), ("u64", "bytes:3", "000a00", "", ""),
]


# the words of `build` and its lines, after which `put` asks for this
SHOWS_LITTLE = [
    ("text:8", "u32", "", "", "--key"), ("u64", "u32", "", "", "--key"), ("hex8", "u32", "", "0" * 16 + "\t7\n", "--key"),
    ("text:8", "u32", "", "a\t1\n97\t2\n", "--key"), ("u32be", "u32", "", "256\t1\n65536\t2\n", "--key"),
    ("text:8", "u32", "fx", "word\t7\nother\t8\n", "--key"), ("u64be", "u32", "fx", "7\t7\n8\t8\n", "--key"),
    ("u64", "u32be", "", "1\t3232235777\n", "--value"), ("u64", "u64be", "", "1\t1700000000000000001\n", "--value"),
    ("u64", "text:4", "", "1\t5\n", "--value"), ("u64", "u32", "", "1\t4294967295\n", "--value"),
    ("u64", "u32", "", "1\t0\n", "--value"), ("u64", "u32", "", "1\t4294967295\n2\t5\n3\t7\n", ""),
]


def asked_more(program, file):
    """Tables that do not show a type of a side, though their sizes and their hash function are those of numbers."""
    for key, value, hash_name, lines, option in SHOWS_LITTLE:
        words = [f"--key={key}", f"--value={value}"] + ([f"--hash={hash_name}"] if hash_name else [])
        run(program, "build", file, "--force", *words, given=lines)
        with open(file, "rb") as it:
            before = it.read()
        told = run(program, "put", file, given=lines, status=1 if option else 0)[1]
        check((f"{option} says whether" in told) if option else not told, f"put after {words}: {told}")
        if option == "--key":
            told = run(program, "delete", file, "97", status=2)[1]
            check("--key says whether" in told, f"delete after {words}: {told}")
        with open(file, "rb") as it:
            check(it.read() == before, f"put after {words}: other bytes")
        yield f"put after {words}"


def asked(program, file):
    """`put` where a type is not said. What it asks for it names, and it changes nothing then."""
    for key, value, value_text, said, option in ASKED:
        key_text = TYPES[key] if key in TYPES else "0d" * 16
        line = f"{key_text}\t{value_text}\n"
        run(program, "build", file, "--force", "--key", key, "--value", value, given=line)
        with open(file, "rb") as it:
            before = it.read()
        words = [said] if said else []
        told = run(program, "put", file, *words, given=line, status=1 if option else 0)[1]
        check((f"{option} says whether" in told) if option else not told, f"put {key} {value} {said}: {told}")
        with open(file, "rb") as it:
            check(it.read() == before, f"put {key} {value} {said}: other bytes")
        yield f"put {key} {value} {said}"


def merged(program, file):
    """`merge` of an empty table and one that shows its hash function, in each order; and of keys of two types."""
    empty, full, other = f"{file}.empty", f"{file}.full", f"{file}.other"
    for key in "text:16", "u64be", "u32", "hex20":
        named = [f"--key={key}", "--value=u32"]
        lines = "".join(f"{it:040x}\t1\n" if key == "hex20" else f"{it}\t1\n" for it in range(200))
        run(program, "build", empty, "--force", *named, "--percent=50")
        run(program, "build", full, "--force", *named, given=lines)
        hash_name = run(program, "find", full)[0].split("\t")[7]
        for files in (empty, full), (empty, empty, full), (full, empty):
            run(program, "merge", file, "--force", *files)
            report = run(program, "find", file)[0]
            check(report.split("\t")[7] == hash_name, f"merge of {key} {files}: {report}")
            found = run(program, "dump", file, *named)[0]
            check(sorted(found.splitlines()) == sorted(lines.splitlines()), f"merge of {key} {files}")
            yield f"merge of {key} {len(files)}"
    run(program, "build", full, "--force", "--key=u64", "--value=u32", given="1\t1\n2\t2\n3\t3\n")
    run(program, "build", other, "--force", "--key=u64be", "--value=u32", given="1\t1\n2\t2\n3\t3\n")
    with open(file, "rb") as it:
        before = it.read()
    for files in (full, other), (other, full), (full, full, other):
        told = run(program, "merge", file, *files, status=1)[1]
        check(f"odht: {files[-1]}: " in told and "--key says whether" in told, f"merge of two types: {told}")
        with open(file, "rb") as it:
            check(it.read() == before, "merge of two types: other bytes")
        run(program, "merge", file, *files, "--key=u64" if files[0] == full else "--key=u64be")
        with open(file, "wb") as it:
            it.write(before)
        yield f"merge of two types, {len(files)}"


def sides(program, file):
    """What is said of one side leaves the other as it would be by itself."""
    run(program, "build", file, "--force", "--key", "u64", "--value", "text:24", given="1\ttwo words\n")
    check(run(program, "dump", file, "--value", "text:24")[0] == "1\ttwo words\n", "keys by themselves")
    yield "keys by themselves"
    run(program, "build", file, "--force", "--key", "text:24", "--value", "u32", given="two words\t1\n")
    check(run(program, "dump", file, "--key", "text:24")[0] == "two words\t1\n", "values by themselves")
    yield "values by themselves"


def main(program):
    passed = 0
    program = os.path.abspath(program)
    with tempfile.TemporaryDirectory(prefix="odht-evidence-") as room:
        try:
            for tests in pairs, one_key, asked, asked_more, merged, sides:
                for _ in tests(program, f"{room}/table"):
                    passed += 1
        except AssertionError as what:
            print(f"FAILED {what}\n{passed} passed, 1 failed")
            return 1
    print(f"{passed} passed, 0 failed")
    return 0


if __name__ == "__main__":
    sys.exit(main(sys.argv[1]))
