#!/usr/bin/env python3
"""Runs a program `odht` on keys for which its default is xxh64: texts, and numbers whose highest byte comes first.

  tests/mixing.py PROGRAM

A table of 100,000 such keys is made in less than a second of processor time, and no search in it reads more than 8
groups. Its bytes are those that the crate for Rust makes (where cargo is), and tests/xxh64_reader.py finds each key in
it (where the module xxhash is). The last line counts the tests.
"""
import importlib.util
import json
import os
import resource
import shutil
import subprocess
import sys
import tempfile

TOP = os.path.dirname(os.path.dirname(os.path.realpath(__file__)))
COUNT, MOST_GROUPS, MOST_SECONDS = 100_000, 8, 1.0
# inserts the pairs of standard input, in hexadecimal digits, and writes the bytes of the table
RUST = """
use odht::Xxh64HashFn;
use odht::dynamic::{DynTableOwned, Layout};
use std::io::{Read, Write};

fn bytes(word: &str) -> Vec<u8> {
    (0..word.len() / 2).map(|at| u8::from_str_radix(&word[2 * at..2 * at + 2], 16).unwrap()).collect()
}

fn main() {
    let mut text = String::new();
    std::io::stdin().read_to_string(&mut text).unwrap();
    let pairs: Vec<(Vec<u8>, Vec<u8>)> =
        text.lines().map(|line| line.split_once('\\t').unwrap()).map(|(k, v)| (bytes(k), bytes(v))).collect();
    let layout = Layout { key_len: pairs[0].0.len() as u8, value_len: pairs[0].1.len() as u8 };
    let mut table = DynTableOwned::<Xxh64HashFn>::with_capacity(layout, 12, 87).unwrap();
    for (key, value) in &pairs {
        table.insert(key, value).unwrap();
    }
    std::io::stdout().write_all(table.raw_bytes()).unwrap();
}
"""


def cases():
    """The type of keys, their texts and their bytes."""
    words = [f"word{number}" for number in range(COUNT)]
    yield "text:16", words, [it.encode().ljust(16, b"\0") for it in words]
    numbers = range(1, COUNT + 1)
    yield "u64be", [str(it) for it in numbers], [it.to_bytes(8, "big") for it in numbers]


def check(is_so, what):
    if not is_so:
        raise AssertionError(what)


def run(*words, given=b"", status=0):
    done = subprocess.run(words, input=given, capture_output=True, check=False)
    check(done.returncode == status, f"{words}: status {done.returncode}\n{done.stderr.decode()}")
    return done.stdout


def built(program, file, kind, texts):
    """Makes the table, in little time, and returns its bytes."""
    lines = "".join(f"{text}\t{number}\n" for number, text in enumerate(texts)).encode()
    before = resource.getrusage(resource.RUSAGE_CHILDREN)
    run(program, "build", file, "--key", kind, "--value", "u32", given=lines)
    after = resource.getrusage(resource.RUSAGE_CHILDREN)
    seconds = after.ru_utime + after.ru_stime - before.ru_utime - before.ru_stime
    check(seconds < MOST_SECONDS, f"build of {kind} took {seconds} seconds")
    with open(file, "rb") as it:
        return it.read()


def short(program, file):
    """No search in the table is long, and it is valid, by the hash function that is found."""
    told = json.loads(run(program, "info", file, "--json"))
    check(told["hash"] == "xxh64" and told["items"] == COUNT and told["may_help"] is None, told)
    check(max(told["longest_hit"], told["longest_miss"]) <= MOST_GROUPS, told)
    check(b"valid, and no search" in run(program, "check", file), "check")


def crate(room):
    """The program over the crate for Rust, or None where there is no cargo."""
    if not shutil.which("cargo"):
        print("SKIPPED there is no cargo here")
        return None
    os.makedirs(f"{room}/made/src")
    with open(f"{room}/made/Cargo.toml", "w", encoding="utf-8") as file:
        file.write(f'[package]\nname = "made"\nversion = "0.1.0"\nedition = "2021"\n[dependencies]\n'
                   f'odht = {{ path = "{TOP}/rust" }}\n[workspace]\n')
    with open(f"{room}/made/src/main.rs", "w", encoding="utf-8") as file:
        file.write(RUST)
    run("cargo", "build", "--quiet", "--offline", "--release", "--manifest-path", f"{room}/made/Cargo.toml",
        "--target-dir", f"{room}/made/target")
    return f"{room}/made/target/release/made"


def read_in_python(file, keys, room):
    with open(f"{room}/keys", "w", encoding="ascii") as out:
        out.write("".join(f"{key.hex()}\n" for key in keys))
    printed = run(sys.executable, f"{TOP}/tests/xxh64_reader.py", file, f"{room}/keys").decode().split("\n")
    wanted = [number.to_bytes(4, "little").hex() for number in range(COUNT)]
    check(printed[:-2] == wanted and int(printed[-2]) <= MOST_GROUPS, "the reader in Python")


def tests(program, room):
    """The names of the tests that passed; the first that fails ends them."""
    made = crate(room)
    has_module = importlib.util.find_spec("xxhash") is not None
    if not has_module:
        print("SKIPPED there is no module xxhash here")
    for kind, texts, keys in cases():
        file = f"{room}/table"
        image = built(program, file, kind, texts)
        short(program, file)
        yield f"{kind}: short searches"
        if made:
            pairs = "".join(f"{key.hex()}\t{number.to_bytes(4, 'little').hex()}\n" for number, key in enumerate(keys))
            check(run(made, given=pairs.encode()) == image, f"{kind}: other bytes than the crate for Rust makes")
            yield f"{kind}: the bytes of the crate for Rust"
        if has_module:
            read_in_python(file, keys, room)
            yield f"{kind}: the reader in Python"


def main(program):
    passed = 0
    with tempfile.TemporaryDirectory(prefix="odht-mixing-") as room:
        try:
            for _ in tests(os.path.abspath(program), room):
                passed += 1
        except AssertionError as what:
            print(f"FAILED {what}\n{passed} passed, 1 failed")
            return 1
    print(f"{passed} passed, 0 failed")
    return 0


if __name__ == "__main__":
    if len(sys.argv) != 2:
        sys.exit(__doc__)
    sys.exit(main(sys.argv[1]))
