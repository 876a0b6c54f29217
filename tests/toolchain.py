#!/usr/bin/env python3
"""Tests that `odht` finds the tables of the Rust compiler inside its files of metadata, where rustc is installed, and that
`odht check --at` calls each of them valid, with the same hash function: `unhash`, since the keys are hashes.

  tests/toolchain.py PROGRAM..

examples/toolchain compares these tables with what other programs read, and makes them again. The last line counts.
"""
import glob
import os
import shutil
import subprocess
import sys

# bytes of the largest file that is read
MOST = 9 << 20
VALID = "valid, and no search reads more than 128 groups"


def metadata():
    """The files of metadata of the installed compiler."""
    if not shutil.which("rustc"):
        return []
    root = subprocess.run(["rustc", "--print", "sysroot"], capture_output=True, text=True, check=True).stdout.strip()
    return sorted(it for it in glob.glob(f"{root}/lib/rustlib/*/lib/*.rmeta") if os.path.getsize(it) <= MOST)


def run(program, *words):
    done = subprocess.run([program, *words], capture_output=True, text=True, timeout=60)
    return done.returncode, done.stdout, done.stderr


def test(program, file):
    """Checks the tables of a file, and returns how many there are."""
    status, printed, errors = run(program, "find", file)
    # a file of macros may have none
    assert (status, errors) in ((0, ""), (1, f"odht: {file}: no table is in it\n")), (status, errors)
    rows = [it.split("\t") for it in printed.split("\n")[:-1]]
    for offset, _, key_size, value_size, *_, hash, checked in rows:
        assert (key_size, value_size, hash, checked) == ("8", "4", "unhash", "valid"), printed
        for words in ([], ["--hash", hash]):
            found = run(program, "check", file, "--at", offset, *words)
            assert found == (0, f"{file}: {VALID}\n", ""), found
        # no key agrees with another hash function
        status, _, _ = run(program, "check", file, "--at", offset, "--hash", "xxh64")
        assert status == 1, (offset, status)
    return len(rows)


def main(*programs):
    files = metadata()
    if not files:
        print("there are no files of rustc here: SKIPPED")
    failed = tables = 0
    for program in map(os.path.abspath, programs):
        for file in files:
            try:
                tables += test(program, file)
            except (AssertionError, subprocess.TimeoutExpired) as error:
                failed += 1
                print(f"FAILED toolchain: {program}: {file}: {error}")
    if files and not tables:
        failed += 1
        print("FAILED toolchain: no table is found")
    print(f"{tables} passed, {failed} failed")
    return failed


if __name__ == "__main__":
    sys.exit(main(*sys.argv[1:]) != 0)
