#!/usr/bin/env python3
"""Tests how the program `odht` stores a file: that it asks the system to store the new file, renames it, and then has
its folder stored; and each of these calls failing in turn. And how often `get` opens and reads a file.

  tests/stored.py PROGRAM..

A program is one that calls the C library by its dynamic symbols. Where a call fails the file is as it was, and no other
is there; only where the folder cannot be stored the file is the new one. The last line counts.
"""
import os
import shutil
import subprocess
import sys
import tempfile

HERE = os.path.dirname(os.path.realpath(__file__))
TABLES = f"{HERE}/../crates/odht_tool/data"
SHAPES = ["--key", "u64", "--value", "u32"]
# a command that replaces the file, what it reads, and whether the file is there before
COMMANDS = [
    (["put", "table"], b"1\t7\n", True),
    (["delete", "table", "1"], b"", True),
    (["delete", "table", "-"], b"1\n", True),
    (["rebuild", "table", "--percent", "50"], b"", True),
    (["merge", "table", "other"], b"", True),
    (["merge", "table", "other"], b"", False),
    (["build", "table", *SHAPES], b"1\t7\n", True),
    (["build", "table", *SHAPES], b"1\t7\n", False),
]
# errors of the system, and their texts: a broken disk, a full one, and a call that is not taken
BROKEN, FULL, NOT_TAKEN = 5, 28, 22
TEXTS = {BROKEN: "Input/output error", FULL: "No space left on device", NOT_TAKEN: "Invalid argument"}
# more calls than any of these makes
MOST = 40


def bytes_of(name):
    with open(name, "rb") as it:
        return it.read()


def files_in(room):
    return {it: bytes_of(f"{room}/{it}") for it in os.listdir(room)}


def run_failing(program, preloaded, command, call=0, error=0):
    """Runs a command with its call of this number failing. Returns its status, what it wrote on standard error, its
    calls, and the files before and afterwards."""
    words, given, is_there = command
    with tempfile.TemporaryDirectory() as room:
        files = f"{room}/files"
        os.mkdir(files)
        if is_there:
            shutil.copy(f"{TABLES}/u64_u32.odht", f"{files}/table")
        shutil.copy(f"{TABLES}/one_pair.odht", f"{files}/other")
        before = files_in(files)
        env = {**os.environ, "LD_PRELOAD": preloaded, "ODHT_CALLS": f"{room}/calls"}
        env.update({"ODHT_FAIL_CALL": str(call), "ODHT_FAIL_WITH": str(error)})
        done = subprocess.run([program, *words], input=given, env=env, capture_output=True, cwd=files)
        with open(f"{room}/calls", encoding="utf-8") as it:
            calls = it.read().splitlines()
        return done.returncode, done.stderr.decode(), calls, before, files_in(files)


def in_order(program, preloaded):
    """The new file is made before the file and the input are read, and the last calls store it and its name."""
    passed = 0
    for command in COMMANDS:
        status, errors, calls, before, after = run_failing(program, preloaded, command)
        assert (status, errors) == (0, ""), (command, status, errors)
        assert after["table"] != before.get("table") and sorted(after) == ["other", "table"], command
        assert calls[-4:] == ["fsync file", "rename table", "read .", "fsync folder"], (command, calls)
        made = calls.index("make table.new")
        # `build` and `merge` look at the first bytes of the file before
        if command[0][0] in ("put", "delete", "rebuild"):
            assert calls.index("read table") > made, (command, calls)
        passed += 1
    return passed


def failing(program, preloaded):
    """Each call fails in turn, as where the disk is broken or full."""
    passed = 0
    for command in COMMANDS:
        for call in range(1, MOST):
            error = FULL if call % 2 else BROKEN
            status, errors, calls, before, after = run_failing(program, preloaded, command, call, error)
            if len(calls) < call:
                break
            told = (command, call, calls, status, errors)
            assert status == (2 if command[0][0] == "delete" else 1), told
            assert errors.startswith("odht: ") and errors.count("\n") == 1, told
            assert TEXTS[error] in errors, told
            if calls[call - 1] in ("read .", "fsync folder"):
                assert errors.startswith("odht: table: is written, but a power cut may undo that"), told
                assert after["table"] != before.get("table") and sorted(after) == ["other", "table"], told
            else:
                assert after == before, told
            passed += 1
        assert 6 < call < MOST - 1, (command, call)
    return passed


def without_request(program, preloaded):
    """A file system that stores no folders is no failure, nor is a folder that may not be read."""
    for command in COMMANDS:
        calls = run_failing(program, preloaded, command)[2]
        for call in (len(calls) - 1, len(calls)):
            error = NOT_TAKEN if call == len(calls) else 13
            status, errors, _, before, after = run_failing(program, preloaded, command, call, error)
            assert (status, errors) == (0, ""), (command, call, status, errors)
            assert after["table"] != before.get("table") and sorted(after) == ["other", "table"], command
    return 2 * len(COMMANDS)


def few_reads(program, preloaded):
    """`get` opens a table once. It reads a small one at once. Of another one it reads the front and the first control
    bytes; and for each key the control bytes of one group, and the entry, which has key and value."""
    with tempfile.TemporaryDirectory() as room:
        lines = "".join(f"{key}\t{key}\n" for key in range(100_000)).encode()
        subprocess.run([program, "build", f"{room}/large", *SHAPES], input=lines, check=True)
        shutil.copy(f"{TABLES}/u64_u32.odht", f"{room}/small")
        env = {**os.environ, "LD_PRELOAD": preloaded, "ODHT_CALLS": f"{room}/calls", "ODHT_READS": "1"}
        env.update({"ODHT_FAIL_CALL": "0", "ODHT_FAIL_WITH": "0"})
        for name, key, value, most in ("small", b"3", b"4", 1), ("large", b"77777", b"77777", 4):
            words = [program, "get", name, key]
            done = subprocess.run(words, env=env, capture_output=True, cwd=room)
            assert (done.returncode, done.stdout, done.stderr) == (0, b"%s\t%s\n" % (key, value), b""), done
            with open(f"{room}/calls", encoding="utf-8") as it:
                calls = it.read().splitlines()
            assert calls[0] == f"read {name}" and set(calls[1:]) == {"pread file"}, calls
            assert len(calls) <= 1 + most, calls
    return 2


def main(*programs):
    passed = failed = 0
    if not shutil.which("cc"):
        print("SKIPPED there is no cc here, so no call for a file fails\n0 passed, 0 failed")
        return 0
    with tempfile.TemporaryDirectory() as room:
        preloaded = f"{room}/failing_calls.so"
        words = ["cc", "-shared", "-fPIC", "-O1", "-Wall", "-o", preloaded, f"{HERE}/memory/failing_calls.c", "-ldl"]
        subprocess.run(words, check=True)
        for program in programs:
            for test in (in_order, failing, without_request, few_reads):
                try:
                    passed += test(os.path.abspath(program), preloaded)
                except (AssertionError, ValueError, OSError) as error:
                    failed += 1
                    print(f"FAILED stored: {program}: {test.__name__}: {error}")
    print(f"{passed} passed, {failed} failed")
    return failed


if __name__ == "__main__":
    sys.exit(main(*sys.argv[1:]) != 0)
