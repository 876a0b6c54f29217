#!/usr/bin/env python3
"""Tests that `odht get FILE -` answers lines as they come where standard input is a pipe or a terminal: each answer is
read before the next line is written. And that of a file all lines are answered in one write. While they are few, they
are looked up in a table that does not fit in memory. A file may be replaced meanwhile.

  tests/live.py PROGRAM..
"""
import os
import pty
import resource
import select
import shutil
import subprocess
import sys
import tempfile

TABLES = f"{os.path.dirname(os.path.realpath(__file__))}/../crates/odht_tool/data"
# a table of a ready shape and one of other sizes; keys, by turns present and absent, and the line of each
TABLE = "u64_u32.odht", [("1", "1\t2"), ("2", "2"), ("3", "3\t4"), ("5", "5\t4294967295"), ("007", "7")]
OTHER = "odd_sizes.odht", [("9A0000", "9a0000\t0200000000"), ("ffffff", "ffffff"), ("810100", "810100\t0500000000")]
WAIT = 20


def line_of(stream):
    """The next line that comes, as soon as it does."""
    found = b""
    while not found.endswith(b"\n"):
        assert select.select([stream], [], [], WAIT)[0], ("nothing came", found)
        more = os.read(stream, 1)
        assert more, ("the end came", found)
        found += more
    return found.decode().rstrip("\r\n")


def one_by_one(program, send, stream, pairs):
    for key, answer in pairs:
        send(f"{key}\n".encode())
        found = line_of(stream)
        assert found == answer, (key, found)


def by_pipe(program, file, pairs):
    words = [program, "get", f"{TABLES}/{file}", "-"]
    with subprocess.Popen(words, stdin=subprocess.PIPE, stdout=subprocess.PIPE) as child:
        def send(text):
            os.write(child.stdin.fileno(), text)
        stream = child.stdout.fileno()
        one_by_one(program, send, stream, pairs)
        # of two lines and the beginning of a third one the two are answered
        (key, answer), after = pairs[0], pairs[-1]
        send(f"{key}\n{key}\n{after[0][:1]}".encode())
        assert [line_of(stream), line_of(stream)] == [answer, answer]
        send(f"{after[0][1:]}\n".encode())
        assert line_of(stream) == after[1]
        # a last line has no end
        send(key.encode())
        child.stdin.close()
        assert line_of(stream) == answer
    assert child.returncode == int(any("\t" not in it for _, it in pairs)), child.returncode


def a_fault(program):
    """A line that is no key ends the program, behind the answers."""
    words = [program, "get", f"{TABLES}/{TABLE[0]}", "-"]
    with subprocess.Popen(words, stdin=subprocess.PIPE, stdout=subprocess.PIPE, stderr=subprocess.PIPE) as child:
        os.write(child.stdin.fileno(), b"1\n")
        assert line_of(child.stdout.fileno()) == "1\t2"
        _, errors = child.communicate(b"x\n")
    assert child.returncode == 2 and b"line 2: the key \"x\"" in errors, errors


def by_terminal(program):
    master, slave = pty.openpty()
    words = [program, "get", f"{TABLES}/{TABLE[0]}", "-"]
    with subprocess.Popen(words, stdin=slave, stdout=subprocess.PIPE) as child:
        os.close(slave)
        one_by_one(program, lambda text: os.write(master, text), child.stdout.fileno(), TABLE[1])
        # the end, as it is typed
        os.write(master, b"\4")
        assert child.stdout.read() == b""
    os.close(master)
    assert child.returncode == 1, child.returncode


def of_a_file(program, room):
    """Of a file of fewer lines than are looked up at once the answers come in one write."""
    with open(f"{room}/keys", "w", encoding="ascii") as it:
        it.write("1\n2\n" * 400)
    ours, theirs = os.pipe2(os.O_DIRECT)
    with open(f"{room}/keys", "rb") as keys:
        child = subprocess.Popen([program, "get", f"{TABLES}/{TABLE[0]}", "-"], stdin=keys, stdout=theirs)
    os.close(theirs)
    assert child.wait() == 1
    # a pipe of this kind keeps writes apart, up to a page each
    assert len(os.read(ours, 1 << 16)) == len("1\t2\n2\n" * 400)
    os.close(ours)


def of_few_lines(program, room):
    """A byte of lines for 16,384 bytes of the table's file is few: then the file may be larger than the memory. Of a pipe
    the lines are answered until there were more, and then the file is read whole. For more lines of a file only the
    table is read, as its offset is named."""
    size, most = 1 << 30, 1 << 16
    shutil.copy(f"{TABLES}/{TABLE[0]}", f"{room}/large.odht")
    os.truncate(f"{room}/large.odht", size)
    some = "3\n007\n5\n" * (most // 8)
    answers = "3\t4\n7\n5\t4294967295\n" * (most // 8)
    cases = [("1\r\n2\n3", "1\t2\n2\n3\t4\n", 1, ""), ("5\n\n3", "5\t4294967295\n", 2, "line 2: the key \"\" is not"),
             ("5\n\n", "5\t4294967295\n", 0, ""),
             ("5\n1\nx\n3\n", "5\t4294967295\n1\t2\n", 2, "line 3: the key \"x\" is not"), ("", "", 0, ""),
             (some, answers, 1, ""), (some + "1", answers + "1\t2\n", 1, "")]
    for lines, written, status, message in cases:
        with open(f"{room}/keys", "w+", encoding="ascii", newline="") as it:
            it.write(lines)
            it.seek(0)
            found = subprocess.run([program, "get", "large.odht", "-", "--at", "0"], cwd=room, stdin=it,
                                   capture_output=True, text=True, check=False, preexec_fn=with_little_memory)
        assert_found(found, written, status, message, lines[:20])
        found = subprocess.run([program, "get", "large.odht", "-", "--at", "0"], cwd=room, input=lines.encode(),
                               capture_output=True, check=False, preexec_fn=with_little_memory)
        found.stdout, found.stderr = found.stdout.decode(), found.stderr.decode()
        if lines == some + "1":
            status, message = 2, "out of memory"
        assert_found(found, written, status, message, lines[:20])


def of_a_replaced_file(program, room):
    """All lines of a pipe are answered from the file as it was at first, also those after the few."""
    shutil.copy(f"{TABLES}/{TABLE[0]}", f"{room}/replaced.odht")
    os.truncate(f"{room}/replaced.odht", 1 << 19)
    words = [program, "get", f"{room}/replaced.odht", "-", "--at", "0"]
    with subprocess.Popen(words, stdin=subprocess.PIPE, stdout=subprocess.PIPE) as child:
        for number in range(60):
            os.write(child.stdin.fileno(), b"3\n")
            found = line_of(child.stdout.fileno())
            assert found == "3\t4", (number, found)
            if number == 2:
                with open(f"{room}/new", "wb"):
                    os.replace(f"{room}/new", f"{room}/replaced.odht")
        child.stdin.close()
        assert child.stdout.read() == b""
    assert child.returncode == 0, child.returncode


def assert_found(found, written, status, message, lines):
    assert (found.stdout, found.returncode) == (written, status), (lines, found.stdout[-99:], found.returncode)
    assert message in found.stderr and (message or not found.stderr), (lines, found.stderr)


def with_little_memory():
    resource.setrlimit(resource.RLIMIT_AS, (1 << 28, 1 << 28))


def main(*programs):
    failed = passed = 0
    with tempfile.TemporaryDirectory() as room:
        for program in map(os.path.abspath, programs):
            tests = [lambda: by_pipe(program, *TABLE), lambda: by_pipe(program, *OTHER), lambda: a_fault(program),
                     lambda: by_terminal(program), lambda: of_a_file(program, room),
                     lambda: of_few_lines(program, room), lambda: of_a_replaced_file(program, room)]
            for test in tests:
                try:
                    test()
                    passed += 1
                except AssertionError as error:
                    failed += 1
                    print(f"FAILED live: {program}: {error}")
    print(f"{passed} passed, {failed} failed")
    return failed


if __name__ == "__main__":
    sys.exit(main(*sys.argv[1:]) != 0)
