#!/usr/bin/env python3
"""Tests the program `odht` where others are at work on its file, or interrupt it: two runs that replace it, begun at
many offsets in time too, a new file that somebody removes, a file that is made meanwhile, a file that is replaced while
`get` or `dump` reads it, and SIGINT while input is read.

  tests/together.py PROGRAM..

A run has read its file once it has taken more of its input than a pipe holds, or written something. The last line counts.
"""
import concurrent.futures
import os
import shutil
import signal
import stat
import subprocess
import sys
import tempfile
import time

PIPE = subprocess.PIPE
# more than a pipe holds, of Linux 64 KiB
LONG = 1 << 18
OLD = 100_000
# the seconds that the input of a slow run takes
SLOW = 0.1
# what a run says that begins while another one is at work
AT_WORK = b"odht: table: table.new is there: another run is at work, or was interrupted; remove it if none is\n"
# what `build` says of a file that is no table
LOST = b"odht: table: cannot be written: it is not an odht table, and would be lost; --force replaces it\n"
# the commands that read lines and replace the file
REPLACING = (
    ["put", "table"],
    ["build", "table", "--key", "u64", "--value", "u32"],
)


def lines_of(numbers, value):
    return "".join(f"{it}\t{value}\n" for it in numbers).encode()


def run(program, room, *words, given=b""):
    """What the program writes, which must succeed."""
    done = subprocess.run([program, *words], input=given, stdout=PIPE, stderr=PIPE, cwd=room)
    assert done.returncode == 0, (words, done)
    return done.stdout


def made(program, room):
    """A file of many pairs."""
    run(program, room, "build", "table", "--key", "u64", "--value", "u32", given=lines_of(range(OLD), 1))


def begun(program, room, words, given):
    """The program once it has read its file and begun to read its input."""
    assert len(given) > LONG
    child = subprocess.Popen([program, *words], stdin=PIPE, stdout=PIPE, stderr=PIPE, cwd=room)
    # this ends when the program has read all but what the pipe holds
    child.stdin.write(given)
    child.stdin.flush()
    return child


def refused(program, room, *words, given=b"8\t8\n"):
    """Runs the program while another run is at work on its file: it ends with the message of that."""
    done = subprocess.run([program, *words], input=given, stdout=PIPE, stderr=PIPE, cwd=room)
    status = 2 if words[0] == "delete" else 1
    assert (done.returncode, done.stdout, done.stderr) == (status, b"", AT_WORK), (words, done)


def refused_unread(program, room):
    """While another run is at work, and where the file is no table, a run ends before its input does."""
    delete, merge = ["delete", "table", "-"], ["merge", "table", "-"]
    cases = [(words, b"", "table.new", AT_WORK) for words in (*REPLACING, delete, merge)]
    cases += [(words, b"1\t1\n", "other.new", LOST) for words in (REPLACING[1], merge)]
    for words, before, other, message in cases:
        for name, given in (("table", before), (other, b"")):
            with open(f"{room}/{name}", "wb") as it:
                it.write(given)
        child = subprocess.Popen([program, *words], stdin=PIPE, stdout=PIPE, stderr=PIPE, cwd=room)
        # its input has no end before it ended
        try:
            status = child.wait(timeout=60)
        finally:
            child.kill()
        child.stdin.close()
        found = (status, child.stdout.read(), child.stderr.read())
        assert found == (2 if words[0] == "delete" else 1, b"", message), (words, found)
        with open(f"{room}/table", "rb") as it:
            assert it.read() == before and sorted(os.listdir(room)) == sorted(("table", other)), words
        os.remove(f"{room}/{other}")


def two_runs(program, room):
    """The one that begins last ends at once, whatever it is; the first has all of its lines."""
    for words in REPLACING:
        made(program, room)
        first = begun(program, room, words, lines_of(range(OLD), 2))
        for others in (*REPLACING, ["delete", "table", "1"], ["rebuild", "table"], ["merge", "table", "table"]):
            refused(program, room, *others)
        assert sorted(os.listdir(room)) == ["table", "table.new"]
        _, errors = first.communicate()
        assert (first.returncode, errors) == (0, b""), (words, errors)
        assert os.listdir(room) == ["table"]
        run(program, room, "put", "table", given=b"%d\t3\n7\t3\n" % OLD)
        assert run(program, room, "get", "table", str(OLD), "7", "8") == b"%d\t3\n7\t3\n8\t2\n" % OLD


def put_late(program, room, offset):
    """Begins a `put` whose input is slow, and another one so many seconds later. No pair may be lost: where both have
    the status 0 both pairs are there, and where one has not it says so."""
    run(program, room, "build", "table", "--key", "u64", "--value", "u32")
    words = [program, "put", "table", "--key", "u64", "--value", "u32"]
    first = subprocess.Popen(words, stdin=PIPE, stdout=PIPE, stderr=PIPE, cwd=room)
    start = time.monotonic()
    first.stdin.write(b"1\t1\n")
    first.stdin.flush()
    time.sleep(min(offset, SLOW))
    if offset > SLOW:
        first.stdin.close()
        time.sleep(offset - SLOW)
    second = subprocess.Popen(words, stdin=PIPE, stdout=PIPE, stderr=PIPE, cwd=room)
    _, errors = second.communicate(b"2\t2\n")
    time.sleep(max(0, start + SLOW - time.monotonic()))
    first.stdin.close()
    first.stdin = None
    _, own = first.communicate()
    pairs = run(program, room, "dump", "table").splitlines()
    ended = [(first.returncode, own, b"1\t1" in pairs), (second.returncode, errors, b"2\t2" in pairs)]
    assert all(it in ((0, b"", True), (1, AT_WORK, False)) for it in ended), (offset, ended)
    assert any(status == 0 for status, _, _ in ended) and os.listdir(room) == ["table"], (offset, ended)
    return sum(status == 0 for status, _, _ in ended)


def many_puts(program, room):
    """Two runs of `put` at offsets of 0 to 198 ms, some of which are together and some in turn."""
    rooms = [f"{room}/{it}" for it in range(100)]
    for it in rooms:
        os.mkdir(it)
    with concurrent.futures.ThreadPoolExecutor(8) as workers:
        done = list(workers.map(lambda it: put_late(program, rooms[it], it * 0.002), range(100)))
    assert set(done) == {1, 2}, done


def robbed(program, room):
    """Where somebody removes the new file of a run, it replaces nothing, and leaves the new file of another run."""
    made(program, room)
    first = begun(program, room, ["put", "table"], lines_of(range(OLD), 2))
    os.remove(f"{room}/table.new")
    second = begun(program, room, ["put", "table"], lines_of(range(OLD), 3))
    _, errors = first.communicate()
    lost = b"odht: table: cannot be written: its new file was removed or replaced\n"
    assert (first.returncode, errors) == (1, lost), errors
    assert sorted(os.listdir(room)) == ["table", "table.new"]
    _, errors = second.communicate()
    assert (second.returncode, errors) == (0, b""), errors
    assert run(program, room, "get", "table", "7") == b"7\t3\n" and os.listdir(room) == ["table"]


def come_later(program, room):
    """A file that is made while a run is at work is looked at too: it keeps its permissions, or stays."""
    run(program, room, "build", "other", "--key", "u64", "--value", "u32", given=b"1\t1\n")
    for force in ([], ["--force"]):
        for is_table in (True, False):
            words = ["build", "table", "--key", "u64", "--value", "u32", *force]
            first = begun(program, room, words, lines_of(range(OLD), 2))
            if is_table:
                shutil.copy(f"{room}/other", f"{room}/table")
            else:
                with open(f"{room}/table", "w", encoding="utf-8") as it:
                    it.write("1\t1\n")
            os.chmod(f"{room}/table", 0o640)
            _, errors = first.communicate()
            if is_table or force:
                assert (first.returncode, errors) == (0, b""), errors
                assert run(program, room, "count", "table") == b"%d\n" % OLD
            else:
                assert (first.returncode, errors) == (1, LOST), errors
                assert os.path.getsize(f"{room}/table") == 4
            assert stat.S_IMODE(os.stat(f"{room}/table").st_mode) == 0o640
            assert sorted(os.listdir(room)) == ["other", "table"]
            os.remove(f"{room}/table")


def interrupted(program, room):
    """The file is as it was. The new file is there, without bytes, and the next run tells of it."""
    for words in REPLACING:
        made(program, room)
        before = run(program, room, "dump", "table")
        child = begun(program, room, words, lines_of(range(OLD), 2))
        child.send_signal(signal.SIGINT)
        child.communicate()
        assert child.returncode == -signal.SIGINT, child.returncode
        assert run(program, room, "dump", "table") == before
        assert sorted(os.listdir(room)) == ["table", "table.new"] and os.path.getsize(f"{room}/table.new") == 0
        refused(program, room, *words)
        os.remove(f"{room}/table.new")


def replaced(program, room):
    """`get` and `dump` answer from the file that they opened."""
    made(program, room)
    old = run(program, room, "dump", "table")
    dumping = subprocess.Popen([program, "dump", "table"], stdout=PIPE, stderr=PIPE, cwd=room)
    start = os.read(dumping.stdout.fileno(), 1)
    # long lines with short answers, which its output holds
    getting = begun(program, room, ["get", "table", "-"], (b"0" * 100 + b"7\n") * 3000)
    run(program, room, "put", "table", given=lines_of(range(OLD + 1), 4))
    rest, errors = dumping.communicate()
    assert (dumping.returncode, start + rest, errors) == (0, old, b""), errors
    found, errors = getting.communicate(b"7\n%d\n" % OLD)
    assert (getting.returncode, found, errors) == (1, b"7\t1\n" * 3001 + b"%d\n" % OLD, b""), errors


def main(*programs):
    # what a shell runs in the background ignores it, and so would the programs
    signal.signal(signal.SIGINT, signal.default_int_handler)
    passed = failed = 0
    for program in programs:
        for test in (two_runs, refused_unread, many_puts, robbed, come_later, interrupted, replaced):
            with tempfile.TemporaryDirectory() as room:
                try:
                    test(os.path.abspath(program), room)
                    passed += 1
                except (AssertionError, OSError, subprocess.TimeoutExpired) as error:
                    failed += 1
                    print(f"FAILED together: {program}: {test.__name__}: {error}")
    print(f"{passed} passed, {failed} failed")
    return failed


if __name__ == "__main__":
    sys.exit(main(*sys.argv[1:]) != 0)
