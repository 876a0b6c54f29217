#!/usr/bin/env python3
"""Tests the lines of `--progress`: what they tell where lines come slowly, the bar where standard input is a file and
standard error a terminal, and the last line, which tells of all.

  tests/progress.py PROGRAM..
"""
import os
import pty
import re
import select
import signal
import subprocess
import sys
import tempfile
import threading
import time

SHAPE = ["--key", "u64", "--value", "u32", "--progress"]
# lines that are read and inserted before the program looks at the clock
BATCH = 1024
LINE = re.compile(r"odht: (\d+) lines, (\d+) pairs, (\d+) bytes, (\d+) seconds(  [#.]{40})?\r?\n")
WIDTH = 40
# half a minute
MOST_BATCHES = 60
# enough that inserting them takes longer than a program runs before it is stopped
PAIRS = 1_000_000
# on a busy machine a run can end before this program gets to stop it: such a run is repeated
MOST_RUNS = 20


def lines_of(numbers):
    return "".join(f"{it}\t{it % 7}\n" for it in numbers).encode()


def told(text):
    """What the lines tell, of which there are some, and nothing else is there."""
    found = [LINE.fullmatch(it) for it in text.decode().splitlines(keepends=True)]
    assert found and all(found), text
    return [(*map(int, it.groups()[:4]), it[5]) for it in found]


def slow_lines(program, room):
    """Batches of lines of the same keys, two in a second, until a line of progress comes."""
    words = [program, "build", f"{room}/slow", *SHAPE]
    batch = lines_of(range(BATCH))
    with subprocess.Popen(words, stdin=subprocess.PIPE, stderr=subprocess.PIPE) as child:
        for sent in range(1, MOST_BATCHES):
            child.stdin.write(batch)
            child.stdin.flush()
            if select.select([child.stderr], [], [], 0.5)[0]:
                break
        _, text = child.communicate()
    assert child.returncode == 0, text
    *due, last = told(text)
    assert due and all(it[3] >= 1 for it in due) and last[0] == sent * BATCH, text
    for lines, pairs, length, _, bar in [*due, last]:
        assert lines % BATCH == 0 and lines <= sent * BATCH, text
        assert (pairs, length, bar) == (BATCH, lines // BATCH * len(batch), None), text


def few_lines(program, room):
    """What the last line tells of fewer lines than are inserted at once, by each way that lines are read."""
    given = b"1\t2\n1\t3\n7\t4\n"
    for words, pairs in [([], 2), (["--duplicates", "first"], 2), (["--check-only"], 0)]:
        done = subprocess.run([program, "build", f"{room}/few", *SHAPE, *words], input=given, stderr=subprocess.PIPE)
        assert done.returncode == 0 and told(done.stderr)[-1][:3] == (3, pairs, len(given)), done


def stopped(words, **streams):
    """Runs a program, which is stopped for more than a second again and again, so that lines are due. Its status."""
    child = subprocess.Popen(words, **streams)
    while child.poll() is None:
        child.send_signal(signal.SIGSTOP)
        time.sleep(1.1)
        child.send_signal(signal.SIGCONT)
        time.sleep(0.02)
    return child.returncode


def read_all(master, said):
    """Reads what comes on a terminal until nobody has its other end."""
    try:
        while some := os.read(master, 4096):
            said.append(some)
    except OSError:
        pass


def drawn(program, room, source):
    """Returns the lines of a build whose input is a file, and whose standard error is a terminal."""
    master, slave = pty.openpty()
    said = []
    reader = threading.Thread(target=read_all, args=(master, said))
    reader.start()
    with open(source, "rb") as given:
        status = stopped([program, "build", f"{room}/drawn", *SHAPE], stdin=given, stderr=slave)
    os.close(slave)
    reader.join()
    os.close(master)
    text = b"".join(said)
    assert status == 0, text
    return told(text)


def bar(program, room):
    """The bar shows how much of a file has been read, while the run goes on and at its end."""
    source = f"{room}/lines"
    with open(source, "wb") as it:
        size = it.write(lines_of(range(PAIRS)))
    for _ in range(MOST_RUNS):
        found = drawn(program, room, source)
        assert found[-1][0] == PAIRS, found
        for lines, pairs, length, _, signs in found:
            full = min(length * WIDTH // size, WIDTH)
            assert lines == pairs and signs == "  " + "#" * full + "." * (WIDTH - full), found
        if len(found) > 1:
            return
    raise AssertionError(f"no line before the last one in {MOST_RUNS} runs")


def copied(program, room):
    """Pairs that are copied are told as pairs, without a bar."""
    words = [program, "rebuild", f"{room}/drawn", "--percent", "50", "--progress"]
    due, last = r"odht: \d+ pairs, [1-9]\d* seconds\n", rf"odht: {PAIRS} pairs, \d+ seconds\n"
    for _ in range(MOST_RUNS):
        with tempfile.TemporaryFile() as errors:
            status = stopped(words, stderr=errors)
            errors.seek(0)
            text = errors.read().decode()
        assert status == 0 and re.fullmatch(rf"({due})*{last}", text), text
        if re.fullmatch(rf"({due})+", text) and text.count("\n") > 1:
            return
    raise AssertionError(f"no line before the last one in {MOST_RUNS} runs")


def main(*programs):
    passed = failed = 0
    for program in programs:
        with tempfile.TemporaryDirectory() as room:
            for test in (slow_lines, few_lines, bar, copied):
                try:
                    test(os.path.abspath(program), room)
                    passed += 1
                except AssertionError as error:
                    failed += 1
                    print(f"FAILED progress: {program}: {test.__name__}: {error}")
    print(f"{passed} passed, {failed} failed")
    return failed


if __name__ == "__main__":
    sys.exit(main(*sys.argv[1:]) != 0)
