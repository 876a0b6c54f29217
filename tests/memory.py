#!/usr/bin/env python3
"""Lets each request for memory of a call fail in turn, and compares all that is printed with tests/memory/expected.

  tests/memory.py FOLDER      FOLDER has odht_memory, odht_table and odht_tool, built by tools/unproved.py, which counts
                              requests

Of each call, of each script in tests/memory/scripts, and of two commands of the program for table files, the first
request fails, then the second, and so on, up to the first run in which none was left to fail. A call that takes no
memory has one run, in which it asked for none. Of one more script, whose last answer has no room in the buffer of the
answers, this is printed: how many bytes each write has, and the last answer. A run has 60 seconds of processor time.
"""
import os
import shutil
import subprocess
import sys
import tempfile

from packets import Packets

HERE = os.path.dirname(os.path.realpath(__file__))
sys.path.insert(0, f"{HERE}/../tools")
import watched

CALLS = """allocate below_the_maximum clear clone default dynamic dynamic_reserve extend from_iterator
    from_raw_bytes from_raw_bytes_unchecked from_raw_bytes_within index insert insert_all insert_order numbers probe_order
    refused_bytes reserve view with_capacity""".split()
# commands of the program for table files that only read, and their files
COMMANDS = [("find", "inside.bin"), ("info", "one_pair.odht")]
TABLES = f"{HERE}/../crates/odht_tool/data"
# a `put` that grows the table, behind 8186 bytes of answers: the buffer takes 8192
FULL = b"new 0 6\nget 1\n" + 4083 * b"len\n" + b"put 1 2\n"
# more requests than any of these makes
MOST = 20
# of processor time, for one run
SECONDS = 60


def run_failing(words, given, request, room):
    """Runs a program with its request of this number failing. Returns what it printed, and how many it made."""
    count = f"{room}/requests"
    env = {**os.environ, "ODHT_FAIL_REQUEST": str(request), "ODHT_REQUESTS": count}
    ran = watched.run_limited(words, SECONDS, given, env=env, cwd=room)
    with open(count, encoding="utf-8") as it:
        made = int(it.read())
    # a program that ends early says why on standard error
    printed = ran.stderr.decode() + ran.stdout.decode()
    return f"{printed}{made} requests, status {ran.returncode}\n", made


def run_into_packets(words, given, request, room):
    """The same of the sizes of what it writes, and of the last line of it."""
    packets = Packets()
    env = {**os.environ, "ODHT_FAIL_REQUEST": str(request), "ODHT_REQUESTS": f"{room}/requests"}
    with subprocess.Popen(words, stdin=subprocess.PIPE, stdout=packets.output, stderr=subprocess.PIPE, env=env,
                          cwd=room) as program:
        watched.limit_processor_time(program, SECONDS)
        packets.begin()
        errors = program.communicate(given)[1]
    written, sizes = packets.end(60)
    with open(f"{room}/requests", encoding="utf-8") as it:
        made = int(it.read())
    last = b"".join(written.splitlines(True)[-1:])
    counts = "".join(f" {size}" for size in sizes)
    return f"{errors.decode()}{last.decode()}writes:{counts}\n{made} requests, status {program.returncode}\n", made


def sections(folder, room):
    """Yields the title of each run, and what it printed."""
    runs = [(call, ["odht_memory"], call.encode()) for call in CALLS]
    runs.append(("full buffer", ["odht_table"], FULL))
    for name in sorted(os.listdir(f"{HERE}/memory/scripts")):
        with open(f"{HERE}/memory/scripts/{name}", "rb") as it:
            runs.append((f"script {name}", ["odht_table"], it.read()))
    for command, file in COMMANDS:
        shutil.copy(f"{TABLES}/{file}", room)
        runs.append((f"odht {command} {file}", ["odht_tool", command, file], b""))
    for title, words, given in runs:
        for request in range(1, MOST):
            run = run_into_packets if given is FULL else run_failing
            printed, made = run([f"{folder}/{words[0]}", *words[1:]], given, request, room)
            yield f"== {title}, request {request} fails\n", printed
            if made < request:
                break


def expected():
    """Returns what each run has to print, by its title."""
    with open(f"{HERE}/memory/expected", encoding="utf-8") as it:
        lines = it.read().splitlines(True)
    found = {}
    for line in lines:
        if line.startswith("== "):
            title = line
            found[title] = ""
        else:
            found[title] += line
    return found


def main(folder):
    watched.end_on_signals()
    wanted = expected()
    passed, failed = 0, 0
    with tempfile.TemporaryDirectory() as room:
        for title, printed in sections(os.path.abspath(folder), room):
            if wanted.pop(title, None) == printed:
                passed += 1
            else:
                print(f"{title}{printed}this is not what tests/memory/expected has")
                failed += 1
    for title in wanted:
        print(f"{title}this was not run")
    print(f"{passed} passed, {failed + len(wanted)} failed")
    return 1 if failed or wanted else 0


if __name__ == "__main__":
    sys.exit(main(*sys.argv[1:]))
