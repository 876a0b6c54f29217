#!/usr/bin/env python3
"""Checks what tests/run.py does with parts that are planted: with some that hang, with some that only take long, with
some that fail, and with one that runs when a signal comes. The limit for what hangs is two seconds here."""
import glob
import os
import re
import signal
import subprocess
import sys
import tempfile
import time
from concurrent.futures import ThreadPoolExecutor

HERE = os.path.dirname(os.path.abspath(__file__))
TOP = os.path.dirname(HERE)
sys.path.insert(0, f"{TOP}/tools")
import watched

# the limit; how long parts work or print that only take long; and how long those would sleep that hang
LIMIT, SECONDS, ASLEEP = 2, 3, 300

# runs a part of these words, in Python, with its log in the folder, and with as much processor time for each of its
# processes as the tests in Rattle have, or with this limit
DRIVER = """
import sys
sys.path.insert(0, sys.argv[1])
import run
run.BUILT = run.LOGS = sys.argv[2]
seconds = int(sys.argv[4]) if len(sys.argv) > 4 else run.TEST_IN_RATTLE
words = run.limited(seconds, sys.executable, "-c", sys.argv[3])
run.PARTS = {"planted": ([], lambda part: part.counted(*words))}
sys.exit(run.main())
"""
COUNTS = "print('1 passed, 0 failed')"
HANGS = f"import time; print('before', flush=True); time.sleep({ASLEEP})"
WORKS = f"import time\nwhile time.process_time() < {SECONDS}: pass\n"
# prints now and then, and uses next to no processor time
PRINTS = f"import time\nfor _ in range({2 * SECONDS}): print('.', flush=True); time.sleep(0.5)\n"
# a program below another one, in a session of its own
BELOW = "import subprocess, sys\nsubprocess.run([sys.executable, '-c', {!r}], start_new_session=True)\n"
# a runner of tests: a program for each, one after the other, of which it says how they end
TESTS = """
import signal, subprocess, sys
ran = [subprocess.run([sys.executable, '-c', it]).returncode for it in {!r}]
for it in ran:
    print(signal.Signals(-it).name if it < 0 else it)
print(f'{{ran.count(0)}} passed, {{len(ran) - ran.count(0)}} failed')
"""
PASSED = ["planted: 1 passed, 0 failed; N s", "1 passed, 0 failed"]
ENDED = f"ENDED: no output and no processor time for {LIMIT} seconds"
HUNG = ["before", f"planted: {ENDED}", f"planted: {ENDED}; planted.log", "0 passed, 1 failed"]

# What a part is, its words, the lines of its log, and those that are printed after the one that says that it begins.
PARTS = [
    ("a part that passes", COUNTS, ["1 passed, 0 failed"], PASSED),
    ("one that fails", "print('a fault'); print('1 passed, 2 failed')", ["a fault", "1 passed, 2 failed"],
     ["a fault", "1 passed, 2 failed", "planted: 1 passed, 2 failed; N s", "planted: 2 FAILED; planted.log",
      "1 passed, 2 failed"]),
    ("one that ends ill", "import sys; sys.exit('a fault')", ["a fault"],
     ["a fault", "planted: 0 passed, 1 failed; N s", "planted: 1 FAILED; planted.log", "0 passed, 1 failed"]),
    ("one that hangs asleep", HANGS, ["before", ENDED], HUNG),
    ("one that hangs below", BELOW.format(HANGS), ["before", ENDED], HUNG),
    ("one that works for longer", WORKS + COUNTS, ["1 passed, 0 failed"], PASSED),
    ("one that works for longer below", BELOW.format(WORKS) + COUNTS, ["1 passed, 0 failed"], PASSED),
    ("one that prints slowly", PRINTS + COUNTS, ["."] * 2 * SECONDS + ["1 passed, 0 failed"], PASSED),
]
# The same of parts whose processes have LIMIT seconds of processor time each.
LIMITED = [
    ("a test that works without end", TESTS.format(["while True: pass", "exit(1)", "exit(0)"]),
     ["SIGXCPU", "1", "0", "1 passed, 2 failed"],
     ["SIGXCPU", "1", "0", "1 passed, 2 failed", "planted: 1 passed, 2 failed; N s", "planted: 2 FAILED; planted.log",
      "1 passed, 2 failed"]),
    ("a test that sleeps for longer, and prints", TESTS.format([PRINTS]),
     ["."] * 2 * SECONDS + ["0", "1 passed, 0 failed"], PASSED),
    ("tests that work for longer together", TESTS.format([WORKS.replace(str(SECONDS), "1")] * SECONDS) + COUNTS,
     ["0"] * SECONDS + [f"{SECONDS} passed, 0 failed", "1 passed, 0 failed"],
     [f"planted: {SECONDS + 1} passed, 0 failed; N s", f"{SECONDS + 1} passed, 0 failed"]),
]
# keeps a folder while it sleeps, and begins a program that ignores what it is asked
KEEPS = f"""
import subprocess, sys, tempfile, time
sys.path.insert(0, {TOP + '/tools'!r})
import watched
watched.end_on_signals()
stays = '''
import signal, sys, time
signal.signal(signal.SIGTERM, signal.SIG_IGN)
open(sys.argv[1], 'w').close()
time.sleep({ASLEEP})
'''
with tempfile.TemporaryDirectory() as room:
    subprocess.Popen([sys.executable, '-c', stays, room + '/begun'])
    time.sleep({ASLEEP})
"""


def heed_signals():
    """Lets signals end this program even where what began it ignores them, as nohup does."""
    for it in watched.SIGNALS:
        signal.signal(it, signal.SIG_DFL)


def begin(folder, text, *limit):
    """Begins tests/run.py with a part of this text, in a folder for its logs and for all temporary ones."""
    os.mkdir(f"{folder}/temporary")
    env = {**os.environ, "TEST_SECONDS": str(LIMIT), "TMPDIR": f"{folder}/temporary"}
    how = {"preexec_fn": heed_signals, "stdout": subprocess.PIPE, "stderr": subprocess.STDOUT}
    words = [sys.executable, "-c", DRIVER, HERE, folder, text, *limit]
    return subprocess.Popen(words, cwd=folder, env=env, universal_newlines=True, **how)


def left_of(folder):
    """What is left: temporary files, and programs that still run with this folder for them."""
    found = os.listdir(f"{folder}/temporary")
    for pid in filter(str.isdigit, os.listdir("/proc")):
        try:
            with open(f"/proc/{pid}/environ", "rb") as it:
                if f"TMPDIR={folder}/temporary".encode() in it.read():
                    found.append(f"process {pid}")
        except OSError:
            pass
    return found


def is_right(name, found, wanted):
    """Whether what was found is what is wanted. If not, both are printed."""
    if found != wanted:
        print(f"FAILED {name}:\n    found {found}\n    wanted {wanted}")
    return found == wanted


def is_handled(row, *limit):
    """Whether a part is told as it must be, and all that it began is ended."""
    name, text, log, lines = row
    with tempfile.TemporaryDirectory() as folder:
        driver = begin(folder, text, *limit)
        printed = re.sub(r"\d+ s, \d+ s of processors$", "N s", driver.communicate()[0], flags=re.M)
        printed = re.sub(r"^processor time: \d+\.\d minutes\n", "", printed, flags=re.M)
        with open(f"{folder}/planted.log", encoding="utf-8") as it:
            found = it.read().split("\n"), printed.split("\n"), driver.returncode, left_of(folder)
    status = 1 if any(" FAILED; " in it or ENDED in it for it in lines) else 0
    return is_right(name, found, ([*log, ""], ["planted: begins", *lines, ""], status, []))


def is_ended_by(number):
    """Whether a signal ends the tests with all that they began, and their folders are removed."""
    with tempfile.TemporaryDirectory() as folder:
        driver = begin(folder, KEEPS)
        while driver.poll() is None and not glob.glob(f"{folder}/temporary/*/*/begun"):
            time.sleep(0.05)
        driver.send_signal(number)
        driver.communicate()
        left = left_of(folder)
    return is_right(signal.Signals(number).name, (driver.returncode, left), (128 + number, []))


def main():
    watched.end_on_signals()
    with ThreadPoolExecutor(len(PARTS) + len(LIMITED) + len(watched.SIGNALS)) as lanes:
        handled, ended = lanes.map(is_handled, PARTS), lanes.map(is_ended_by, watched.SIGNALS)
        limited = lanes.map(lambda row: is_handled(row, str(LIMIT)), LIMITED)
        results = [*handled, *limited, *ended]
    print(f"{sum(results)} passed, {len(results) - sum(results)} failed")
    return 0 if all(results) else 1


if __name__ == "__main__":
    sys.exit(main())
