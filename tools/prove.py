#!/usr/bin/env python3
"""The gate, `rt ci`, told as it goes: what it will do, each minute how far it is, and what each crate cost.

  tools/prove.py [--word] [WORDS..]      runs `rt ci`, or the command of these words, with its output as it comes

With --word the gate runs on a copy of the tracked files, outside of the repository, with the word search compiled in.
The processor time is read once a second from the running checks, so what ends within a second is not counted.

`rt ci` runs as many checks at once as memory allows by its own estimate. That estimate is four times what checks take,
so only two or three of the larger crates would run at once. Where there are 4 GB for each processor it is told to run
one check on each (RT_JOBS), unless the caller has said how many.
"""
import os
import subprocess
import sys
import tempfile
import threading
import time
from collections import Counter

import kit
import word_search

TOP = os.path.dirname(os.path.dirname(os.path.realpath(__file__)))
KINDS = ("proof", "tests", "base of edits", "edits")
TICK = os.sysconf("SC_CLK_TCK")
# more than a check of any crate takes, in bytes
CHECK_MEMORY = 4 << 30


def crates():
    """Returns each crate of crates.txt, with the number of its edits in the gate."""
    found = {}
    with open(f"{TOP}/crates.txt", encoding="utf-8") as lines:
        for line in lines:
            name, colon, _ = line.partition("#")[0].partition(":")
            if colon:
                folder = f"{TOP}/crates/{name.split()[0]}/must-fail"
                names = os.listdir(folder) if os.path.isdir(folder) else []
                found[name.split()[0]] = sum(it.endswith(".edit") for it in names)
    return found


def lanes():
    """Returns how many checks `rt ci` is to run at once, as the value of RT_JOBS: its own choice where it is empty."""
    processors = len(os.sched_getaffinity(0))
    with open("/proc/meminfo", encoding="utf-8") as it:
        free = next(int(line.split()[1]) << 10 for line in it if line.startswith("MemAvailable:"))
    return os.environ.get("RT_JOBS") or (str(processors) if free >= processors * CHECK_MEMORY else "")


def stat_of(pid):
    """Returns what /proc says of a process, from its state on: its parent is the second field."""
    with open(f"/proc/{pid}/stat", encoding="utf-8") as it:
        return it.read().rpartition(") ")[2].split()


class Watch:
    """Looks at the checks that the gate began, and adds up what they cost. Its temporary files are below a folder."""

    def __init__(self, room):
        self.room, self.gate, self.cost, self.kinds, self.copies = room, None, {}, {}, {}

    def look(self):
        for pid in filter(str.isdigit, os.listdir("/proc")):
            try:
                with open(f"/proc/{pid}/cmdline", "rb") as it:
                    words = it.read().decode(errors="replace").split("\0")
                if "--crate-name" not in words or not words[0].endswith("/rattle") or not self.is_ours(pid):
                    continue
                fields = stat_of(pid)
                folder = os.readlink(f"/proc/{pid}/cwd")
            except OSError:
                continue
            crate = words[words.index("--crate-name") + 1]
            self.cost[pid, fields[19]] = (int(fields[11]) + int(fields[12])) / TICK
            self.kinds.setdefault((pid, fields[19]), (crate, self.kind(crate, folder, words)))

    def is_ours(self, pid):
        """Returns whether the gate began this process, or one that began it."""
        while pid not in ("0", str(self.gate)):
            pid = stat_of(pid)[1]
        return pid != "0"

    def kind(self, crate, folder, words):
        """Returns what a check is for. The first copy of a crate with an edit is proved whole, the later ones over it."""
        if not folder.startswith(f"{self.room}/rt-edit-"):
            return "tests" if "--test" in words else "proof"
        copies = self.copies.setdefault(crate, [])
        if folder not in copies:
            copies.append(folder)
        return "edits" if copies.index(folder) else "base of edits"

    def edits_begun(self):
        return sum(len(it) for it in self.copies.values())

    def minutes(self):
        """Returns the processor minutes of each crate and kind."""
        found = Counter()
        for check, seconds in self.cost.items():
            found[self.kinds[check]] += seconds / 60
        return found


def pass_on(stream, proved):
    """Prints what the gate prints, and notes the crates that it proved, or that an earlier run has proved of the same files."""
    for line in stream:
        print(line, end="", flush=True)
        is_proved = line.endswith(" proved\n") and "its tests" not in line
        if line.startswith("rt: ") and (is_proved or " is kept: " in line):
            proved.append(line.split()[1])


def table(minutes, names):
    lines = [f"{'processor minutes':20}" + "".join(f"{it:>15}" for it in KINDS) + f"{'all':>8}"]
    for name in [*names, None]:
        row = [sum(v for (crate, kind), v in minutes.items() if kind == it and name in (None, crate)) for it in KINDS]
        lines.append(f"{name or 'all crates':20}" + "".join(f"{it:15.1f}" for it in row) + f"{sum(row):8.1f}")
    return "\n".join(lines)


def run(words, tree, at_once, watch, proved, count, edits):
    """Runs `rt ci`, so many checks at once, and tells each minute how far it is. Returns its status."""
    env = {**os.environ, "TMPDIR": watch.room, "RT_JOBS": at_once}
    how = {"cwd": tree, "env": env, "text": True, "errors": "replace"}
    gate = subprocess.Popen(words, stdout=subprocess.PIPE, stderr=subprocess.STDOUT, **how)
    printing = threading.Thread(target=pass_on, args=(gate.stdout, proved))
    printing.start()
    watch.gate, began, told = gate.pid, time.monotonic(), 0
    while gate.poll() is None:
        watch.look()
        minute = int((time.monotonic() - began) // 60)
        if minute > told:
            told = minute
            done = min(watch.edits_begun(), edits)
            print(f"minute {minute}: {len(proved)} of {count} crates proved, {done} of {edits} edits begun",
                  flush=True)
        time.sleep(1)
    printing.join()
    return gate.returncode


def main(*words):
    by_word, words = words[:1] == ("--word",), [it for it in words if it != "--word"]
    if words[:1] in ([], ["rt"]):
        kit.need()
    known = crates()
    edits = sum(known.values())
    at_once = lanes()
    print(f"proving {len(known)} crates, and trying {edits} edits that must be refused;")
    print(f"{at_once or 'as many as memory allows'} at once", flush=True)
    began, proved = time.monotonic(), []
    with tempfile.TemporaryDirectory(prefix="odht-prove-") as room:
        tree = f"{room}/word" if by_word else os.getcwd()
        if by_word:
            word_search.copy_tracked(tree)
            print(f"on a copy with the word search compiled in, {tree}", flush=True)
        os.chmod(room, 0o755)
        watch = Watch(room)
        status = run(words or ["rt", "ci"], tree, at_once, watch, proved, len(known), edits)
    print(table(watch.minutes(), known))
    print(f"{(time.monotonic() - began) / 60:.1f} minutes")
    return status


if __name__ == "__main__":
    sys.exit(main(*sys.argv[1:]))
