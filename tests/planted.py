#!/usr/bin/env python3
"""Checks the runner of cases: a program that goes as it must passes, and each of a list of planted
faults is told, with the status 1."""
import os
import subprocess
import sys
import tempfile

sys.dont_write_bytecode = True

from case_trees import has_all_rights  # noqa: E402

HERE = os.path.dirname(os.path.abspath(__file__))
sys.path.insert(0, os.path.join(HERE, os.pardir, "tools"))
import watched  # noqa: E402

IS_ROOT = has_all_rights()

# Writes its input and its first word, keeps a file, makes another, and returns 3. Says where it may write into the
# folder of all. Replaces a file, by one with fewer rights, where one is there, and gives a file away where one is there.
PROGRAM = """#!/bin/sh
[ ! -w / ] || echo root >&2
[ ! -e given.txt ] || chown 0 given.txt
[ ! -e old.txt ] || { echo new > old.txt.new && chmod 600 old.txt.new && mv -f old.txt.new old.txt; }
[ "$1" != killed ] || echo made > made.txt
cat && echo "word $1" && echo told >&2 && echo made > made.txt && exit 3
"""

CASES = """
let end: two
== a program
for word:
    a
    b
user: nobody
umask: 027
args: \\{word}
before kept.txt: kept
before old.txt: old
mode old.txt: 0640
hard other.txt: old.txt
hard second.txt: kept.txt
link link.txt: kept.txt
special pipe: FIFO
special socket: socket
stdin:
    one
    \\{end}
stdout:
    one
    two
    word \\{word}
stderr: to...
status: 3
after made.txt: made
after old.txt: new
mode-after old.txt: 0600
parted: other.txt

== its writes
user: nobody
args: a
stdin:
    one
stdout:
    one
    word a
writes: 4 7
stderr: told
status: 3
after made.txt: made

== a program that is killed
user: nobody
args: killed
room: 2
status: killed
after made.txt: ma\\
"""

# The same, where the program runs as root.
BY_ROOT = """
== what root does
user: root
before given.txt: given
owner given.txt: nobody nobody
special device: device
stdout: word\\s
stderr: ro...
status: 3
after made.txt: made
owner-after given.txt: root nobody
"""

# A fault, what is replaced in the program or in the cases, by what, and what the runner says of it.
FAULTS = [
    ("a byte of the output", "cases", "    one\n    two", "    one\n    twO",
     "standard output differs"),
    ("output that is missing", "program", 'echo "word $1" && ', "", "standard output differs"),
    ("output that is too long", "program", "word $1", "word $1 ", "standard output differs"),
    ("a program that writes nothing", "program", "cat", "exit 3; cat", "standard output differs"),
    ("a program that does not end", "program", "exit 3", "while :; do :; done", "did not end in 1"),
    ("a program that sleeps", "program", "exit 3", "exec sleep 100", "did not end in 1"),
    ("a write in two pieces", "program", 'echo "word $1"', 'printf "word " && echo "$1"',
     "it wrote 4 5 2 bytes, not 4 7"),
    ("two writes in one piece", "program", 'cat && echo "word $1"',
     'printf "%s\\nword %s\\n" "$(cat)" "$1"', "it wrote 11 bytes, not 4 7"),
    ("another size of a write", "cases", "writes: 4 7", "writes: 4 8",
     "it wrote 4 7 bytes, not 4 8"),
    ("sizes of writes that nobody sees", "cases", "writes: 4 7", "writes: 4 7\nroom: 99",
     "nobody can tell the writes"),
    ("a byte of the errors", "program", "echo told", "echo sold", "standard error differs"),
    ("more errors than are expected", "cases", "stderr: to...", "stderr: to",
     "standard error differs"),
    ("another status", "program", "exit 3", "exit 0", "status 0, not 3"),
    ("a program that is killed", "program", "exit 3", "kill -9 $$", "status -9, not 3"),
    ("a file that is not made", "program", "echo made > made.txt", "true",
     "the file made.txt is missing"),
    ("a byte of a file", "program", "echo made", "echo maDe", "made.txt differs from byte 2 on"),
    ("a file that is removed", "program", "exit 3", "rm kept.txt; exit 3",
     "the file kept.txt is missing"),
    ("a file that is changed", "program", "exit 3", "echo >> kept.txt; exit 3",
     "the file kept.txt differs from byte 5 on"),
    ("a file that nobody asked for", "program", "exit 3", "echo > kept.txt.new; exit 3",
     "there is a file kept.txt.new"),
    ("a folder in the place of a file", "program", "exit 3", "rm kept.txt; mkdir kept.txt; exit 3",
     "kept.txt is a folder"),
    ("a link that becomes a file", "program", "exit 3",
     "rm link.txt; echo kept > link.txt; exit 3", "link.txt is a file, not a link"),
    ("a link that leads elsewhere", "program", "exit 3", "ln -sf old.txt link.txt; exit 3",
     "the link link.txt differs"),
    ("a link that is removed", "program", "exit 3", "rm link.txt; exit 3",
     "the link link.txt is missing"),
    ("another mode", "program", "exit 3", "chmod 640 kept.txt; exit 3",
     "the mode of kept.txt is 0640, not 0644"),
    ("a mode that is not set", "program", "chmod 600", "true", "old.txt is 0640, not 0600"),
    ("a mode that must be another", "cases", "mode-after old.txt: 0600", "mode-after old.txt: 0640",
     "old.txt is 0600, not 0640"),
    ("another umask", "program", "echo told", "umask 0 && echo told", "made.txt is 0666, not 0640"),
    ("a name that is parted", "program", "exit 3", "cp kept.txt x; mv x second.txt; exit 3",
     "second.txt and kept.txt are two files"),
    ("a name that is not parted", "program", "exit 3", "ln -f old.txt other.txt; exit 3",
     "other.txt and old.txt are one file"),
    ("a file in the place of a FIFO", "program", "exit 3", "rm pipe; echo > pipe; exit 3",
     "pipe is a file, not a FIFO"),
    ("a FIFO in the place of a socket", "program", "exit 3", "rm socket; mkfifo socket; exit 3",
     "socket is a FIFO, not a socket"),
    ("a folder that nobody asked for", "program", "exit 3", "mkdir more; exit 3",
     "there is a folder more"),
    ("a program that is not killed", "program", '[ "$1" != killed ]',
     "trap '' XFSZ; [ \"$1\" != killed ]", "status 1, not -25"),
    ("a mode that is none", "cases", "mode old.txt: 0640", "mode old.txt: 0680", "'0680' is no mode"),
    ("a kind that is none", "cases", "FIFO", "FIFOS", "no file is a 'FIFOS'"),
    ("a user that is none", "cases", "user: nobody", "user: somebody", "user cannot be 'somebody'"),
    ("a mode of no file", "cases", "mode-after old.txt", "mode-after odl.txt",
     "no file is named 'odl.txt'"),
    ("a name that is no second one", "cases", "parted: other.txt", "parted: kept.txt",
     "'kept.txt' is no second name"),
    ("a kill without room", "cases", "room: 2\n", "", "nothing kills it without room"),
    ("a row that is too long", "cases", "    b\n", "    b | c\n", "a row of 2 values"),
    ("a row that changes nothing", "cases", "\\{word}", "a", "nothing names 'word'"),
    ("a key that is misspelt", "cases", "status:", "statsu:", "not understood"),
    ("a name that is misspelt", "cases", "let end", "let ned", "no text is named 'end'"),
    ("a space that nobody sees", "cases", "    one\n", "    one \n", "a space at the end"),
    ("no case", "cases", None, "", "0 passed, 0 failed"),
    ("no program", "program", None, "", "FAILED"),
]

# Those that only root can plant.
FAULTS_BY_ROOT = [
    ("a program that is not nobody's", "cases", "user: nobody\numask", "umask",
     "standard error differs"),
    ("another user", "program", "exit 3", "[ ! -w / ] || chown 65534 made.txt; exit 3",
     "made.txt are (65534, 0), not (0, 0)"),
    ("another group", "program", "chown 0", "chown 0:0", "given.txt are (0, 0), not (0, 65534)"),
    ("a user that is not changed", "program", "chown 0 given.txt", "true",
     "given.txt are (65534, 65534), not (0, 65534)"),
    ("a user that does not stay", "cases", "owner-after given.txt: root nobody\n", "",
     "given.txt are (0, 65534), not (65534, 65534)"),
    ("a file in the place of a device", "program", "exit 3",
     "[ ! -w / ] || { rm device; echo > device; }; exit 3", "device is a file, not a device"),
    ("an owner that is none", "cases", "nobody nobody", "nobody", "a user and a group are wanted"),
]


def said(folder, program, cases, *given):
    """What the runner says of a program and of a file of cases, with given texts, and its status."""
    for name, text in (("program", program), ("a.cases", cases)):
        with open(os.path.join(folder, name), "w") as file:
            file.write(text)
    runner, file = os.path.join(HERE, "cases.py"), os.path.join(folder, "program")
    ended = subprocess.run([sys.executable, runner, file, *given, folder], universal_newlines=True,
                           stdout=subprocess.PIPE, stderr=subprocess.STDOUT,
                           env={**os.environ, "CASE_SECONDS": "1.5"})
    return ended.stdout, ended.returncode


def is_told(folder, fault):
    """Whether the runner tells a fault. If not, it is printed."""
    name, what, old, new, words = fault
    texts = {"program": PROGRAM, "cases": CASES + (BY_ROOT if IS_ROOT else "")}
    old = texts[what] if old is None else old
    if old not in texts[what]:
        print(f"FAILED {name}: nothing to replace")
        return False
    texts[what] = texts[what].replace(old, new)
    text, status = said(folder, texts["program"], texts["cases"])
    if words in text and status == 1:
        return True
    print(f"FAILED {name}: status {status}, and\n{text}")
    return False


def are_given(folder):
    """Whether a text that is given stands for the one of the cases, and one that nothing names is told."""
    other = CASES.replace("let end: two", "let end: three").replace("    two\n    word", "    three\n    word")
    wanted = [(CASES, (), "4 passed, 0 failed", 0), (CASES, ("end=three",), "standard output differs", 1),
              (other, ("end=two",), "standard output differs", 1), (other, (), "4 passed, 0 failed", 0),
              (CASES.replace("two\n    word", "\\{end}\n    word"), ("end=three=four",), "4 passed, 0 failed", 0),
              (CASES, ("ned=two",), "no text is named 'ned'", 1)]
    for cases, given, words, status in wanted:
        text, found = said(folder, PROGRAM, cases, *given)
        if words not in text or found != status:
            print(f"FAILED given texts {given}: status {found}, and\n{text}")
            return False
    return True


def main():
    watched.end_on_signals()
    with tempfile.TemporaryDirectory() as folder:
        wanted = "5 passed, 0 failed\n" if IS_ROOT else "4 passed, 0 failed\n"
        results = [said(folder, PROGRAM, CASES + (BY_ROOT if IS_ROOT else "")) == (wanted, 0)]
        results.append(are_given(folder))
        results += [is_told(folder, fault) for fault in FAULTS + (FAULTS_BY_ROOT if IS_ROOT else [])]
    print(f"{sum(results)} passed, {len(results) - sum(results)} failed")
    return 0 if all(results) else 1


if __name__ == "__main__":
    sys.exit(main())
