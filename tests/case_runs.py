"""Runs a program on a case, and compares what it did with what it must do."""
import contextlib
import difflib
import math
import os
import resource
import signal
import socket
import subprocess
import sys
import tempfile

import case_trees
from packets import Packets

sys.path.insert(0, os.path.join(os.path.dirname(os.path.abspath(__file__)), os.pardir, "tools"))
import watched  # noqa: E402

# how much processor time a run may use, and how long it may use none: so a busy machine ends none
SECONDS = float(os.environ.get("CASE_SECONDS", "20"))
DIFF_LINES = 12


class Ended:
    """How a run ended."""

    def __init__(self, status, output, errors, writes):
        self.status, self.output, self.errors, self.writes = status, output, errors, writes


def open_input(case, stack):
    """The program's standard input, or PIPE where the bytes are written to it while it runs."""
    kind = case.choices["input"]
    if kind is None:
        return subprocess.PIPE
    if kind == "a folder":
        folder = os.open("/", os.O_RDONLY)
        stack.callback(os.close, folder)
        return folder
    # A read from a socket of packets takes one packet. Where the peer of a stream is closed with
    # bytes that it did not read, reading ends with an error, after the bytes that are there.
    is_stream = kind != "each byte alone"
    sort = socket.SOCK_STREAM if is_stream else socket.SOCK_SEQPACKET
    ours, theirs = socket.socketpair(socket.AF_UNIX, sort)
    stack.enter_context(theirs)
    with ours:
        if is_stream:
            theirs.sendall(b"not read")
            ours.sendall(case.stdin[:int(kind.split(" ")[2])])
        else:
            for byte in case.stdin:
                ours.sendall(bytes([byte]))
    return theirs


def open_output(case, stack, packets):
    """The program's standard output."""
    if packets:
        return packets.output
    kind = case.choices["output"]
    if kind == "full":
        return stack.enter_context(open("/dev/full", "wb"))
    if kind == "no reader":
        reader, writer = os.pipe()
        os.close(reader)
        stack.callback(os.close, writer)
        return writer
    if case.room is not None:
        return stack.enter_context(tempfile.TemporaryFile())
    return subprocess.PIPE


def limits(case):
    """What the child does before the program begins, where a case needs it: it limits its processor time and files, and
    drops its rights. Else None."""
    user, group = case_trees.user_of(case)
    if case.room is None and user == os.geteuid():
        return None

    def set_limits():
        seconds = math.ceil(SECONDS)
        resource.setrlimit(resource.RLIMIT_CPU, (seconds, seconds + 1))
        if case.room is not None:
            # what is killed leaves no file of its memory
            resource.setrlimit(resource.RLIMIT_CORE, (0, 0))
            signal.signal(signal.SIGXFSZ, signal.SIG_DFL if case.is_killed else signal.SIG_IGN)
            resource.setrlimit(resource.RLIMIT_FSIZE, (case.room, case.room))
        if user != os.geteuid():
            os.setgroups([])
            os.setgid(group)
            os.setuid(user)
    return set_limits


def begun(words, case, **how):
    """The program, which has begun."""
    before = limits(case)
    former = os.umask(case_trees.UMASK if case.umask is None else case.umask)
    try:
        process = subprocess.Popen(words, env={}, preexec_fn=before, **how)
    finally:
        os.umask(former)
    if before is None:
        watched.limit_processor_time(process, math.ceil(SECONDS))
    return process


def communicate(process, written):
    """What a program writes. It is killed where it uses no processor time for so long."""
    used = None
    while True:
        try:
            return process.communicate(written, SECONDS)
        except subprocess.TimeoutExpired:
            now = watched.begun_by(process.pid)
            if now == used:
                process.kill()
                process.communicate()
                return None
            used, written = now, None


def run(program, case, folder):
    """Runs the program in the folder. None where it does not end."""
    packets, writes = None if case.writes is None else Packets(), None
    with contextlib.ExitStack() as stack:
        stdin, stdout = open_input(case, stack), open_output(case, stack, packets)
        stderr = subprocess.PIPE
        written = case.stdin if stdin == subprocess.PIPE else None
        if case.choices["errors"] == "output":
            stderr = subprocess.STDOUT
        elif case.choices["errors"]:
            stderr = stack.enter_context(open("/dev/full", "wb"))
        process = begun([program] + case.args, case, cwd=folder, stdin=stdin, stdout=stdout, stderr=stderr)
        if packets:
            packets.begin()
        texts = communicate(process, written)
        if texts is None or process.returncode == -signal.SIGXCPU:
            return None
        output, errors = texts
        if case.room is not None:
            stdout.seek(0)
            output = stdout.read()
        if packets:
            output, writes = packets.end(SECONDS)
        return Ended(process.returncode, output or b"", errors or b"", writes)


def shown(content):
    """The lines of a text, such that each can be printed."""
    return [repr(line)[2:-1] for line in content.splitlines(keepends=True)]


def text_faults(what, expected, found, room=None):
    """What is wrong with a text that was written: nothing, or that it differs, and where."""
    content = expected.content if room is None else expected.content[:room]
    if found == content or (not expected.is_whole and found.startswith(content)):
        return []
    if not expected.is_whole:
        found = found[:len(content) + 80]
    lines = list(difflib.unified_diff(shown(content), shown(found), lineterm="", n=1))
    return [f"{what} differs"] + [f"    {line[:200]}" for line in lines[2:DIFF_LINES]]


def write_faults(expected, found):
    """What is wrong with the sizes of the writes to standard output, where a case has them."""
    if found == expected:
        return []
    return [f"it wrote {' '.join(map(str, found))} bytes, not {' '.join(map(str, expected))}"]


def faults_of(program, case):
    """All that the program does wrong in a case."""
    with tempfile.TemporaryDirectory() as top:
        os.chmod(top, 0o755)
        folder = os.path.join(top, "run")
        os.mkdir(folder)
        before = case_trees.make(folder, case)
        ended = run(program, case, folder)
        os.chmod(folder, 0o755)
        if ended is None:
            return [f"it did not end in {SECONDS:g} seconds of processor time, or used none for as long"]
        faults = []
        status = -signal.SIGXFSZ if case.is_killed else case.status
        if ended.status != status:
            faults.append(f"status {ended.status}, not {status}")
        faults += text_faults("standard output", case.stdout, ended.output, case.room)
        faults += write_faults(case.writes, ended.writes)
        faults += text_faults("standard error", case.stderr, ended.errors)
        return faults + case_trees.faults_between(case, before, case_trees.entries(folder))
