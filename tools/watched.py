"""Runs commands under a watch. One that hangs is ended with all that it began, and so is each where this program is
ended by a signal.

A command hangs where for so many seconds nothing was printed and none of its processes used processor time. So one that
works, or prints now and then, is never ended, however busy the machine is. Nor is a loop without end.
"""
import contextlib
import os
import resource
import signal
import subprocess
import sys
import tempfile
import threading
import time
from concurrent.futures import ThreadPoolExecutor

LIMIT = float(os.environ.get("TEST_SECONDS", "600"))
SIGNALS = (signal.SIGTERM, signal.SIGINT, signal.SIGHUP)
# seconds between two questions whether a command has ended, and until one that was asked to end is killed
SLICE, GRACE = 0.2, 5
# set where this program is being ended
leaving = threading.Event()
# of each thread, the processor time of the commands that it has run
used = threading.local()


class Hung(Exception):
    """A command that hung and was ended, with what it had printed."""

    def __init__(self, seconds, printed):
        super().__init__(f"ENDED: no output and no processor time for {seconds:g} seconds")
        self.printed = printed


class Left(Exception):
    """A command that was ended, or not begun, since this program is being ended."""


def leave(number, _):
    for it in SIGNALS:
        signal.signal(it, signal.SIG_IGN)
    leaving.set()
    sys.exit(128 + number)


def end_on_signals():
    """From now on signals end this program as `sys.exit` does, so that commands are ended and folders removed."""
    for it in SIGNALS:
        if signal.getsignal(it) != signal.SIG_IGN:
            signal.signal(it, leave)


def processes():
    """Returns the parent, the session and the processor time, in ticks, of each process that has not ended. The time is
    that of its ended children too."""
    found = {}
    for pid in filter(str.isdigit, os.listdir("/proc")):
        try:
            with open(f"/proc/{pid}/stat", encoding="utf-8", errors="replace") as it:
                fields = it.read().rpartition(") ")[2].split()
        except OSError:
            continue
        if fields[0] not in "ZX":
            found[int(pid)] = int(fields[1]), int(fields[3]), sum(map(int, fields[11:15]))
    return found


def begun_by(leader):
    """Returns the processes of a session, and those that they began, each with its processor time."""
    there = processes()
    found = {pid for pid, (_, session, _) in there.items() if leader in (pid, session)}
    more = found
    while more:
        more = {pid for pid, (parent, _, _) in there.items() if parent in found} - found
        found |= more
    return {pid: there[pid][2] for pid in found}


def end(process):
    """Ends a command and all that it began: they are asked to, and killed where they are still there seconds later."""
    began = time.monotonic()
    while process.poll() is None or begun_by(process.pid):
        seconds = time.monotonic() - began
        if seconds > 2 * GRACE:
            return
        for pid in begun_by(process.pid):
            try:
                os.kill(pid, signal.SIGTERM if seconds < GRACE else signal.SIGKILL)
            except (ProcessLookupError, PermissionError):
                pass
        time.sleep(SLICE / 2)


def processor_time():
    """Returns the processor time, in seconds, of all commands that this thread has run, and of those that they ran."""
    return getattr(used, "seconds", 0.0)


def has_ended(process, began):
    """Waits for a moment. Returns whether a command has ended, and adds its processor time. It asks less often the longer
    the command works: many are watched at once, and each question takes processor time."""
    until = time.monotonic() + SLICE
    while (now := time.monotonic()) < until:
        ended, status, usage = os.wait4(process.pid, os.WNOHANG)
        if ended:
            used.seconds = processor_time() + usage.ru_utime + usage.ru_stime
            process.returncode = -os.WTERMSIG(status) if os.WIFSIGNALED(status) else os.WEXITSTATUS(status)
            return True
        time.sleep(min(max((now - began) / 4, 0.001), SLICE))
    return False


def hangs(process, files, limit):
    """Waits until a command has ended or hangs. Returns whether it hangs; where the limit is None, it never does."""
    seen = None
    began = since = looked = time.monotonic()
    while not has_ended(process, began):
        if leaving.is_set():
            raise Left
        now = time.monotonic()
        if limit is None or now - looked < min(limit / 5, 5):
            continue
        looked = now
        signs = begun_by(process.pid), [os.fstat(it.fileno()).st_size for it in files]
        if signs != seen:
            seen, since = signs, now
        elif now - since >= limit:
            return True
    return False


def text_of(*files):
    """Returns what is in files, in their order."""
    for it in files:
        it.seek(0)
    return b"".join(it.read() for it in files).decode(errors="replace")


def keep_niceness(process):
    """Has a command that is in a session of its own give way as this program does. Where the system shares processors
    among sessions (`autogroup`), the niceness of a process counts only beside those of its own one."""
    niceness = os.nice(0)
    if niceness > 0:
        with contextlib.suppress(OSError), open(f"/proc/{process.pid}/autogroup", "w", encoding="utf-8") as it:
            it.write(str(niceness))


def limit_processor_time(process, seconds):
    """Has a process that was just begun end after so many seconds of processor time. The limit is set from outside,
    because Python has to fork to set it in the child, and that takes longer than most of these programs work."""
    with contextlib.suppress(ProcessLookupError):
        resource.prlimit(process.pid, resource.RLIMIT_CPU, (seconds, seconds + 1))


def run_limited(words, seconds, given, **how):
    """Runs a program that may use so many seconds of processor time. Returns how it ended, and what it wrote."""
    pipes = {"stdin": subprocess.PIPE, "stdout": subprocess.PIPE, "stderr": subprocess.PIPE}
    with subprocess.Popen(words, **pipes, **how) as process:
        limit_processor_time(process, seconds)
        output, errors = process.communicate(given)
    return subprocess.CompletedProcess(words, process.returncode, output, errors)


def run(words, limit=LIMIT, **how):
    """Runs a command in a session of its own. Returns its status and what it printed, errors last. Raises Hung."""
    if leaving.is_set():
        raise Left
    with tempfile.TemporaryFile() as output, tempfile.TemporaryFile() as errors:
        how = {"stdin": subprocess.DEVNULL, "stdout": output, "stderr": errors, "start_new_session": True, **how}
        try:
            process = subprocess.Popen(words, **how)
        except OSError as error:
            return 1, str(error)
        keep_niceness(process)
        try:
            is_hung = hangs(process, (output, errors), limit)
        finally:
            end(process)
        printed = text_of(output, errors)
    if is_hung:
        raise Hung(limit, printed)
    return process.returncode, printed


def run_at_once(count, commands, call=run):
    """Runs commands, so many at a time, and returns what `run` does of each. The processor time is this thread's."""

    def ran(command):
        before = processor_time()
        return call(command), processor_time() - before

    with ThreadPoolExecutor(count) as pool:
        all_of_them = list(pool.map(ran, commands))
    used.seconds = processor_time() + sum(seconds for _, seconds in all_of_them)
    return [result for result, _ in all_of_them]
