#!/usr/bin/env python3
"""The tests, without any proof: each part is printed when it begins and when it ends, and the last line counts them.

  tests/run.py [PART..]      all parts, or those that are named; status 1 where anything failed

    calls      the calls for C, by tests/c                    rust       the crate for Rust (rust/), by tests/rust.py
    rattle     the tests in Rattle                          ffi        the package odht-ffi (bindings/rust)
    memory     each request for memory fails in turn          vectors    all vectors
    tool       the program for table files, by tests/tool     edits      each edit's text is where it says
    cli        the same of erased source, by tests/cli.py     generated  generated text is current, documents are well
    both       both builds of that program do the same      beside     the crate for Rust beside the library for C
    script     the program for scripts, by tests/script     table      the same of plain Rust, and `make run`
    runner     that the runner of cases reports faults       watch      what is done with parts that fail or hang
    bench      the figures of bench/run                     manual     the manual page, and what completes words
    word       all vectors and the tests in Rattle once more, with the word search compiled in

What a part needs is built first, by tools/unproved.py, into build/unproved/; what is current there is kept. The kit's
front end runs twice: once for all programs and the library for C (tools/programs_together.py), and once for both crates
of tests. What `word` needs is in these two, as copies of the crates under other names (tools/word_search.py).

What a part prints is in build/logs/PART.log too. A part that hangs, for 600 seconds or those that TEST_SECONDS gives
(tools/watched.py), is ended: it counts as failed, and is told as ENDED. Where there is no kit of Rattle, the parts that
need a build by it are left out, and `beside` and `table` leave out the comparison with such a build. The lines above the
last one say so.
"""
import os
import re
import resource
import shutil
import sys
import tempfile
import threading
import time
from concurrent.futures import ThreadPoolExecutor

TOP = os.path.dirname(os.path.dirname(os.path.realpath(__file__)))
BUILT = f"{TOP}/build/unproved"
LOGS = f"{TOP}/build/logs"
sys.path.insert(0, f"{TOP}/tools")
import kit
import programs_together
import rust
import unproved
import watched

# what is built with the word search
WORD = f"{BUILT}/word"
PRINTING = threading.Lock()
IN_RATTLE = unproved.TESTS
# what is lowered once for all of them
PROGRAMS = ["odht_tool", "libodht.a", "odht_vectors", "odht_memory", "odht_table", "word/odht_vectors"]
# of processor time, for one test in Rattle: what works without end is ended by it, and what sleeps by tools/watched.py
TEST_IN_RATTLE = 600
# the limit by the clock that `rattle-test` has: a year, since a machine may be busy
NEVER = 365 * 24 * 3600


def say(text):
    with PRINTING:
        print(text, flush=True)


def log_of(name):
    """Returns the file that has what a part prints, or the build of what a part needs."""
    return os.path.relpath(f"{LOGS}/{name.replace('/', '-')}.log")


class Part:
    """A part that runs: its commands, and its file."""

    def __init__(self, name):
        self.log = log_of(name)
        with open(self.log, "w", encoding="utf-8"):
            pass

    def run(self, *words, **how):
        """Runs a command, and returns its status and what it printed, errors last."""
        try:
            status, printed = watched.run(words, **{"cwd": TOP, **how})
        except watched.Hung as hung:
            self.note(f"{hung.printed}{hung}\n")
            raise
        self.note(printed)
        return status, printed

    def counted(self, *words, **how):
        """Runs a command whose last line counts, and returns how many passed and failed, and what it printed."""
        return counted(*self.run(*words, **how))

    def note(self, text):
        with open(self.log, "a", encoding="utf-8") as it:
            it.write(text)


def counted(status, printed, pattern=r"(\d+) passed[,;] (\d+) failed"):
    """Returns how many passed and failed, by the lines of a runner. One that ends ill with no failure counts as one."""
    found = re.findall(pattern, printed)
    passed, failed = (sum(int(it[at]) for it in found) for at in (0, 1))
    if status and not failed or not found:
        failed += 1
    return passed, failed, printed


def limited(seconds, *words):
    """Returns a command each of whose processes is ended (SIGXCPU) after so many seconds of processor time."""
    return ["sh", "-c", f'ulimit -S -t {seconds} && exec "$@"', "sh", *words]


def generated(part):
    ran = [
        part.run(sys.executable, "tools/generate", "--check", "errors"),
        part.run(sys.executable, "tools/generate", "--check", "shapes"),
        part.run(sys.executable, "tools/generate", "--check", "commands"),
        part.run(sys.executable, "tools/generate", "--check", "manual"),
        part.run(sys.executable, "tools/promised.py"),
        part.run(sys.executable, "tools/generate", "--check", "speeds"),
        part.run(sys.executable, "tools/prose.py", "--check"),
        part.run("sh", "crates/odht_c/exports/statuses.sh"),
        part.run("sh", "examples/quoted.sh"),
    ]
    if kit.folder():
        ran.append(part.run(sys.executable, "tools/formatted.py"))
    faults = [printed for status, printed in ran if status]
    passed, failed, printed = part.counted(sys.executable, "tests/rust.py", "current")
    return len(ran) - len(faults) + passed, len(faults) + failed, "".join([*faults, printed] if failed else faults)


def vectors(part, built=BUILT):
    folder = f"{TOP}/crates/odht_vectors"
    with open(f"{folder}/args", encoding="utf-8") as it:
        words = it.read().split()
    status, printed = part.run(f"{built}/odht_vectors", *words, cwd=f"{folder}/data")
    passed, failed, _ = counted(status, printed, r"(\d+) cases held, (\d+) did not")
    with open(f"{folder}/stdout", encoding="utf-8") as it:
        if printed != it.read():
            failed, printed = max(failed, 1), f"{printed}\nthis is not what {folder}/stdout has"
    return passed, failed, printed


def tests_in_rattle(part, search="by_lanes"):
    words = [f"{unproved.KIT}/bin/rattle-test", "--seconds", str(NEVER), "--filter", f"{search}::"]
    passed, failed, printed = part.counted(*limited(TEST_IN_RATTLE, *words, f"{BUILT}/{IN_RATTLE}"))
    return passed, failed if passed else 1, printed


def with_word_search(part):
    ran = [vectors(part, WORD), tests_in_rattle(part, "by_words")]
    passed, failed = (sum(it[at] for it in ran) for at in (0, 1))
    return passed, failed, "\n".join(printed for _, failures, printed in ran if failures)


def script(*words):
    """Returns the call of a part that is a program in Python."""
    return lambda part: part.counted(sys.executable, *words)


def calls_for_c(part):
    return part.counted("sh", "tests/c/run.sh", f"{BUILT}/libodht.a", env={**os.environ, "OBJECTS": rust.OBJECTS})


def crate_for_rust(part):
    # these two are of other parts
    names = [it for it in rust.TESTS if it not in ("current", "beside")]
    return part.counted(sys.executable, "tests/rust.py", *names)


def crate_beside_the_archive(part):
    return part.counted(sys.executable, "tests/rust.py", "beside", env={**os.environ, "ODHT_LIB_DIR": BUILT})


def program_of_the_kit(part):
    tool = f"{BUILT}/odht_tool"
    names = ("sizes", "objects", "lines", "progress", "live", "large", "few_lines", "together", "pairs", "stored",
             "evidence", "random_files", "examples", "toolchain")
    runs = [["tests/cases.py", tool, "tests/tool"], *([f"tests/{it}.py", tool] for it in names)]
    # some of them mostly wait
    ran = watched.run_at_once(4, runs, lambda words: part.run(sys.executable, *words))
    return counted(max(status for status, _ in ran), "".join(printed for _, printed in ran))


def program_of_erased_source(part):
    # it ends first in any case
    return part.counted("nice", "-n", "5", sys.executable, "tests/cli.py")


def both_programs(part):
    return part.counted(sys.executable, "tests/cli.py", "beside", f"{BUILT}/odht_tool")


def program_of_plain_rust(part):
    return part.counted(sys.executable, "tests/table.py", *([f"{BUILT}/odht_table"] if unproved.KIT else []))


def package_over_the_archive(part):
    status, _ = part.run("cargo", "--version")
    if status:
        return 0, 0, "there is no cargo here"
    how = {"cwd": f"{TOP}/bindings/rust"}
    how["env"] = {**os.environ, "ODHT_LIB_DIR": BUILT, "CARGO_TARGET_DIR": f"{TOP}/build/cargo-ffi"}
    return part.counted("cargo", "test", "--quiet", "--offline", **how)


# each part, what it needs, and its call; those that take longest first
PARTS = {
    "calls": (["libodht.a"], calls_for_c),
    "rust": ([], crate_for_rust),
    "beside": (["libodht.a"] if unproved.KIT else [], crate_beside_the_archive),
    "ffi": (["libodht.a"], package_over_the_archive),
    "rattle": ([IN_RATTLE], tests_in_rattle),
    "vectors": (["odht_vectors"], vectors),
    "word": ([IN_RATTLE, "word/odht_vectors"], with_word_search),
    "memory": (["odht_memory", "odht_table", "odht_tool"], script("tests/memory.py", BUILT)),
    "tool": (["odht_tool"], program_of_the_kit),
    "cli": ([], program_of_erased_source),
    "both": (["odht_tool"], both_programs),
    "script": (["odht_table"], script("tests/cases.py", f"{BUILT}/odht_table", "tests/script")),
    "table": (["odht_table"] if unproved.KIT else [], program_of_plain_rust),
    "edits": ([], script("tools/edits.py", "check")),
    "runner": ([], script("tests/planted.py")),
    "watch": ([], script("tests/hangs.py")),
    "bench": ([], script("tests/figures.py")),
    "manual": ([], script("tests/manual.py")),
    "generated": ([], generated),
}


def build(name, together):
    """Builds what a part needs. Returns whether it was built anew."""
    return together.build(name) if name in PROGRAMS else unproved.build(BUILT, name)


def built(name, together):
    """Builds what a part needs. Returns whether it is there."""
    say(f"build {name}: begins")
    began, before = time.monotonic(), watched.processor_time()
    try:
        is_new = build(name, together)
    except unproved.BuildError as error:
        Part(f"build-{name}").note(f"{error}\n")
        say(f"build {name}: FAILED\n{error}")
        return False
    say(f"build {name}: {times_since(began, before)}{'' if is_new else ', it is current'}")
    return True


def times_since(began, before):
    """Returns the text of how long something took, by the clock and of processor time."""
    return f"{time.monotonic() - began:.0f} s, {watched.processor_time() - before:.0f} s of processors"


def told_as_ended(part, name, hung):
    """Says that a part hung. Returns that none passed and one failed, and what is said of it at the end."""
    say(f"{hung.printed.rstrip()}\n{name}: {hung}")
    return 0, 1, f"{name}: {hung}; {part.log}"


def ended(name, needs, call):
    """Runs a part. Returns how many passed and failed, and, where one failed, what is said of it at the end."""
    lost = [it for it, is_there in needs.items() if not is_there.result()]
    if lost:
        told = f"{name}: FAILED: it could not be built"
        say(told)
        return 0, 1, f"{told}; {', '.join(log_of(f'build-{it}') for it in lost)}"
    say(f"{name}: begins")
    part, began, before = Part(name), time.monotonic(), watched.processor_time()
    try:
        passed, failed, printed = call(part)
    except watched.Hung as hung:
        return told_as_ended(part, name, hung)
    if failed:
        say(printed.rstrip())
    elif "SKIPPED " in printed:
        say("\n".join(line for line in printed.splitlines() if line.startswith("SKIPPED ")))
    say(f"{name}: {passed} passed, {failed} failed; {times_since(began, before)}")
    return passed, failed, f"{name}: {failed} FAILED; {part.log}" if failed else ""


def run_parts(parts):
    """Builds what the parts need, and runs each as soon as that is there. Returns what `ended` does, of each."""
    needed = dict.fromkeys(name for needs, _ in parts.values() for name in needs)
    lanes = len(os.sched_getaffinity(0))
    together = programs_together.Together(BUILT, [it for it in PROGRAMS if it in needed])
    # one of the programs has all of them lowered, and the others wait for it
    lanes += max(len(together.names) - 1, 0)
    with ThreadPoolExecutor(lanes) as builders, ThreadPoolExecutor(len(parts)) as runners:
        ready = {it: builders.submit(built, it, together) for it in needed}
        running = [
            runners.submit(ended, part, {it: ready[it] for it in needs}, call) for part, (needs, call) in parts.items()
        ]
        return [it.result() for it in running]


def chosen(names):
    """Returns the parts to run, and the names of those that are left out since there is no kit."""
    unknown = [it for it in names if it not in PARTS]
    if unknown:
        sys.exit(f"no part is named {unknown[0]!r}; there are {', '.join(PARTS)}")
    parts = {it: PARTS[it] for it in PARTS if not names or it in names}
    needing = [it for it, (needs, _) in parts.items() if needs]
    if needing and names:
        kit.need()
    if not needing or shutil.which("rt"):
        return parts, []
    return {it: parts[it] for it in parts if it not in needing}, needing


def tell_left_out(names):
    """Says which parts were left out."""
    if names:
        print("left out, because there is no kit of Rattle (`rt`) here:")
        print(f"    the parts {', '.join(names)}, which need a build by it; the head of tests/run.py describes them")
        print("    in beside and table the comparison with such a build")


def total():
    """Returns the text of the processor time of all that ran."""
    used = [resource.getrusage(it) for it in (resource.RUSAGE_SELF, resource.RUSAGE_CHILDREN)]
    return f"processor time: {sum(it.ru_utime + it.ru_stime for it in used) / 60:.1f} minutes"


def main(*names):
    parts, left_out = chosen(names)
    os.makedirs(BUILT, exist_ok=True)
    os.makedirs(LOGS, exist_ok=True)
    # all temporary files of the parts too, which are killed where they do not end
    with tempfile.TemporaryDirectory(prefix="odht-test-") as room:
        watched.end_on_signals()
        os.chmod(room, 0o755)
        os.environ["TMPDIR"] = tempfile.tempdir = room
        ran = run_parts(parts)
    print("".join(f"{told}\n" for _, _, told in ran if told), end="")
    print(total())
    tell_left_out(left_out)
    passed, failed = (sum(it[at] for it in ran) for at in (0, 1))
    print(f"{passed} passed, {failed} failed")
    return 1 if failed else 0


if __name__ == "__main__":
    sys.exit(main(*sys.argv[1:]))
