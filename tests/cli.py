#!/usr/bin/env python3
"""Tests the program `odht` of erased source (rust/cli), which cargo builds and installs, without the kit of Rattle.

  tests/cli.py [PROGRAM]     PROGRAM is one that is built already
  tests/cli.py beside TOOL   only compares it with TOOL, the program as the kit compiles it, by tests/beside.py

It has no warning and passes its own tests; `make install-tool` puts a program in place and `make uninstall-tool`
removes it; all cases of tests/tool go on it; each of its calls for a file fails in turn (tests/stored.py); and each
request for memory of each command fails in turn, from the first buffer on: the program then says that it is out of
memory, and returns 1 or 2, and the file is as it was. The last line counts.
"""
import filecmp
import os
import re
import resource
import shutil
import sys
import tempfile

HERE = os.path.dirname(os.path.realpath(__file__))
TOP = os.path.dirname(HERE)
sys.path[:0] = [f"{TOP}/tools", f"{TOP}/tools/generate/commands"]
import command_list
import watched

TABLES = f"{TOP}/crates/odht_tool/data"
# lines of a table that grows twice, the keys in an order of their own
LINES = "".join(f"{key * 7919 % 100003}\t{key}\n" for key in range(2000)).encode()
LISTED = command_list.read()[0]
# each command, and its input, which is the table where it is None; the file is the table of two pairs, or is made
COMMANDS = [([it.name, "table"], b"") for it in LISTED if it.is_reading and it.is_of_files]
COMMANDS += [
    (["dump", "-"], None),
    *(([it, "table", "--json"], b"") for it in ("info", "check", "find", "keys", "dump")),
    (["dump", "table", "--values", "-0"], b""),
    *((["put", "table", *it], b"") for it in (["1", "2", "7", "8"], ["1", "x"])),
    *((["get", "table", it, "--json"], b"3\n7\n") for it in ("3", "-")),
    (["count", "table", "-"], None),
    (["diff", "table", "-"], None),
    (["get", "table", "3", "7"], b""),
    (["get", "table", "x"], b""),
    (["get", "table", "-"], LINES.replace(b"\t", b"\n")),
    (["put", "table"], LINES),
    (["rebuild", "table", "--percent", "50"], b""),
    (["delete", "table", *map(str, range(40))], b""),
    (["delete", "table", "-"], b"".join(b"%d\n" % it for it in range(10))),
    (["delete", "other", "-"], b"000000\n0a0b0c\n"),
    (["merge", "made", "table", "-", "table"], None),
    (["merge", "-", "other", "other", "--duplicates", "first"], b""),
    (["merge", "table", "table", "table", "--duplicates", "error"], b""),
    (["build", "made", "--key", "u64", "--value", "u32"], LINES),
    (["build", "-", "--key", "hex32", "--value", "none"], b"00" * 32 + b"\n"),
    (["build", "made", "--key", "u64", "--value", "u32", "--duplicates", "first"], LINES),
    (["build", "made", "--key", "u64", "--value", "u32", "--duplicates", "error"], b"1\t2\n1\t3\n"),
    (["build", "made", "--key", "u64", "--value", "u32", "--delimiter", ","], LINES.replace(b"\t", b",")),
    (["build", "made", "--key", "u64", "--value", "u32", "--delimiter", ","], b"1\t2\n"),
    (["build", "made", "--key", "u64", "--value", "u32", "--check-only"], b"1\t2\nx\t2\n"),
    (["build", "made", "--key", "hex3", "--value", "hex5", "--duplicates", "first"],
     b"".join(b"%06x\t0102030405\n" % it for it in range(40))),
    (["get", "other", "000000", "0a0b0c"], b""),
    (["get", "other", "-"], b"000000\n"),
    (["put", "other"], b"0a0b0c\t0102030405\n"),
    (["build", "made", "--key", "hex3", "--value", "hex5"], b"".join(b"%06x\t0102030405\n" % it for it in range(40))),
]
# what `make install-tool` puts below its prefix beside the program, and the file of packaging that it is
BESIDE_TOOL = {
    "share/man/man1/odht.1": "odht.1",
    "share/bash-completion/completions/odht": "completions/odht.bash",
    "share/zsh/site-functions/_odht": "completions/_odht",
    "share/fish/vendor_completions.d/odht.fish": "completions/odht.fish",
}
# more requests than any of these makes
MOST = 60
# of processor time, for one run
SECONDS = 60


class Failed(Exception):
    """A test that failed, with what was printed."""


def run(*words, **variables):
    """Runs a command that must succeed, and returns what it printed."""
    status, printed = watched.run(words, limit=None, cwd=TOP, env={**os.environ, **variables})
    if status:
        raise Failed(f"{' '.join(words)}\n{printed}")
    return printed


CARGO = {"CARGO_TARGET_DIR": f"{TOP}/build/cargo-cli", "CARGO_TERM_COLOR": "never"}
QUIET = ["--quiet", "--offline"]


def installed(room):
    """Builds and installs the program, and returns its file and what was printed."""
    printed = run("cargo", "install", *QUIET, "--path", "rust/cli", "--root", room, **CARGO)
    return f"{room}/bin/odht", printed


def tested(room):
    """Builds, tests and installs the program, and returns its file and how many tests passed."""
    told = run("cargo", "test", *QUIET, "--manifest-path", "rust/cli/Cargo.toml", **CARGO)
    program, printed = installed(room)
    if "warning" in told + printed:
        raise Failed(f"a warning:\n{told}{printed}")
    passed = sum(int(it) for it in re.findall(r"test result: ok\. (\d+) passed", told))
    return program, passed + 1 + put_in_place(room)


def put_in_place(room):
    """Returns how many tests passed of `make install-tool`, which takes the program that is there."""
    if not shutil.which("make"):
        print("SKIPPED there is no make here")
        return 0
    below = [f"DESTDIR={room}/packed", "PREFIX=/usr"]
    run("make", "--silent", "install-tool", *below)
    if not run(f"{room}/packed/usr/bin/odht", "--version").startswith("odht "):
        raise Failed("what make install-tool put in place is another program")
    for name, source in BESIDE_TOOL.items():
        if not os.path.isfile(f"{room}/packed/usr/{name}") or not filecmp.cmp(
                f"{room}/packed/usr/{name}", f"{TOP}/packaging/{source}", shallow=False):
            raise Failed(f"make install-tool did not put {source} in place as {name}")
    run("make", "--silent", "uninstall-tool", *below)
    left = [f"{folder}/{name}" for folder, _, names in os.walk(f"{room}/packed") for name in names]
    if left:
        raise Failed(f"make uninstall-tool left {', '.join(left)}")
    return 3


def files_in(room):
    found = {}
    for name in os.listdir(room):
        with open(f"{room}/{name}", "rb") as it:
            found[name] = it.read()
    return found


def run_failing(words, given, request, preloaded):
    """Runs the program with its request of this number failing. Returns how it ended, and how many it made."""
    with tempfile.TemporaryDirectory() as room:
        os.mkdir(f"{room}/files")
        shutil.copy(f"{TABLES}/u64_u32.odht", f"{room}/files/table")
        shutil.copy(f"{TABLES}/odd_sizes.odht", f"{room}/files/other")
        before = files_in(f"{room}/files")
        given = before["table"] if given is None else given
        env = {**os.environ, "LD_PRELOAD": preloaded, "ODHT_FAIL_REQUEST": str(request)}
        env["ODHT_REQUESTS"] = f"{room}/requests"
        ran = watched.run_limited(words, SECONDS, given, env=env, cwd=f"{room}/files")
        if not os.path.exists(f"{room}/requests"):
            raise Failed(f"{' '.join(words)}: request {request} fails: status {ran.returncode}\n{ran.stderr.decode()}")
        with open(f"{room}/requests", encoding="utf-8") as it:
            made = int(it.read())
        return (ran.returncode, ran.stderr.decode(), files_in(f"{room}/files") == before), made


def memory(program, room):
    """Returns how many requests failed as they must, of all commands."""
    missing = {it.name for it in LISTED} - {words[0] for words, _ in COMMANDS}
    if missing:
        raise Failed(f"no request for memory fails of {', '.join(sorted(missing))}")
    if not shutil.which("cc"):
        print("SKIPPED there is no cc here, so no request for memory fails")
        return 0
    preloaded = f"{room}/preloaded.so"
    run("cc", "-shared", "-fPIC", "-O1", "-o", preloaded, "tests/memory/preloaded.c", "-ldl")
    passed = 0
    # what is ended leaves no file of its memory
    resource.setrlimit(resource.RLIMIT_CORE, (0, 0))
    for command, given in COMMANDS:
        for request in range(1, MOST):
            (status, errors, is_kept), made = run_failing([program, *command], given, request, preloaded)
            if made < request:
                break
            # 2 where 1 is an answer of the command, and where its words were not read
            is_failed = status == 2 or status == 1 and command[0] not in ("get", "delete", "diff")
            if not is_failed or not errors.endswith("out of memory\n") or not is_kept:
                kept = "" if is_kept else ", and the files are others"
                raise Failed(f"{' '.join(command)}: request {request} fails: status {status}{kept}\n{errors}")
            passed += 1
        if made < 2 or request == MOST - 1:
            raise Failed(f"{' '.join(command)}: {made} requests")
    return passed


def all_tests(words, room):
    """Returns how many tests of the program passed so far, and the commands of the others."""
    program, passed = (os.path.abspath(words[0]), 0) if words else tested(room)
    passed += memory(program, room)
    runs = [["tests/cases.py", program, "made=erased", "tests/tool"]]
    names = ("sizes", "objects", "lines", "progress", "live", "large", "few_lines", "together", "pairs", "stored",
             "mixing", "evidence", "random_files", "examples", "toolchain")
    return passed, runs + [[f"tests/{it}.py", program] for it in names]


def main(*words):
    watched.end_on_signals()
    if not (words and words[0] != "beside") and not shutil.which("cargo"):
        print("there is no cargo here\n0 passed, 0 failed")
        return 0
    with tempfile.TemporaryDirectory(prefix="odht-cli-") as room:
        try:
            if words[:1] == ("beside",):
                passed, runs = 0, [["tests/beside.py", os.path.abspath(words[1]), installed(room)[0]]]
            else:
                passed, runs = all_tests(words, room)
        except Failed as what:
            print(f"FAILED {what}\n0 passed, 1 failed")
            return 1
        failed = 0
        # some of them mostly wait
        ran = watched.run_at_once(4, runs, lambda words: watched.run([sys.executable, *words], cwd=TOP))
        for status, printed in ran:
            found = re.search(r"(\d+) passed, (\d+) failed\n$", printed)
            print(printed[: found.start()] if found else printed, end="")
            passed += int(found[1]) if found else 0
            failed += max(int(found[2]) if found else 1, int(status != 0))
    print(f"{passed} passed, {failed} failed")
    return 1 if failed else 0


if __name__ == "__main__":
    sys.exit(main(*sys.argv[1:]))
