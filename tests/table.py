#!/usr/bin/env python3
"""Tests the script program of plain Rust (rust/table), which cargo builds, and `make run`.

  tests/table.py [PROGRAM]     PROGRAM is the same program as the kit compiles it

All cases of tests/script go on it. In a copy of the sources and without the kit `make run` prints what README shows. It
builds the program once, and again only after a change of a source. With PROGRAM, `make run` of this repository prints
the same by the kit. The last line counts.
"""
import os
import re
import shutil
import sys
import tempfile

TOP = os.path.dirname(os.path.dirname(os.path.realpath(__file__)))
sys.path.insert(0, f"{TOP}/tools")
import script_program
import watched

# what `make run` needs of the repository, without the kit
NEEDED = ["Makefile", "packaging", "tools", "examples/first.script", *script_program.PLAIN_SOURCES]
BY_CARGO = "odht_table: built by cargo from the plain-Rust sources, not proved\n"
BY_KIT = "odht_table: built by the kit, without proofs\n"
BUILDS = "odht_table: cargo builds it"


class Failed(Exception):
    """A test that failed, with what was printed."""


def read(path):
    with open(f"{TOP}/{path}", encoding="utf-8") as it:
        return it.read()


def wanted_of_first_script():
    """Returns what the first script prints, by what the gate wants of crates/odht_table/stdin."""
    answers = dict(zip(read("crates/odht_table/stdin").splitlines(), read("crates/odht_table/stdout").splitlines()))
    return "".join(f"{answers[line]}\n" for line in read("examples/first.script").splitlines())


def is_shown(wanted):
    """Sees that README shows the script and what it prints, of which it may cut the end of a line at `...`."""
    text = read("README.md")
    block = r"^    \$ cat examples/first\.script\n((?:    .*\n)+?)    \$ make run\n((?:    .*\n)+)"
    shown = re.search(block, text, re.M)
    if not shown:
        raise Failed("README has no block of `cat examples/first.script` and `make run`")
    script, printed = (re.sub("^    ", "", it, flags=re.M) for it in shown.groups())
    pattern = re.escape(printed).replace(re.escape("..."), ".*")
    if script != read("examples/first.script") or not re.fullmatch(pattern, wanted):
        raise Failed(f"README shows another script or other lines than\n{wanted}")


def run(folder, path, *words):
    """Runs `make run`, and returns what it printed, errors last."""
    status, printed = watched.run(["make", "--silent", "run", *words], cwd=folder, env={**os.environ, "PATH": path})
    if status:
        raise Failed(f"make run returned {status}\n{printed}")
    return printed


def path_without_kit(room):
    """Returns the PATH with each folder that has `rt` replaced by links to all else in it."""
    folders = []
    for folder in os.environ["PATH"].split(":"):
        if os.path.exists(f"{folder}/rt"):
            links = f"{room}/links{len(folders)}"
            os.mkdir(links)
            for name in set(os.listdir(folder)) - {"rt"}:
                os.symlink(f"{folder}/{name}", f"{links}/{name}")
            folder = links
        folders.append(folder)
    return ":".join(folders)


def copied(room):
    """Copies what `make run` needs into a folder, and returns it."""
    for path in NEEDED:
        to = f"{room}/copy/{path}"
        os.makedirs(os.path.dirname(to), exist_ok=True)
        if os.path.isdir(f"{TOP}/{path}"):
            shutil.copytree(f"{TOP}/{path}", to)
        else:
            shutil.copy(f"{TOP}/{path}", to)
    # the Makefile lists the files in it
    os.symlink(f"{TOP}/crates", f"{room}/copy/crates")
    return f"{room}/copy"


def is_right(name, found, wanted):
    if found != wanted:
        raise Failed(f"{name} printed\n{found}and not\n{wanted}")


def kept(room, first):
    """Tests that `make run` without the kit builds once, and again for a changed source. Returns how many passed."""
    path, folder = path_without_kit(room), copied(room)
    printed = run(folder, path)
    if BUILDS not in printed or not printed.startswith(first) or not printed.endswith(BY_CARGO):
        raise Failed(f"the first run printed\n{printed}")
    is_right("the second run", run(folder, path), first + BY_CARGO)
    is_right("another script", run(folder, path, "SCRIPT=crates/odht_table/stdin"),
             read("crates/odht_table/stdout") + BY_CARGO)
    source = f"{folder}/rust/table/src/generated/table/script.rs"
    os.utime(source)
    is_right("a run after a touched source", run(folder, path), first + BY_CARGO)
    with open(source, encoding="utf-8") as it:
        text = it.read()
    with open(source, "w", encoding="utf-8") as it:
        it.write(text.replace('b"none\\n"', 'b"new\\n"'))
    printed = run(folder, path)
    if BUILDS not in printed or not printed.startswith(first.replace("none", "new")):
        raise Failed(f"a run after a change printed\n{printed}")
    return 5


def main(*words):
    watched.end_on_signals()
    if not shutil.which("cargo") or not shutil.which("make"):
        print("there is no cargo here, or no make\n0 passed, 0 failed")
        return 0
    program, first = script_program.build_plain(), wanted_of_first_script()
    passed, failed = 0, 0
    with tempfile.TemporaryDirectory(prefix="odht-table-") as room:
        try:
            is_shown(first)
            passed += 1 + kept(room, first)
            if words:
                is_right("`make run` by the kit", run(TOP, os.environ["PATH"]), first + BY_KIT)
                passed += 1
        except Failed as what:
            failed += 1
            print(f"FAILED {what}")
    _, printed = watched.run([sys.executable, "tests/cases.py", program, "tests/script"], cwd=TOP)
    counts = re.search(r"(\d+) passed, (\d+) failed\n$", printed)
    print(printed[: counts.start()] if counts else printed, end="")
    passed, failed = passed + int(counts[1] if counts else 0), failed + int(counts[2] if counts else 1)
    print(f"{passed} passed, {failed} failed")
    return 1 if failed else 0


if __name__ == "__main__":
    sys.exit(main(*sys.argv[1:]))
