#!/usr/bin/env python3
"""Runs the script program `odht_table` on a script: `make run`. It builds the program first, without proofs.

  tools/script_program.py SCRIPT

With the kit of Rattle (`rt`) the program is built from crates/odht_table, as `make test` builds it (tools/unproved.py).
With only cargo it is built from the plain-Rust sources (rust/table). A line on standard error says which of the two it
is. The program is kept with a checksum of its sources and of the compiler's version, and is built again where that
differs.
"""
import hashlib
import os
import shutil
import subprocess
import sys

TOP = os.path.dirname(os.path.dirname(os.path.realpath(__file__)))
BUILT = f"{TOP}/build/unproved"
PLAIN = f"{TOP}/build/plain"
NAME = "odht_table"
# what cargo builds the program from
PLAIN_SOURCES = ["rust/table/Cargo.toml", "rust/table/src", "rust/src/generated", "rust/src/shim", "rust/cli/src/host",
                 "rust/cli/src/generated/core.rs", "rust/cli/src/generated/core"]


def say(text):
    print(f"{NAME}: {text}", file=sys.stderr, flush=True)


def files_below(path):
    """Returns a file, or the files below a folder in a fixed order."""
    if os.path.isfile(path):
        return [path]
    return sorted(f"{folder}/{name}" for folder, _, names in os.walk(path) for name in names)


def plain_stamp():
    """Returns a checksum of all that the plain-Rust build depends on."""
    version = subprocess.run(["rustc", "-vV"], cwd=TOP, capture_output=True, check=True).stdout
    found = hashlib.sha256(version)
    for file in [it for path in PLAIN_SOURCES for it in files_below(f"{TOP}/{path}")]:
        with open(file, "rb") as it:
            found.update(os.path.relpath(file, TOP).encode() + b"\0" + it.read())
    return found.hexdigest()


def read(file):
    if not os.path.isfile(file):
        return None
    with open(file, encoding="utf-8") as it:
        return it.read()


def build_plain():
    """Builds the program by cargo, unless it is current. Returns its path."""
    program, stamp = f"{PLAIN}/{NAME}", plain_stamp()
    if os.path.isfile(program) and read(f"{program}.stamp") == stamp:
        return program
    say("cargo builds it, in some five seconds")
    words = ["cargo", "build", "--quiet", "--release", "--offline", "--manifest-path", f"{TOP}/rust/table/Cargo.toml"]
    if subprocess.run([*words, "--target-dir", f"{TOP}/build/cargo-table"]).returncode:
        sys.exit(1)
    os.makedirs(PLAIN, exist_ok=True)
    shutil.copy(f"{TOP}/build/cargo-table/release/{NAME}", program)
    with open(f"{program}.stamp", "w", encoding="utf-8") as it:
        it.write(stamp)
    return program


def build_by_kit():
    """Builds the program by the kit, unless it is current. Returns its path."""
    import unproved

    if not unproved.is_current(BUILT, NAME):
        say("the kit builds it, in some forty seconds")
        try:
            unproved.build(BUILT, NAME)
        except unproved.BuildError as error:
            sys.exit(str(error))
    return f"{BUILT}/{NAME}"


def main(script):
    try:
        given = os.open(script, os.O_RDONLY)
    except OSError as error:
        sys.exit(f"{script}: {error.strerror}")
    if shutil.which("rt"):
        program, how = build_by_kit(), "built by the kit, without proofs"
    elif shutil.which("cargo"):
        program, how = build_plain(), "built by cargo from the plain-Rust sources, not proved"
    else:
        sys.exit("make run needs cargo, or `rt`, the command of the kit of Rattle, and there is neither here")
    say(how)
    os.dup2(given, 0)
    os.execv(program, [NAME])


if __name__ == "__main__":
    main(*sys.argv[1:])
