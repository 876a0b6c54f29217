#!/usr/bin/env python3
"""Checks that each file of the crates has the layout that `rt fmt` gives it, without which the gate refuses its crate.

  tools/formatted.py    prints a line for each file that has another layout; status 1 if there is one
"""
import glob
import os
import subprocess
import sys

import kit

TOP = os.path.dirname(os.path.dirname(os.path.realpath(__file__)))


def main():
    kit.need()
    status = 0
    for crate in sorted(glob.glob(f"{TOP}/crates/*/")):
        found = [glob.glob(f"{folder}/**/*.{end}", root_dir=crate, recursive=True)
                 for folder in ("src", "specs", "proofs") for end in ("rt", "antt")]
        files = sorted(sum(found, []))
        words = [f"{kit.folder()}/bin/rattle", "fmt", "--check", *files]
        ran = subprocess.run(words, cwd=crate, capture_output=True, text=True)
        name = os.path.relpath(crate, TOP)
        for line in filter(None, (ran.stdout + ran.stderr).splitlines()):
            print(f"{name}/{line}: run `rt fmt` in {name}")
        status |= bool(ran.returncode)
    return status


if __name__ == "__main__":
    sys.exit(main())
