#!/usr/bin/env python3
"""The documents that the package of the crate for Rust has too: copies in rust/docs.

  documents.py            writes them
  documents.py --check    reports those that are not current, with status 1

In a copy a link to a file that the package does not have is its text alone.
"""
import os
import re
import sys

TOP = os.path.dirname(os.path.dirname(os.path.dirname(os.path.realpath(__file__))))
NAMES = ["FORMAT.md", "DIFFERENCES.md"]
HEAD = "<!-- Generated from docs/{} of the repository by make generate. The repository has the other files that are named here. -->\n\n"


def read(file):
    with open(file, encoding="utf-8") as it:
        return it.read()


def copy_of(name):
    """Returns the text of a copy."""

    def link(found):
        text, place = found[1], found[2]
        return found[0] if place.split("#")[0] in ("", *NAMES) else text

    return HEAD.format(name) + re.sub(r"\[([^\]\n]*)\]\(([^)\s]*)\)", link, read(f"{TOP}/docs/{name}"))


def main(*words):
    if words not in ((), ("--check",)):
        sys.exit(__doc__)
    wrong = 0
    for name in NAMES:
        file = f"{TOP}/rust/docs/{name}"
        if not words:
            os.makedirs(os.path.dirname(file), exist_ok=True)
            with open(file, "w", encoding="utf-8") as it:
                it.write(copy_of(name))
        elif not os.path.exists(file) or read(file) != copy_of(name):
            print(f"not current: rust/docs/{name}: run make generate")
            wrong = 1
    return wrong


if __name__ == "__main__":
    sys.exit(main(*sys.argv[1:]))
