#!/usr/bin/env python3
"""Copies of the sources with the word search compiled in: one line of one file is changed. Tests and vectors that are
built with both searches have these copies under other names (`odht_raw_word`).

  tools/word_search.py FOLDER      copies the tracked files to FOLDER, which must not be there, and changes the line
"""
import os
import re
import shutil
import subprocess
import sys

TOP = os.path.dirname(os.path.dirname(os.path.realpath(__file__)))
FILE = "crates/odht_base/src/swisstable_group_query.rt"
LINES = [f"pub use {it}::{{GROUP_SIZE, GroupQuery}};\n" for it in ("lanes", "no_simd")]


# what a crate is named in a program that has both searches, and the folder of programs that have only the word search
SUFFIX, FOLDER = "_word", "word/"
# a crate of this repository in a path
CRATE = re.compile(r"\b(odht\w*)::")
# an import that names a crate in another way
USED = re.compile(r"^\s*(?:pub )?(?:use|extern crate) (?:odht\w*[ ;]|\{[^}]*\bodht\w*\b(?!::)).*", re.M)


def named_word_search(text):
    """Returns the text of the file with the line changed."""
    found = [it for it in LINES if it in text]
    if len(found) != 1 or text.count(found[0]) != 1:
        sys.exit(f"{FILE} does not have one line that says which group search is compiled in")
    if found[0] == LINES[1]:
        sys.exit(f"{FILE} names the word search already")
    return text.replace(LINES[0], LINES[1])


def renamed(text):
    """Returns a source in which each crate of this repository has its other name."""
    text = CRATE.sub(rf"\1{SUFFIX}::", text)
    left = USED.search(text)
    if left:
        sys.exit(f"this names a crate with its own search, where it was to be the word search: {left[0].strip()}")
    return text


def copy_renamed(crate, room):
    """Copies a crate under its other name, and with the word search. Returns the folder of its sources."""
    top, folder = f"{TOP}/crates/{crate}/src", f"{room}/{crate}{SUFFIX}/src"
    for place, _, names in os.walk(top):
        to = os.path.normpath(f"{folder}/{os.path.relpath(place, top)}")
        os.makedirs(to)
        for name in names:
            with open(f"{place}/{name}", encoding="utf-8") as it:
                text = renamed(it.read())
            if os.path.samefile(f"{TOP}/{FILE}", f"{place}/{name}"):
                text = named_word_search(text)
            with open(f"{to}/{name}", "w", encoding="utf-8") as it:
                it.write(text)
    return folder


def library_words(crates, room):
    """Copies these crates, each under its other name, and returns the words that pass them as libraries. `crates` has of
    each the crates that it uses, the highest first."""
    words = []
    for crate, used in crates.items():
        uses = ",".join(["core", "std", *(f"{it}{SUFFIX}" for it in used)])
        words += ["--lib", f"{crate}{SUFFIX}:{uses}={copy_renamed(crate, room)}/lib.rt"]
    return words


def copy_tracked(folder):
    """Copies the tracked files, as they are in the working tree."""
    listed = subprocess.run(["git", "ls-files", "-z"], cwd=TOP, stdout=subprocess.PIPE, check=True, text=True).stdout
    os.makedirs(folder)
    for file in filter(None, listed.split("\0")):
        if os.path.lexists(f"{TOP}/{file}"):
            os.makedirs(os.path.dirname(f"{folder}/{file}"), exist_ok=True)
            shutil.copy(f"{TOP}/{file}", f"{folder}/{file}", follow_symlinks=False)
    with open(f"{folder}/{FILE}", encoding="utf-8") as it:
        text = named_word_search(it.read())
    with open(f"{folder}/{FILE}", "w", encoding="utf-8") as it:
        it.write(text)


if __name__ == "__main__":
    if len(sys.argv) != 2:
        sys.exit(__doc__)
    copy_tracked(sys.argv[1])
