"""Builds several programs of crates/, and the library for C, with one run of the kit's front end.

The front end spends most of its time on the libraries that all programs share. So each program is copied as a library,
and one small program calls all of them. Each program gets from that module only the functions and constants that its
own `main` reaches, and the library for C those that its exports reach. Then it is compiled and linked as
tools/unproved.py does. A name `word/PROGRAM` is the program with the word search compiled in.
"""
import os
import re
import shutil
import tempfile
import threading

import unproved
import word_search

ROOT = "odht_programs"
HEAD = """//! Calls each program, so that each is lowered.
#![tactic(auto)]

use std::process::{ExitCode, Termination};

fn main(rt: HostRuntime) -> ExitCode {
"""
ONE = """
pub fn %s(rt: HostRuntime) -> ExitCode {
    %s::main(rt).report(&rt)
}
"""
EXPORTED = """
pub fn %s(rt: HostRuntime) {
    %s::main(rt)
}
"""
MAIN = "fn main(rt: HostRuntime)"
# a name in a module: of a function or of a constant
NAME = re.compile(r'@(?:"[^"]+"|[\w.$-]+)')
CONSTANT = re.compile(r'^(@[\w.$-]+|@"[^"]+") = [^\n]*\n', re.M)
WORD = word_search.FOLDER


def as_library(name, room):
    """Copies a program, with its `main` made public, and returns the words that pass it as a library."""
    crate, uses = name.removeprefix(WORD), unproved.crates()[name.removeprefix(WORD)]
    if name.startswith(WORD):
        folder, suffix = word_search.copy_renamed(crate, room), word_search.SUFFIX
    else:
        folder, suffix = f"{room}/{crate}/src", ""
        shutil.copytree(f"{unproved.TOP}/crates/{crate}/src", folder)
    with open(f"{folder}/main.rt", encoding="utf-8") as it:
        text = it.read()
    if text.count(f"\n{MAIN}") != 1:
        raise unproved.BuildError(f"{name}: main.rt does not have one `{MAIN}`")
    os.remove(f"{folder}/main.rt")
    with open(f"{folder}/lib.rt", "w", encoding="utf-8") as it:
        it.write(text.replace(f"\n{MAIN}", f"\npub {MAIN}"))
    used = ",".join(["core", "std", *(f"{it}{suffix}" for it in uses)])
    return ["--lib", f"{crate}{suffix}:{used}={folder}/lib.rt"]


def exports_as_library(room):
    """Copies the crate of the exports, with a public function that calls each, and returns the words that pass it."""
    crate, folder = unproved.EXPORTS, f"{room}/{unproved.EXPORTS}/src"
    shutil.copytree(f"{unproved.TOP}/crates/{crate}/src", folder)
    with open(f"{folder}/lib.rt", "a", encoding="utf-8") as it:
        it.write(unproved.calls_of_exports("pub fn main"))
    return ["--lib", f"{crate}:{','.join(['core', 'std', *unproved.crates()[crate]])}={folder}/lib.rt"]


def library_words(names, room):
    """Returns the words that pass the programs and all below them, each after what uses it."""
    words = []
    for name in names:
        words += exports_as_library(room) if name == unproved.LIBRARY else as_library(name, room)
    with_words = [it.removeprefix(WORD) for it in names if it.startswith(WORD)]
    below = {it: unproved.crates()[it] for it in unproved.crates_below(with_words)}
    others = [unproved.crates_of(it)[0] for it in names if not it.startswith(WORD)]
    return words + word_search.library_words(below, room) + unproved.words_of(unproved.crates_below(others))


def entry(name):
    return f"run_{crate_of(name)}"


def crate_of(name):
    """Returns the name of a crate in the module."""
    if name.startswith(WORD):
        return name.removeprefix(WORD) + word_search.SUFFIX
    return unproved.crates_of(name)[0]


def lowered(names, room):
    """Returns the text of one module that has all of the programs."""
    root = f"{room}/{ROOT}/src/main.rt"
    os.makedirs(os.path.dirname(root))
    calls = "".join(f"    let _ = {entry(it)}(rt);\n" for it in names)
    entries = "".join((EXPORTED if it == unproved.LIBRARY else ONE) % (entry(it), crate_of(it)) for it in names)
    with open(root, "w", encoding="utf-8") as it:
        it.write(f"{HEAD}{calls}    ExitCode::SUCCESS\n}}\n{entries}")
    os.mkdir(f"{room}/front")
    with open(unproved.lowered(ROOT, root, [], f"{room}/front", library_words(names, room)), encoding="utf-8") as it:
        return it.read()


class Module:
    """A module that has several programs, in parts: its functions and constants by their names, and the rest."""

    def __init__(self, text):
        self.parts, rest, at = {}, [], 0
        while (begin := text.find("\ndefine ", at) + 1) > 0:
            end = text.index("\n}\n", begin) + 3
            self.parts[NAME.search(text, begin)[0]] = text[begin:end]
            rest.append(text[at:begin])
            at = end
        rest = "".join([*rest, text[at:]])
        self.parts.update({it[1]: it[0] for it in CONSTANT.finditer(rest)})
        # what is declared, the attributes and the data of the module
        self.rest = CONSTANT.sub("", rest)

    def reached(self, roots, own):
        """Returns the module of what these functions and constants reach. `own` has the text of some."""
        found, waiting = {}, list(roots)
        while waiting:
            it = waiting.pop()
            if it not in found and it in self.parts:
                found[it] = own.get(it, self.parts[it])
                waiting += set(NAME.findall(found[it]))
        return "".join([self.rest, *found.values()])

    def of(self, name):
        """Returns the module of one program: its function is called in place of `main`, with what that reaches. Of the
        library it is what the exports reach."""
        if name == unproved.LIBRARY:
            return self.reached([f'@"{path}"' for path, _ in unproved.exports()], {})
        start, all_of_them = f'@"{ROOT}::main+run"', f'@"{ROOT}::main"('
        if self.parts[start].count(all_of_them) != 1:
            raise unproved.BuildError(f"{name}: the module does not call its main once")
        own = {start: self.parts[start].replace(all_of_them, f'@"{ROOT}::{entry(name)}"(')}
        return self.reached(["@main"], own)


class Together:
    """Programs that are lowered once, when the first of them is built. The other builds wait for that."""

    def __init__(self, folder, names):
        self.folder, self.names = folder, [it for it in names if not unproved.is_current(folder, it)]
        self.lock, self.module, self.failure = threading.Lock(), None, None

    def lower(self):
        """Lowers all that are not current, where more than one is not or one has the word search. Where that fails, it
        fails for each of them."""
        with self.lock, tempfile.TemporaryDirectory(prefix="together-") as room:
            if self.failure:
                raise self.failure
            if self.module is None and (len(self.names) > 1 or self.names[:1] and self.names[0].startswith(WORD)):
                try:
                    self.module = Module(lowered(self.names, room))
                except unproved.BuildError as failure:
                    self.failure = failure
                    raise

    def build(self, name):
        """Builds one of the programs. Returns whether it was built."""
        self.lower()
        if self.module is None or name not in self.names:
            return unproved.build(self.folder, name)

        def module(room):
            with open(f"{room}/module.ll", "w", encoding="utf-8") as it:
                it.write(self.module.of(name))
            return f"{room}/module.ll"

        return unproved.build(self.folder, name, module)
