#!/usr/bin/env python3
"""Checks that the documents name what the source has.

  tools/promised.py    prints a line for each fault; status 1 if there is one

- Each name in backquotes in docs/PROOFS.md is a function, a type, a definition, a crate, a file or a command. Names in
  brackets after a function are its clauses: `HashTable::insert` (`on_valid.full`) is the field `full` of the record in
  the clause `on_valid`, `HashTable::get` (`on_any`) the field of the record in the one clause without a name.
- docs/ARCHITECTURE.md names each folder.
- Each file of the code begins with a sentence.
"""
import glob
import os
import re
import subprocess
import sys

TOP = os.path.dirname(os.path.dirname(os.path.realpath(__file__)))
FUNCTION = re.compile(r"^( *)(?:pub(?:\([^)]*\))? )?(?:const )?(?:final )?(?:unsafe )?(?:extern \"C\" )?fn (\w+)")
TYPE = re.compile(r"^ *(?:pub(?:\([^)]*\))? )?(?:struct|enum|trait|const|type|mod|macro_rules!) (\w+)", re.M)
CLAUSE = re.compile(r"^(?:requires|ensures)\*? *(\w*) *\{")
DEFINITION = re.compile(r"^ *(?:pub )?(?:abbrev|unfoldable|record|data) (?:pub )?([\w-]+)")
FIELD = re.compile(r"^  +pub (\w+) :")
WORD = re.compile(r"[\w-]+")
# names in brackets, with the function right before them if there is one; or a name
NAMED = re.compile(r"(?:`([^`]+)` )?\((`[^`]+`(?:, `[^`]+`)*)\)|`([^`]+)`")
COMMANDS = ("make", "rt", "odht", "cargo", "python3", "sed", "cd", "cat", "Handles")
# names of std, and words of a contract
OF_STD = {"Read", "BufRead", "Write", "requires", "ensures"}
CODE = (".rt", ".rs", ".py", ".c", ".h", ".hpp", ".sh")
# what is generated, or no part of the library and its tests
LEFT_OUT = re.compile(r".*/generated/|rust/examples/|crates/odht_c/exports/|examples/|include/")
BUILT = {"build", "out", "target", "__pycache__"}


def read(name):
    with open(f"{TOP}/{name}", encoding="utf-8") as it:
        return it.read()


def files_here():
    """Returns the files of the repository; in a copy without git, all that is not built."""
    words = ["git", "-C", TOP, "ls-files", "--cached", "--others", "--exclude-standard"]
    if os.path.exists(f"{TOP}/.git"):
        found = subprocess.run(words, check=True, capture_output=True, text=True).stdout.split("\n")
    else:
        walked = ((at, names) for at, _, names in os.walk(TOP) if not BUILT & set(at.split("/")))
        found = [os.path.relpath(f"{at}/{name}", TOP) for at, names in walked for name in names]
    return sorted({it for it in found if it and os.path.exists(f"{TOP}/{it}")})


class Source:
    """The functions of the crates with their clauses, the definitions with their fields, and all other names."""

    def __init__(self, files):
        self.functions, self.definitions, self.names = [], {}, set(OF_STD)
        for file in files:
            if re.match(r"crates/\w+/src/.*\.rt$", file):
                self.read_functions(file)
            if re.match(r"crates/\w+/specs/.*\.antt$", file):
                self.read_definitions(file)
                self.names.add(os.path.basename(file).removesuffix(".antt"))
        self.names |= set(re.findall(r"^(\w+)", read("crates.txt"), re.M))
        self.names |= set(re.findall(r"\bodht_\w+", read("include/odht.h")))
        self.names |= set(re.findall(r"^\w+", read("lists/errors.txt"), re.M))

    def read_functions(self, file):
        text = read(file)
        self.names |= set(TYPE.findall(text))
        places = set(file.removeprefix("crates/").removesuffix(".rt").split("/")) - {"src"}
        lines, owners = text.split("\n"), set()
        for at, line in enumerate(lines):
            if re.match(r"(?:pub )?(?:impl|trait)\b", line):
                owners = owners_of(" ".join(lines[at : at + 6]))
            elif line == "}":
                owners = set()
            begins = FUNCTION.match(line)
            if begins:
                self.functions.append((begins[2], places | owners, clauses_of(lines, at, begins[1])))

    def read_definitions(self, file):
        name = None
        for line in read(file).split("\n"):
            begins = DEFINITION.match(line)
            name = begins[1] if begins else name
            if name and not line.startswith("--"):
                text, fields = self.definitions.get(name, ("", {}))
                field = FIELD.match(line)
                fields |= {field[1]: line.partition(":")[2]} if field else {}
                self.definitions[name] = f"{text} {line}", fields

    def records_in(self, text):
        """Returns the fields of the records that a text cites, also by abbreviations."""
        left, seen, fields = WORD.findall(text), set(), {}
        while left:
            word = left.pop()
            if word in self.definitions and word not in seen:
                seen.add(word)
                body, own = self.definitions[word]
                for name, content in own.items():
                    fields[name] = f"{fields.get(name, '')} {content}"
                left += [] if own else WORD.findall(body)
        return fields

    def has_clause(self, clauses, path):
        """Whether a contract has such a clause: its name, fields of records, or both."""
        text = " ".join(clauses.values())
        for at, part in enumerate(path.split(".")):
            fields = self.records_in(text)
            if at == 0 and part in clauses:
                text = clauses[part]
            elif part in fields:
                text = fields[part]
            else:
                return False
        return True

    def functions_named(self, name):
        *owners, last = name.split("::")
        return [clauses for its, places, clauses in self.functions if its == last and places.issuperset(owners)]

    def is_known(self, name):
        """Whether a name that is no function is one of the source."""
        first, _, field = name.partition(".")
        if name.split()[0] in COMMANDS or name.startswith("--") or glob.glob(f"{TOP}/{name}"):
            return True
        if field and first in self.definitions:
            return field in self.definitions[first][1]
        if "*" in name:
            return any(it in self.names for it in (name.replace("*", "u64_u32"), name.replace("*", "any")))
        return set(name.split("::")) <= self.names or first in self.definitions


def owners_of(text):
    """Returns the type and the trait of an `impl` or a trait."""
    text = re.sub(r"->", "", text.partition(" {")[0].partition(" where")[0])
    while "<" in text:
        text, before = re.sub(r"<[^<>]*>", "", text), text
        if text == before:
            break
    return set(WORD.findall(text)) - {"pub", "impl", "trait", "for", "mut"}


def clauses_of(lines, at, indent):
    """Returns the clauses of a function by their names."""
    found, name, depth = {}, None, 0
    for line in lines[at:]:
        if line in (f"{indent}{{", f"{indent}{{}}", f"{indent}}}"):
            break
        begins = CLAUSE.match(line.strip())
        if begins:
            name = begins[1] or f"clause {len(found)}"
            found[name] = ""
        if name and not line.strip().startswith("//"):
            found[name] += f" {line.strip()}"
        depth += line.count("{") - line.count("}")
        if line.endswith(";") and depth == 0 or not name and line.endswith(" {") and line.startswith(f"{indent}p"):
            break
    return found


def faults_of_proofs(source):
    """Gives a line for each name of docs/PROOFS.md that the source does not have."""
    text = re.sub(r"^(?:```.*?^```|    .*?)$", "", read("docs/PROOFS.md"), flags=re.M | re.S)
    last = ""
    for before, clauses, name in NAMED.findall(" ".join(text.split())):
        named = before or name
        if source.functions_named(named):
            last = named
        elif named and not source.is_known(named):
            yield f"docs/PROOFS.md: `{named}` is no name of the source"
        for path in re.findall(r"`([^`]+)`", clauses):
            is_clause = any(source.has_clause(it, path) for it in source.functions_named(last))
            # right after a function only its clauses stand, and records
            is_named = source.is_known(path) and (last != before or path[0].isupper())
            is_function = last != before and source.functions_named(path)
            if not (is_clause or is_named or is_function):
                yield f"docs/PROOFS.md: `{last}` has no clause `{path}`"


def has_sentence(file):
    """Whether a file begins with a comment that says what it has."""
    text = read(file)
    marks = {".rt": r"//! ", ".rs": r"//! ", ".py": r'(?:#!.*\n)?"""', ".sh": r"(?:#!.*\n)?(?:\n)*# "}
    return file.endswith(("lib.rt", "lib.rs")) or re.search(marks.get(os.path.splitext(file)[1], r"/\*"), text[:400])


def folders_of(files):
    """Returns the folders at the top, and those of crates, rust, tools and tests."""
    found = {it.split("/")[0] for it in files if "/" in it and not it.startswith(".")}
    for parent in ("crates", "rust", "tools", "tests"):
        found |= {it.split("/")[1] for it in files if it.startswith(f"{parent}/") and it.count("/") > 1}
    return found


def main():
    files = files_here()
    faults = list(faults_of_proofs(Source(files)))
    named = set(re.findall(r"[\w.]+", read("docs/ARCHITECTURE.md")))
    faults += [f"{it}/: docs/ARCHITECTURE.md does not name it" for it in sorted(folders_of(files) - named)]
    code = [it for it in files if it.endswith(CODE) and not LEFT_OUT.match(it)]
    faults += [f"{it}: it begins with no sentence" for it in code if not has_sentence(it)]
    print("".join(f"{it}\n" for it in faults), end="")
    return 1 if faults else 0


if __name__ == "__main__":
    sys.exit(main())
