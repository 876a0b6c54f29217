#!/usr/bin/env python3
"""Lists definitions, lemmas and functions that nothing uses, and the largest things of the source.

    python3 tools/unused.py          names of specs/ and proofs/ that no other line names, outside of imports
    python3 tools/unused.py sizes    the longest functions of Rattle, lines of code and files

A proof file answers the obligations of a function, so its names that begin with `returns`, `goal` or an obligation of
the prover are used by it and are left out; so is what worked examples state (proofs/examples), which is there to hold.
"""
import os
import re
import sys

NAME = r"[^\s(){}\[\];,.:\u2983\u2984`\"]+"
DECLARED = re.compile(
    r"^\s*(?:(?:unfoldable|abbrev|opaque|private|instance)\s+)*(?:pub\s+)?"
    r"(?:(?:record|data|struct|abbrev|axiom)\s+)?(?:pub\s+)?(" + NAME + r")\s*(?=[:(])")
TOKEN = re.compile(NAME)


def files(endings):
    for top in ("crates", "examples"):
        for folder, inner, names in os.walk(top):
            inner[:] = sorted(n for n in inner if n not in ("out", "target"))
            for name in sorted(names):
                if name.endswith(endings):
                    yield os.path.join(folder, name)


def without_comment(line):
    if line.lstrip().startswith(("--", "//")):
        return ""
    return re.split(r"\s--\s|\s//\s", line)[0]


def code_lines(path):
    """The lines of a file without comments and imports."""
    inside_import = False
    for number, line in enumerate(open(path, encoding="utf-8"), 1):
        line = without_comment(line.rstrip("\n"))
        start = line.lstrip()
        if inside_import or start.startswith(("use ", "pub use ", "ghost use ")):
            inside_import = path.endswith((".rt", ".rt.in", ".rt.txt")) and ";" not in line
            continue
        yield number, line


def unused():
    declared = {}
    read = []
    for path in files((".antt", ".rt", ".rt.in", ".rt.txt", ".antt.txt", ".edit")):
        here = set()
        lines = list(code_lines(path))
        if path.endswith(".antt"):
            for number, line in lines:
                found = DECLARED.match(line)
                if found and not line.startswith("    "):
                    here.add(found.group(1))
                    if "/examples/" not in path:
                        declared.setdefault(found.group(1), (path, number))
        read.append((here, lines))
    uses = {}
    for here, lines in read:
        for number, line in lines:
            tokens = TOKEN.findall(line)
            # a line of its own file that declares or defines a name begins with it, indented by two at most
            found = None if line.startswith("    ") else DECLARED.match(line)
            first = tokens[0] if tokens and not line.startswith("    ") else None
            for own in {found.group(1) if found else None, first} & here:
                tokens.remove(own)
            for token in tokens:
                for part in {token, *token.split(".")}:
                    uses[part] = uses.get(part, 0) + 1
    answers = re.compile(r"^(returns|goal|invariant|requires|in_|ensures|decreases|panics|overflow|index)")
    count = 0
    for name, (path, number) in sorted(declared.items(), key=lambda item: item[1]):
        if uses.get(name) or answers.match(name) or "◌" in name:
            continue
        if "/proofs/" in path and "/lemmas/" not in path:
            continue
        if "/proofs/" in path or "/specs/" in path:
            print(f"{path}:{number}: {name}")
            count += 1
    print(f"{len(declared)} names, {count} of them unused")
    return count


def sizes():
    functions, lines, lengths = [], [], []
    for path in files((".rt", ".antt")):
        text = open(path, encoding="utf-8").read().split("\n")
        lengths.append((len(text), path))
        for number, line in enumerate(text, 1):
            if not line.lstrip().startswith(("use ", "pub use ", "ghost use ")):
                lines.append((len(line), f"{path}:{number}"))
        if path.endswith(".rt"):
            for number, line in enumerate(text):
                found = re.match(r"^(\s*)(?:pub(?:\([a-z]+\))? )?(?:const )?fn (\w+)", line)
                if not found:
                    continue
                indent = found.group(1)
                start = number
                while start < len(text) and not (text[start].rstrip().endswith("{}") or text[start] == indent + "{"
                                                 or start == number and text[start].endswith("{")
                                                 or text[start] == indent + ") {" or text[start].endswith(";")):
                    start += 1
                if start == len(text) or text[start].rstrip().endswith(("{}", ";")):
                    continue
                end = text.index(indent + "}", start)
                functions.append((end - start - 1, f"{path}:{number + 1} {found.group(2)}"))
    tables = (
        ("longest bodies of functions", functions),
        ("longest lines of .rt", [row for row in lines if ".rt:" in row[1]]),
        ("longest lines of .antt", [row for row in lines if ".antt:" in row[1]]),
        ("largest .rt", [row for row in lengths if row[1].endswith(".rt")]),
        ("largest .antt", [row for row in lengths if row[1].endswith(".antt")]),
    )
    for title, rows in tables:
        print(title)
        for size, where in sorted(rows, reverse=True)[:8]:
            print(f"  {size:5} {where}")
    return 0


if __name__ == "__main__":
    os.chdir(os.path.join(os.path.dirname(os.path.abspath(__file__)), ".."))
    sys.exit(sizes() if sys.argv[1:] == ["sizes"] else 1 if unused() else 0)
