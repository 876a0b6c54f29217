#!/usr/bin/env python3
"""Checks the language of the documents: the length of sentences, words of our own, and one name for each idea.

  tools/prose.py [FILE..]     lists sentences of more than 25 words, the longest first, and words that are not used
  tools/prose.py --check      status 1 where a document has such a word, or a sentence of more than 35 words

The parts of a sentence that semicolons part count by themselves; so do lines of a list and cells of a table. Blocks of
code, code in a line and what scripts make are left out. In comments of the libraries only the first words are looked
for.
"""
import glob
import os
import re
import sys

TOP = os.path.dirname(os.path.dirname(os.path.realpath(__file__)))
LONG, TOO_LONG = 25, 35
# a word, documents that may use it, and what is written instead; these in comments too
DROPPED = [
    (r"\brefus(?:e|es|ed|ing|al|als)\b", (), "reject, return"),
    (r"\banswer(?:s|ed|ing)?\b", ("docs/SCRIPT.md",), "return, write, result"),
    (r"\bunprobed\b|\bfingerprints?\b", (), "tag"),
    (r"\b(?:utilize|utilise|leverage|robust|seamless(?:ly)?|simply)\b", (), "a plain word"),
]
# the usual word
USUAL = [
    (r"\balone\b", (), "only"),
    (r"\bstrangers?\b|\bforeign bytes\b|\bbytes from elsewhere\b", (), "untrusted bytes"),
    (r"\bplanted\b|\bmust-fail edits?\b", (), "mutant, inserted"),
    (r"\btells? (?:whether|that|which|what|how|each|of)\b", (), "report, print"),
    (r"\b(?:is|are) made (?:of|anew)\b", (), "is generated from"),
    (r"\bgo(?:es)? (?:by|the way of)\b", (), "use, work like"),
    (r"\bwant of memory\b|\bmemory (?:where it )?is denied\b|\bgives none\b", (), "if allocation fails"),
    (r"\b(?:asks?|requests?) for memory\b|\brequests? (?:of|to) the allocator\b", (), "allocate"),
    (r"\bwhoever\b|\bone who\b|\bwho has (?:it|them)\b", (), "you, the caller"),
    (r"\bso many\b|\bas many as\b", (), "n, the same number of"),
    (r"\banew\b|\bonce more\b", (), "again, from scratch"),
    (r"\bin place of\b", (), "instead of"),
    (r"\bbeside\b", (), "compared with, and, next to"),
    (r"\bbut for\b", (), "except"),
    (r"\bbehind\b", (), "after"),
    (r"\bcarried\b", (), "ported, executed"),
    (r"\b(?:it is said|no clause says)\b", (), "the contract states, does not state"),
]
# one name for each idea
NAMES = [
    (r"\btables? of (?:any|other) (?:lengths|sizes)\b|\blengths (?:that|which) are numbers\b|\bsized tables?\b", (),
     "dynamic table, run-time sizes"),
    (r"\btables? (?:that|which) grows?\b", (), "owned table"),
    (r"\berased (?:source|program|crate|build|text)\b", (), "plain Rust"),
    (r"\bwrong bod(?:y|ies)\b", ("docs/TESTS.md", "docs/PROOFS.md", "docs/READING.md", "CONTRIBUTING.md"), "mutant"),
]
# crates of which the comments are read for dropped words too
LIBRARIES = ("odht_base", "odht_header", "odht_raw", "odht", "odht_index")


def documents():
    names = ["README.md", "CONTRIBUTING.md", *glob.glob("docs/*.md", root_dir=TOP), *glob.glob("bench/*.md", root_dir=TOP)]
    more = ("rust", "rust/c", "rust/cli", "rust/table", "bindings/rust", "tests", "examples")
    return sorted({*names, *(f"{it}/README.md" for it in more)})


def sources():
    return sorted(name for crate in LIBRARIES
                  for name in glob.glob(f"crates/{crate}/src/**/*.rt", root_dir=TOP, recursive=True))


def comments_of(text):
    """Returns the comments of a source file without the code in them; lines stay where they are."""
    lines = ((line if line.lstrip().startswith("//") else "") for line in text.split("\n"))
    return re.sub(r"`[^`\n]*`", "code", "\n".join(lines))


def prose_of(text):
    """Returns the text with what is no prose blanked; lines stay where they are."""
    text = re.sub(r"^<!-- (?:begin|Generated).*?^<!-- [eE]nd.*?$", lambda it: "\n" * it[0].count("\n"), text, flags=re.M | re.S)
    text = re.sub(r"^```.*?^```$", lambda it: "\n" * it[0].count("\n"), text, flags=re.M | re.S)
    text = re.sub(r"^    .*$", "", text, flags=re.M)
    text = re.sub(r"`[^`\n]*(?:\n[^`\n]+)?`", lambda it: "code" + "\n" * it[0].count("\n"), text)
    text = re.sub(r"\]\([^)\s]*\)", "]", text)
    return text


def sentences(text):
    """Returns the sentences of a text, each with the number of its first line."""
    at = 1
    for block in re.split(r"(\n[ \t]*\n|\n(?=[ \t]*[-*] |[ \t]*\d+\. |\||#)|(?<=[^\\])\|)", text):
        line = at
        for sentence in re.split(r"(?<=[.!?;])(?=\s)", block):
            words = sentence.split()
            if words:
                yield line + len(sentence) - len(sentence.lstrip("\n")), words
            line += sentence.count("\n")
        at += block.count("\n")


def dropped_of(name, text, words):
    """Returns the words of a text that are not used, each with its place."""
    return [f"{name}:{number}: {it}: {instead}"
            for number, line in enumerate(text.split("\n"), 1)
            for pattern, allowed, instead in words if name not in allowed
            for it in re.findall(pattern, line, re.I)]


def found_in(name):
    """Returns what is long, in a document only, and which words are not used."""
    with open(f"{TOP}/{name}", encoding="utf-8") as it:
        text = it.read()
    if name.endswith(".rt"):
        return [], dropped_of(name, comments_of(text), DROPPED)
    text = prose_of(text)
    long = [(len(words), f"{name}:{line}", " ".join(words)) for line, words in sentences(text) if len(words) > LONG]
    return long, dropped_of(name, text, [*DROPPED, *USUAL, *NAMES])


def main(*words):
    is_check = words == ("--check",)
    found = [found_in(name) for name in (documents() + sources() if is_check or not words else words)]
    long = sorted((it for part, _ in found for it in part), reverse=True)
    dropped = [it for _, part in found for it in part]
    if is_check:
        long = [it for it in long if it[0] > TOO_LONG]
    lines = [f"{place}: {count} words: {text[:100]}" for count, place, text in long] + dropped
    print("".join(f"{it}\n" for it in lines), end="")
    return 1 if is_check and (long or dropped) else 0


if __name__ == "__main__":
    sys.exit(main(*sys.argv[1:]))
