#!/usr/bin/env python3
"""Reads the Rust that is made of the proved crates a second time, beside tools/erase and without a line of it.

  tests/erased.py CRATES ERASED [FILE]     CRATES has the proved crates, ERASED what tools/erase made of them (before
                                           rustfmt); FILE is one of ERASED, and then only that is read

Of each source what contracts and proofs need is left out here, in another way: by patterns over its tokens. In the
erased file each replacement that is listed here is undone. What is left of both must be the same, token for token. Prints
each file where it is not, how often each replacement was undone, and a line that counts the files.
"""
import os
import re
import sys

# a comment, a text, a byte, a label, a word, any other character
TOKEN = re.compile(r"//[^\n]*|b?\"(?:\\.|[^\"\\])*\"|b?'(?:\\.|[^'\\])'|'\w+|\w+|\S", re.S)
# each crate, its module, and where the file of the module is
PLACES = {
    "odht_base": ("generated :: base", "src/generated/base"),
    "odht_header": ("generated :: header", "src/generated/header"),
    "odht_raw": ("generated :: raw", "src/generated/raw"),
    "odht": ("generated :: tables", "src/generated/tables"),
    "odht_calls": ("generated :: calls", "c/src/generated/calls"),
    "odht_c": ("generated :: exports", "c/src/generated/exports"),
    "odht_tool_core": ("generated :: core", "cli/src/generated/core"),
    "odht_tool_tables": ("generated :: tool_tables", "cli/src/generated/tool_tables"),
    "odht_tool_reads": ("generated :: reads", "cli/src/generated/reads"),
    "odht_tool_writes": ("generated :: writes", "cli/src/generated/writes"),
    "odht_tool": ("generated :: tool", "cli/src/generated/tool"),
    "odht_table": ("generated :: table", "table/src/generated/table"),
}
ROOTS = {"lib.rt", "main.rt"}
LAWS = {("odht_base", "laws.rt"), ("odht", "laws.rt")}
CONTRACT_TRAITS = {"Model", "Coded", "Lossless"}
PAIRS = {"(": ")", "[": "]", "{": "}"}


def tokens(text):
    """Returns the tokens of a text without its comments, `::` as one."""
    found = [it for it in TOKEN.findall(text) if not it.startswith("//")]
    return re.sub(r"(?<= ): :(?= )", "::", f" {' '.join(found)} ").split(" ")[1:-1] if found else []


def closed(all, at):
    """Returns the place behind the bracket that closes the one at a place."""
    open = []
    for place in range(at, len(all)):
        if all[place] in PAIRS:
            open.append(PAIRS[all[place]])
        elif open and all[place] == open[-1]:
            open.pop()
        if not open:
            return place + 1
    raise ValueError(f"no end of {all[at]}")


def clause_end(all, at):
    """Returns the place behind a clause or a ghost that begins at a place, or the place itself."""
    if all[at] in ("requires", "ensures"):
        return closed(all, all.index("{", at))
    if all[at] != "ghost":
        return at
    if all[at + 1] == "use":
        return all.index(";", at) + 1
    end = closed(all, at + 3)
    if all[at + 2] not in ":=" or all[end] not in ";,":
        raise ValueError(f"ghost {all[at + 1]}")
    return end + 1


def block_end(all, at):
    """Returns the place behind a trait of contracts, or its implementation, that begins at a place, or the place."""
    head = all[at : all.index("{", at)] if all[at] in ("impl", "trait", "pub") and "{" in all[at:] else []
    while head and head[0] == "pub":
        head = head[1:]
    if head and head[0] == "trait" and head[1] in CONTRACT_TRAITS:
        return closed(all, all.index("{", at))
    if head and head[0] == "impl" and "for" in head and CONTRACT_TRAITS & {head[head.index("for") - 1]}:
        return closed(all, all.index("{", at))
    return at


def without_contracts(all):
    """Returns the tokens of a source without what contracts alone need."""
    left, at = [], 0
    while at < len(all):
        end = clause_end(all, at)
        if end == at:
            end = block_end(all, at)
        if end == at:
            left.append(all[at])
            end = at + 1
        at = end
    return left


# what is left out of the text that is left: a pattern, and what stays of it
SHORTER = [
    (r"# !? ?\[ tactic \( .*? \) \] ", ""),
    (r"# \[ derive \( Drop \) \] ", ""),
    (r"(# \[ derive \( )Drop , ", r"\1"),
    (r"(# \[ derive \( [\w ,]*?), Drop ", r"\1"),
    (r" \+ Drop\b", ""),
    (r" : Drop \+", " :"),
    (r" : Drop\b", ""),
    (r"\bfinal fn\b", "fn"),
    (r"< W : fmt :: Write > ", ""),
    (r"pub mod laws ; ", ""),
    (r"use [\w: ]+ :: (?:Model|Coded|Lossless) ; ", ""),
    (r"(?<=use )([\w: ]+ :: )\{ (?:Model|Coded) , (\w+) \} ;", r"\1\2 ;"),
    (r"(?<=use )([\w: ]+ :: )\{ (\w+) , (?:Model|Coded|Lossless) \} ;", r"\1\2 ;"),
    (r"(\{ )(?:Model|Coded|Lossless) , ", r"\1"),
    (r" , (?:Model|Coded|Lossless)(?= [,}])", ""),
]
# what was replaced: a pattern of the erased text, and what the source has
UNDONE = {
    "an import of lists": (r"^use alloc :: vec :: Vec ; ", ""),
    "a list of lanes": (r"\bcrate :: shim :: u8x16", "std :: simd :: prelude :: *"),
    "zeros": (r"crate :: shim :: zeroed_bytes \( ([\w. ]+?) , (\w+) \)", r"vec ! [ in \1 ; 0 ; \2 ]"),
    "room": (r"crate :: shim :: with_capacity", "Vec :: with_capacity"),
    "a list of items": (r"crate :: shim :: (collect|to_vec) \( (\w+) , ", r"\2 . \1 ( "),
    "memory": (r"(?<=use )crate :: shim", "std :: alloc"),
    "a cut": (r"split_at_mut ! \( (\w+) , (\w+ (?::: < C > )?(?:\( \w+ \) )?), \"[^\"]*\" \)", r"\1 . split_at_mut ( \2)"),
    "a chunk": (r"\bchunk ! \( (\w+) , (\w+) , (\w+) , \"[^\"]*\" \)", r"\1 [ \2 * \3 . . \2 * \3 + \3 ]"),
    "a slot count": (r"(?<=slot_count \( \) ; )crate :: shim :: slots :: check :: < [^;]* ; ", ""),
    "a push": (r"list \. push \(", "list . push_reserved ("),
    "a formatter": (r"Formatter < '_ >", "Formatter < W >"),
    "an allocator of C": (r"\blet alloc = Global ; ", ""),
    "a list of C": (r"let (\w+) = unsafe \{ crate :: lists :: (?:list|list_mut) \( \1 , \1_len \) \} ; ", ""),
    "a list for C": (r"(\w+) : \* const ([\w() ]+?|\[ u8 ; \d+ \]) , \1_len : usize", r"\1 : & [ \2 ]"),
    "a written list for C": (r"(\w+) : \* mut ([\w() ]+?|\[ u8 ; \d+ \]) , \1_len : usize", r"\1 : & mut [ \2 ]"),
    "an open enum": (r"# \[ non_exhaustive \] (?=pub enum (?:Dyn)?Error\b)", ""),
    "an export": (r"\bunsafe extern \"C\" fn", 'extern "C" fn'),
    "an import of the host": (r"^use crate :: host :: prelude :: \* ; ", ""),
    "a use of the host": (r"(?<=\buse )crate :: host(?= ::)", "std"),
    "a new list": (r"\bcrate :: host :: lists :: empty\b", "Vec :: new"),
    "equal items": (r"crate :: host :: lists :: filled \( (\w+) , (\w+) , (\w+) \)", r"vec ! [ in \1 ; \2 ; \3 ]"),
    "a copied text": (r"\bcrate :: host :: texts :: copy_of\b", "String :: from_str"),
    "a formatted text": (
        r"crate :: host :: texts :: formatted \( (\w+) , format_args ! \( (\"[^\"]*\") \) \)",
        r"format ! ( in \1 ; \2 )",
    ),
    "an error line": (r"\bwriteln ! \( rt \. stderr \( \) ,", "eprintln ! ( rt ;"),
    "an error of links": (
        r"crate :: host :: io :: filesystem_loop \( \)", "io :: Error :: from ( ErrorKind :: FilesystemLoop )"
    ),
    "a call of the host": (r"\. try_(collect|extend_from_slice|push|read_until) \(", r". \1 ("),
    "an exported macro": (r"(?<=\buse )crate :: (?=for_shape ;)", "odht_tool_tables :: "),
    "an entry": (r"\bpub fn main \( rt :", "fn main ( rt :"),
    "a word of the version": (r'(\bconst MADE : & str = )"erased"', r'\1"proved"'),
}
INDEX = re.compile(r"\bindex(?:_mut)? ! \( ")
# the clause of an index, whose expression has no bracket of this kind in it
CLAUSE = re.compile(r"(\bindex(?:_mut)? ! \( [\w .]+ \[ [^\[\]]* \] ), \"[^\"]*\" (?=\))")


def without_labels(text):
    """Leaves out the labels of loops that nothing names."""
    for label in set(re.findall(r"('\w+) : (?:loop|while|for)\b", text)):
        if not re.search(rf"(?:break|continue) {label}\b", text):
            text = re.sub(rf"{label} : (?=loop|while|for)", "", text)
    return text


def without_chains(text):
    """Writes each chain of conditions as one condition in the other."""
    all = text.split()
    while "& & let" in " ".join(all):
        at = next(i for i in range(len(all)) if all[i : i + 3] == ["&", "&", "let"])
        end = at
        while all[end] != "{":
            end = closed(all, end) if all[end] in PAIRS else end + 1
        end = closed(all, end)
        if all[end] in ("=", "else"):
            raise ValueError("a chain of an unknown form")
        all = all[:at] + ["{", "if"] + all[at + 2 : end] + ["}"] + all[end:]
    return " ".join(all) + " "


def source_left(text):
    """Returns what is left of a source."""
    left = " ".join(without_contracts(tokens(text))) + " "
    for pattern, short in SHORTER:
        left = re.sub(pattern, short, left)
    # C passes no allocator, and a list that is borrowed for a while loses the name of that while
    left = re.sub(r"(extern \"C\" fn \w+ \( )alloc : Global , ", r"\1", left)
    left = re.sub(r"(extern \"C\" fn \w+ < '\w+ > \( (?:\w+ : & \w+ , )?\w+ : & )'\w+ (\[)", r"\1\2", left)
    return without_labels(without_chains(left))


def without_index(text):
    """Undoes the macros around index expressions, and returns how many there were."""
    count = 0
    text = CLAUSE.sub(r"\1", text)
    while found := INDEX.search(text):
        all = text[found.end() - 2 :].split(" ")
        end = closed(all, 0)
        text = text[: found.start()] + " ".join(all[1 : end - 1] + all[end:])
        count += 1
    return text, count


def erased_undone(text, crate, counts):
    """Returns an erased text with what was replaced undone, and counts this."""
    text = " ".join(tokens(text)) + " "
    text, count = without_index(text)
    counts["an index"] = counts.get("an index", 0) + count
    for name, (pattern, old) in UNDONE.items():
        text, count = re.subn(pattern, old, text)
        counts[name] = counts.get(name, 0) + count
    for name, (module, _) in PLACES.items():
        text, count = re.subn(rf"\bcrate :: {module}\b", "crate" if name == crate else name, text)
        counts["a path"] = counts.get("a path", 0) + count
    return text


def differences(crate, path, source, erased, counts):
    """Yields where a source and what was made of it differ."""
    with open(source, encoding="utf-8") as it:
        wanted = source_left(it.read()).split()
    with open(erased, encoding="utf-8") as it:
        found = erased_undone(it.read(), crate, counts).split()
    if wanted != found:
        at = next((i for i, both in enumerate(zip(wanted, found)) if both[0] != both[1]), min(len(wanted), len(found)))
        yield f"{crate}/{path}: the source has: {' '.join(wanted[max(at - 8, 0) : at + 12])}"
        yield f"{crate}/{path}: made was:       {' '.join(found[max(at - 8, 0) : at + 12])}"


def main(crates, made, only=None):
    counts, files, wrong = {}, 0, 0
    expected = set()
    for crate, (_, place) in PLACES.items():
        for folder, _, names in os.walk(f"{crates}/{crate}/src"):
            for name in names:
                path = os.path.relpath(f"{folder}/{name}", f"{crates}/{crate}/src")
                if (crate, path) in LAWS:
                    continue
                inside = "" if path in ROOTS else f"/{path.removesuffix('.rt')}"
                erased = f"{made}/{place}{inside}.rs"
                expected.add(os.path.relpath(erased, made))
                if only and os.path.relpath(erased, made) != only:
                    continue
                told = list(differences(crate, path, f"{folder}/{name}", erased, counts))
                files, wrong = files + 1, wrong + (1 if told else 0)
                print("\n".join(told), end="\n" if told else "")
    there = {os.path.relpath(f"{folder}/{it}", made) for folder, _, names in os.walk(made) for it in names}
    for name in sorted(there - expected):
        print(f"{name}: of no source")
    wrong += len(there - expected)
    print(", ".join(f"{name}: {count}" for name, count in counts.items()))
    print(f"{files - min(wrong, files)} passed, {wrong} failed")
    return 1 if wrong else 0


if __name__ == "__main__":
    sys.exit(main(*sys.argv[1:]))
