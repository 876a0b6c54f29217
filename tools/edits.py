#!/usr/bin/env python3
"""The wrong bodies that the prover must refuse: those of the gate, crates/NAME/must-fail/, and those of edits/NAME/.

  tools/edits.py check       that each `old:` text stands once in its file; with the kit also that the compiler
                             rejects the edits that break a rule of types; in seconds
  tools/edits.py run [NAME..]   has the prover try each edit, of all crates or of these, on copies

What earlier checks of the repository proved is kept, as `rt check` keeps it: an edit costs what the prover does
anew for it. The function whose text an edit changes is checked first, by its name alone: where that is not proved, the
crate is not. Where it is, all of the crate is checked. As many are tried at once as there are processors.
build/logs/edits.log says of each by which line it is refused.

An edit in edits/NAME/ that begins with a line `refused by: CODE` breaks a rule of types, as a read of a private field.
It never reaches the prover: the compiler must reject the changed line with the error CODE. The gate's own command
counts such an edit for nothing, so `make test` tries it.
"""
import os
import re
import shutil
import subprocess
import sys
import tempfile
import time
from collections import Counter
from concurrent.futures import ThreadPoolExecutor

import kit
import unproved
import watched

TOP = os.path.dirname(os.path.dirname(os.path.realpath(__file__)))
# the most edits that are tried in one copy
PART = 12
LOG = f"{TOP}/build/logs/edits.log"
FUNCTION = re.compile(r"^\s*(?:pub(?:\([\w ]+\))? )?(?:const )?fn (\w+)", re.M)
IMPL = re.compile(r"^impl(?:<.*?>)? (\w+)(?:<[^{]*)? \{$", re.M)
ONLY = re.compile(r"only=(\d+) proved=(\d+)")
# a function with a goal that its proof leaves open, or that has no proof file and is not proved without
OPEN = re.compile(r"(?:fn|impl) .*: (?:not proved|no proof: expected answers in )")
# an edit that does not read shows nothing of a contract
UNREAD = re.compile(r"is not in scope|has no field|is no name|operand is missing|expected the end|cannot continue")


def folders_of(crate):
    return [f"{TOP}/crates/{crate}/must-fail", f"{TOP}/edits/{crate}"]


def edits_of(crate):
    """Returns the files of a crate's edits, the gate's first."""
    found = [it for it in folders_of(crate) if os.path.isdir(it)]
    return [f"{folder}/{name}" for folder in found for name in sorted(os.listdir(folder)) if name.endswith(".edit")]


def lines_of_crates():
    """Returns the line of each crate in crates.txt, in its order: each below those that use it."""
    with open(f"{TOP}/crates.txt", encoding="utf-8") as lines:
        read = [it.partition("#")[0].strip() for it in lines]
    return {it.split()[0].rstrip(":"): it for it in read if ":" in it}


def crates():
    return [*lines_of_crates()]


def texts_of(edit, folder):
    """Returns the texts of the files that an edit of the crate in this folder changes, and why it cannot be applied, or
    None. A second pair applies to what the first one made."""
    path, old, texts = "", None, {}
    with open(edit, encoding="utf-8") as lines:
        for line in lines.read().split("\n"):
            word, _, text = line.partition(": ")
            if word == "file":
                path = text.strip()
            elif word == "old":
                old = text
            elif word in ("new", "new:"):
                if path not in texts:
                    with open(f"{folder}/{path}", encoding="utf-8") as it:
                        texts[path] = it.read()
                found = texts[path].count(old)
                if found != 1:
                    return texts, f"its text is in {path} {found} times, and not once"
                texts[path] = texts[path].replace(old, text)
    return texts, None if texts else "it has no 'old:' and 'new:' pair"


def code_of(edit):
    """Returns the error by which the compiler must reject an edit, or None where the prover must."""
    with open(edit, encoding="utf-8") as lines:
        word, _, code = lines.readline().strip().partition(": ")
    return code if word == "refused by" else None


def lines_changed(former, text):
    """Returns the numbers of the lines of a text that are not in the former one. No edit adds a line."""
    pairs = zip(former.split("\n"), text.split("\n"))
    return [number for number, (old, new) in enumerate(pairs, 1) if old != new]


def rejected_by_types(crate, edits):
    """Applies edits of a crate to one copy, and has the compiler read it. Returns what is wrong with each that the
    compiler does not reject, where it stands, with its error."""
    with tempfile.TemporaryDirectory(prefix="odht-types-") as room:
        folder = f"{room}/{crate}"
        shutil.copytree(f"{TOP}/crates/{crate}/src", f"{folder}/src")
        wanted = {}
        for edit in edits:
            for path, text in texts_of(edit, folder)[0].items():
                with open(f"{folder}/{path}", encoding="utf-8") as it:
                    former = it.read()
                wanted[edit] = [(path, number) for number in lines_changed(former, text)]
                write(folder, {path: text})
        try:
            unproved.lowered(crate, f"{folder}/src/lib.rt", ["--test"], room)
            printed = ""
        except unproved.BuildError as error:
            printed = str(error)
    return [
        f"{os.path.relpath(edit, TOP)}: the compiler does not reject it by {code_of(edit)}"
        for edit, places in wanted.items()
        if not any(re.search(rf"{path}:{number}:\d+: error\[{code_of(edit)}\]", printed) for path, number in places)
    ]


def check_types():
    """Returns how many edits the compiler rejects as it must, and what is wrong with the others."""
    passed, failed = 0, []
    for crate in crates():
        edits = [it for it in edits_of(crate) if code_of(it)]
        if edits and unproved.KIT:
            wrong = rejected_by_types(crate, edits)
            passed, failed = passed + len(edits) - len(wrong), failed + wrong
    return passed, failed


def check():
    unknown = [it for it in os.listdir(f"{TOP}/edits") if it not in crates()]
    failed = [f"edits/{it}: crates.txt names no such crate" for it in unknown]
    passed = 0
    for crate in crates():
        names = [os.path.basename(it) for it in edits_of(crate)]
        failed += [f"{crate}/{it}: stands twice" for it in sorted({*names}) if names.count(it) > 1]
        for edit in edits_of(crate):
            try:
                _, why = texts_of(edit, f"{TOP}/crates/{crate}")
            except OSError as error:
                why = str(error)
            passed += not why
            failed += [f"{os.path.relpath(edit, TOP)}: {why}"] if why else []
    if not failed:
        rejected, failed = check_types()
        passed += rejected
    print("\n".join([*failed, f"{passed} passed, {len(failed)} failed"]))
    return 1 if failed else 0


def below(crate):
    """Returns the crates that a crate uses, each below those that use it."""
    used = lines_of_crates()[crate].partition(":")[2].split()
    return [it for it in crates() if it in used]


def copied(tree, needed):
    """Copies these crates, as committed or about to be, without their edits."""
    os.makedirs(tree)
    with open(f"{tree}/crates.txt", "w", encoding="utf-8") as listed:
        listed.writelines(f"{line}\n" for name, line in lines_of_crates().items() if name in needed)
    shutil.copy(f"{TOP}/HANDLES", tree)
    words = ["git", "ls-files", "-z", "--cached", "--others", "--exclude-standard", "crates"]
    files = subprocess.run(words, cwd=TOP, stdout=subprocess.PIPE, check=True, text=True).stdout
    for file in filter(None, files.split("\0")):
        wanted = file.split("/")[1] in needed and not file.endswith(".edit")
        if wanted and os.path.isfile(f"{TOP}/{file}") and not os.path.islink(f"{TOP}/{file}"):
            os.makedirs(os.path.dirname(f"{tree}/{file}"), exist_ok=True)
            shutil.copy(f"{TOP}/{file}", f"{tree}/{file}")


def copy_kept(what, name, tree, to):
    """Copies what is kept of the proofs of a crate, where it is there: `rt` uses it again where nothing has changed."""
    if os.path.isdir(f"{tree}/crates/{name}/{what}"):
        shutil.copytree(f"{tree}/crates/{name}/{what}", f"{to}/crates/{name}/{what}")


def rt(words, tree, name):
    """Runs `rt` in a crate of a tree. Returns its status and its lines."""
    status, printed = watched.run(["rt", *words], limit=None, cwd=f"{tree}/crates/{name}")
    return status, printed.rstrip("\n").split("\n")


def prove(chosen, tree):
    """Proves these crates and the libraries below them on a copy, over what is kept in the repository."""
    libraries = {it for crate in chosen for it in below(crate)}
    needed = [it for it in crates() if it in libraries or it in chosen]
    copied(tree, needed)
    for name in needed:
        copy_kept("out", name, TOP, tree)
        for word in ["check"] * (name in chosen) + ["lib"] * (name in libraries):
            status, lines = rt([word], tree, name)
            if status:
                sys.exit("\n".join([*lines, f"{name} is not proved"]))
        print(f"{name}: proved", flush=True)


def parts_of(crate):
    """Returns the parts of a crate's edits."""
    edits = edits_of(crate)
    count = -(-len(edits) // PART)
    return [(crate, edits[at::count]) for at in range(count)]


def name_at(before):
    """Returns the name of the function in which the text before a place ends, with its type where it is a method."""
    found = [*FUNCTION.finditer(before)]
    if not found:
        return None
    types = IMPL.findall(before[: found[-1].start()])
    is_method = found[-1][0].lstrip("\n").startswith(" ")
    return f"{types[-1]}::{found[-1][1]}" if is_method and types else found[-1][1]


def functions_of(edit, folder):
    """Returns the names of the functions whose text an edit of the crate in this folder changes."""
    path, names = "", set()
    with open(edit, encoding="utf-8") as lines:
        for word, _, text in (line.partition(": ") for line in lines.read().split("\n")):
            if word == "file":
                path = text.strip()
            elif word == "old":
                with open(f"{folder}/{path}", encoding="utf-8") as it:
                    before, found, _ = it.read().partition(text)
                names.add(name_at(before + found))
    return sorted(names - {None})


def errors_of(lines):
    """Returns the errors of a check, the goals that it leaves open, and the errors of texts that it cannot read."""
    errors = [it for it in lines if re.match(r"\S+:\d+:\d+: error", it)]
    open_goals = [it for it in lines if OPEN.match(it)]
    unread = [it for it in errors if it.removeprefix("./").startswith(("src/", "specs/")) and UNREAD.search(it)]
    return errors, open_goals, unread


def refusal_of(name, tree, crate):
    """Returns the line by which the prover refuses a function of an edited crate, or what that calls. None where it does
    not, and where it knows more than one of this name."""
    status, lines = rt(["check", "--jobs", "1", "--only", name], tree, crate)
    errors, open_goals, unread = errors_of(lines)
    counts = [it.groups() for it in map(ONLY.match, lines) if it]
    if unread or status != 1 or not open_goals or not counts or counts[-1][0] == counts[-1][1]:
        return None
    return [*errors, *open_goals][0]


def judged(names, tree, crate, code):
    """Has the prover try an edited crate, the functions of these names first. Returns whether it refused it, and how.
    With a code the compiler must reject it by that error."""
    if code:
        _, lines = rt(["check", "--jobs", "1"], tree, crate)
        by_code = [it for it in lines if f": error[{code}]" in it]
        return bool(by_code), [*by_code, f"the compiler does not reject it by {code}"][0]
    for name in names:
        line = refusal_of(name, tree, crate)
        if line:
            return True, line
    return verdict(*rt(["check", "--jobs", "1"], tree, crate))


def verdict(status, lines):
    """Returns whether the prover refused an edited crate, and by which line it says so."""
    errors, open_goals, unread = errors_of(lines)
    if unread:
        return False, f"the prover cannot read it: {unread[0]}"
    if status == 1 and any(it.startswith("logic=not-proved") for it in lines):
        return True, [*errors, *open_goals, "not proved"][0]
    return False, "it is still proved" if status == 0 else "\n".join(["it did not reach the prover", *lines[-6:]])


def tried(room, number, crate, edits):
    """Has the prover try a part of a crate's edits, one after the other. Returns the crate, and the verdict on each."""
    tree, verdicts = f"{room}/{number}", []
    copied(tree, [*below(crate), crate])
    copy_kept("out", crate, f"{room}/proved", tree)
    for library in below(crate):
        copy_kept("out/rlib", library, f"{room}/proved", tree)
    folder = f"{tree}/crates/{crate}"
    for edit in edits:
        texts, why = texts_of(edit, folder)
        former = {path: open(f"{folder}/{path}", encoding="utf-8").read() for path in texts}
        names = [] if why else functions_of(edit, folder)
        write(folder, texts)
        is_refused, line = (False, why) if why else judged(names, tree, crate, code_of(edit))
        write(folder, former)
        verdicts.append((os.path.basename(edit), is_refused, line[:300]))
    shutil.rmtree(tree)
    return crate, verdicts


def write(folder, texts):
    for path, text in texts.items():
        with open(f"{folder}/{path}", "w", encoding="utf-8") as it:
            it.write(text)


def told(crate, verdicts, log):
    """Logs the verdicts on a part, and prints those on edits that were not refused. Returns how many were."""
    for name, is_refused, line in verdicts:
        text = f"{crate}/{name}: {'refused' if is_refused else 'NOT REFUSED'}: {line}"
        log.write(f"{text}\n")
        if not is_refused:
            print(text, flush=True)
    log.flush()
    return sum(is_refused for _, is_refused, _ in verdicts)


def run(names):
    kit.need()
    watched.end_on_signals()
    unknown = [it for it in names if it not in crates()]
    if unknown:
        sys.exit(f"crates.txt names no {unknown[0]}")
    chosen = [it for it in crates() if edits_of(it) and (not names or it in names)]
    began = time.monotonic()
    parts = [part for crate in reversed(chosen) for part in parts_of(crate)]
    refused = Counter()
    os.makedirs(os.path.dirname(LOG), exist_ok=True)
    with tempfile.TemporaryDirectory(prefix="odht-edits-") as room, open(LOG, "w", encoding="utf-8") as log:
        prove(chosen, f"{room}/proved")
        with ThreadPoolExecutor(os.cpu_count()) as lanes:
            for crate, verdicts in lanes.map(lambda at: tried(room, at, *parts[at]), range(len(parts))):
                refused[crate] += told(crate, verdicts, log)
    lost = {crate: len(edits_of(crate)) - refused[crate] for crate in chosen}
    for crate in chosen:
        print(f"{crate}: {refused[crate]} edits refused, {lost[crate]} not")
    print(f"{(time.monotonic() - began) / 60:.1f} minutes")
    print(f"{sum(refused.values())} passed, {sum(lost.values())} failed")
    return 1 if any(lost.values()) else 0


if __name__ == "__main__":
    verb, *words = sys.argv[1:] or [""]
    if verb not in ("check", "run"):
        sys.exit(__doc__)
    sys.exit(check() if verb == "check" else run(words))
