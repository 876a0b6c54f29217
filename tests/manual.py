#!/usr/bin/env python3
"""Tests the manual page and what completes the program's words, each by the program that reads it, where that is
installed: `man`, and the shells bash, zsh and fish. The last line counts.

  tests/manual.py
"""
import os
import shutil
import subprocess
import sys
import tempfile

TOP = os.path.dirname(os.path.dirname(os.path.realpath(__file__)))
sys.path.insert(0, f"{TOP}/tools/generate")
import manual

PACKAGING = f"{TOP}/packaging"
COMPLETIONS = f"{PACKAGING}/completions"

# the words before the cursor, the last one under it, and what must be among the completions, and what must not
ASKED = [
    (["ch"], ["check"], ["info"]),
    (["help", "bu"], ["build"], ["put"]),
    (["check", "x", "--wh"], ["--whole"], ["--slots"]),
    (["cou"], ["count"], ["check"]),
    (["keys", "--"], ["--hash"], ["--slots"]),
    (["dump", "--sl"], ["--slots"], ["--whole"]),
    (["get", "--hash", ""], ["fx", "unhash", "xxh64"], ["--at"]),
    (["merge", "x", "--duplicates", ""], ["last", "first", "error"], ["--at"]),
    (["get", "x", "--key", ""], ["u32", "u64be", "hex", "bytes:", "text:"], ["none", "SHAPE"]),
    (["keys", "x", "--j"], ["--json"], ["--null"]),
    (["dump", "x", "--"], ["--values", "--null", "--whole"], ["--check"]),
    (["build", "x", "--value", "n"], ["none"], ["u32"]),
    (["info", "a ta"], ["a table.odht"], ["--whole"]),
]

# prints the completions of its arguments, a line each
IN_BASH = """
source "$1"; shift
COMP_WORDS=(odht "$@"); COMP_CWORD=$#
_odht
printf '%s\\n' "${COMPREPLY[@]}"
"""
# the same of a word with its value behind a `=`, which bash reads as three
BEHIND = (["check", "x", "--hash", "=", "u"], ["unhash"], ["fx"])


def run(*words, **how):
    done = subprocess.run(words, capture_output=True, text=True, check=False, **how)
    return done.returncode, done.stdout + done.stderr


def fault_of_manual():
    """Returns what is wrong with the manual page, or None."""
    status, printed = run("man", "--warnings", "-l", f"{PACKAGING}/odht.1", env={**os.environ, "MANWIDTH": "100"})
    wanted = ["ODHT(1)", "odht build FILE --key SHAPE --value SHAPE", "EXIT STATUS", "hex16  hex16  unhash"]
    # an option has a line of its own
    wanted += ["\n       --key, --value\n", "\n       --break-links\n", "\n       SHAPE  u32,"]
    # each command has an example
    wanted += [it.text[-1] for it in manual.listed()[0]]
    missing = [it for it in wanted if it not in printed]
    return f"status {status}, without {missing}" if status or missing or "warning:" in printed else None


def fault_of_answer(words, printed, wanted, unwanted):
    lines = printed.split("\n")
    if any(it not in lines for it in wanted) or any(it in lines for it in unwanted):
        return f"completes {words} by {lines}"
    return None


def fault_in_bash(folder):
    for words, wanted, unwanted in [*ASKED, BEHIND]:
        _, printed = run("bash", "-c", IN_BASH, "bash", f"{COMPLETIONS}/odht.bash", *words, cwd=folder)
        fault = fault_of_answer(words, printed, wanted, unwanted)
        if fault:
            return fault
    return None


def fault_in_fish(folder):
    for words, wanted, unwanted in ASKED[:-1]:
        asked = " ".join(["odht", *words])
        _, printed = run("fish", "-c", f"source {COMPLETIONS}/odht.fish; complete -C '{asked}'", cwd=folder)
        fault = fault_of_answer(words, "\n".join(it.split("\t")[0] for it in printed.split("\n")), wanted, unwanted)
        if fault:
            return fault
    return None


def fault_in_zsh(folder):
    """zsh completes in a terminal alone: so it loads the function, and tells that it is that of `odht`."""
    loads = 'fpath=("$1" $fpath); autoload -Uz compinit; compinit -D -u; whence -w _odht; print -r -- ${_comps[odht]}'
    status, printed = run("zsh", "-f", "-c", f"{loads}; autoload +X _odht", "zsh", COMPLETIONS, cwd=folder)
    return f"status {status}: {printed}" if status or printed != "_odht: function\n_odht\n" else None


TESTS = {"man": lambda _: fault_of_manual(), "bash": fault_in_bash, "zsh": fault_in_zsh, "fish": fault_in_fish}


def main():
    failed = passed = 0
    with tempfile.TemporaryDirectory(prefix="odht-manual-") as folder:
        with open(f"{folder}/a table.odht", "w", encoding="utf-8"):
            pass
        for name, test in TESTS.items():
            if not shutil.which(name):
                print(f"{name} is not installed: SKIPPED")
                continue
            fault = test(folder)
            failed += fault is not None
            passed += fault is None
            if fault:
                print(f"FAILED {name}: {fault}")
    print(f"{passed} passed, {failed} failed")
    return 1 if failed else 0


if __name__ == "__main__":
    sys.exit(main())
