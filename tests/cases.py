#!/usr/bin/env python3
"""Runs a program on cases, and tells which do not go as they must.

    tests/cases.py PROGRAM [NAME=TEXT...] FOLDER...     all files *.cases in the folders; or such a file itself

README.md beside this file describes the form of cases. A text that is given stands for that of their
lines `let NAME: TEXT`. A failing case has a line with its place and name, and below it what differs. Those
that need the rights of root are skipped where this is another user, which a line says. The last line is `N
passed, N failed`; the status is 0 only where none failed and one passed. A run has 20 seconds of processor
time, or those that CASE_SECONDS gives, and may use none for as long."""
import os
import re
import shutil
import sys
import tempfile
from collections import Counter

sys.dont_write_bytecode = True

from case_files import CaseError, read_cases  # noqa: E402
from case_runs import faults_of, watched  # noqa: E402
from case_trees import is_out_of_reach  # noqa: E402


def files_of(places):
    """The files of cases in folders, and those that are named."""
    for place in places:
        if os.path.isfile(place):
            yield place
        for folder, inner, names in os.walk(place):
            inner.sort()
            names = sorted(name for name in names if name.endswith(".cases"))
            yield from (os.path.join(folder, name) for name in names)


def parted(words):
    """The given texts by their names, and the other words."""
    given = [word.split("=", 1) for word in words if re.match(r"\w+=", word)]
    return dict(given), [word for word in words if not re.match(r"\w+=", word)]


def passes(program, case):
    """Whether a case goes as it must. If not, it is printed why."""
    faults = faults_of(program, case)
    if faults:
        row = f" ({case.row[:100]})" if case.row else ""
        print(f"FAILED {case.place}: {case.name}{row}: {faults[0]}")
        print("".join(f"    {fault}\n" for fault in faults[1:]), end="")
    return not faults


def told_skipped(cases):
    """Prints which cases need rights that this user does not have, and returns the others."""
    skipped = [case for case in cases if is_out_of_reach(case)]
    for (place, name), count in Counter((case.place, case.name) for case in skipped).items():
        print(f"SKIPPED {place}: {name}: {count} of its rows need the rights of root")
    return [case for case in cases if case not in skipped]


def main(words):
    if len(words) < 2:
        print(__doc__)
        return 2
    watched.end_on_signals()
    # A copy, since a case without rights may not reach the program where it lies.
    with tempfile.TemporaryDirectory() as folder:
        os.chmod(folder, 0o755)
        program = os.path.join(folder, "program")
        try:
            shutil.copyfile(words[0], program)
            os.chmod(program, 0o755)
            given, places = parted(words[1:])
            cases = [case for path in files_of(places) for case in read_cases(path, given)]
            for name in given.keys() - {name for case in cases for name in case.names}:
                raise CaseError(f"no text is named {name!r}")
            results = [passes(program, case) for case in told_skipped(cases)]
        except (CaseError, OSError) as error:
            print(f"FAILED {error}")
            results = [False]
    passed = sum(results)
    failed = len(results) - passed
    print(f"{passed} passed, {failed} failed")
    return 0 if passed and not failed else 1


if __name__ == "__main__":
    sys.exit(main(sys.argv[1:]))
