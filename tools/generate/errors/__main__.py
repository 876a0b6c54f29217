"""Generates the regions of files that come from the list of errors. `--check` only reports what is not current.

Each module of MAKERS has `files(statuses)`. It returns a dictionary: for each path below the root the regions of that
file, by name (../regions.py). header_marks.py has what ../shapes writes into the header and the exports. `--check` also
fails if a text by hand leaves out an error (mentions.py)."""
import pathlib
import sys

sys.path.append(str(pathlib.Path(__file__).resolve().parents[1]))

import error_list
import in_code
import in_definitions
import in_documents
import in_rust
import mentions
import regions

MAKERS = [in_code, in_definitions, in_rust, in_documents]


def main():
    statuses = error_list.read()
    parts = {path: names for maker in MAKERS for path, names in maker.files(statuses).items()}
    texts = {path: regions.filled(path, names, "lists/errors.txt") for path, names in parts.items()}
    changed = {path: text for path, text in texts.items() if (error_list.ROOT / path).read_text() != text}
    if "--check" in sys.argv:
        wrong = [f"{path} is not current: run make generate" for path in changed] + list(mentions.faults(statuses))
        print("".join(f"{it}\n" for it in wrong), end="", file=sys.stderr)
        sys.exit(1 if wrong else 0)
    for path, text in changed.items():
        (error_list.ROOT / path).write_text(text)


main()
