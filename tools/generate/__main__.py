"""Generates all files and regions of files that come from lists.

  tools/generate                  writes what is not current
  tools/generate --check          writes nothing; reports what is not current, with status 1
  tools/generate [--check] PART.. only these parts

The parts, each a folder or file here:

  errors     from lists/errors.txt: the errors in code, definitions and documents
  shapes     from lists/shapes.txt: the header, the exports of each shape, the shapes of the program
  commands   from lists/commands.txt: the commands and options of the program, its help and cases
  manual     from lists/commands.txt and the help: the manual page, and completions of three shells
  documents  copies of documents for the package of the crate for Rust
  speeds     from bench/RESULTS.md: the speeds in README.md and rust/README.md

`make generate` runs this, and then tools/erase, which generates the plain-Rust sources from the proved crates.
"""
import pathlib
import subprocess
import sys

HERE = pathlib.Path(__file__).resolve().parent
# in this order: the manual page reads the help, which comes from the list of commands
PARTS = {"errors": "errors", "shapes": "shapes", "commands": "commands", "manual": "manual.py",
         "documents": "documents.py", "speeds": "speeds.py"}


def main(*words):
    check = [it for it in words if it == "--check"]
    chosen = [it for it in words if it != "--check"] or list(PARTS)
    if not set(chosen) <= set(PARTS):
        sys.exit(__doc__)
    failed = [it for it in PARTS if it in chosen
              and subprocess.run([sys.executable, HERE / PARTS[it], *check]).returncode != 0]
    return 1 if failed else 0


if __name__ == "__main__":
    sys.exit(main(*sys.argv[1:]))
