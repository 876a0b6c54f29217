"""Generates the files and regions that come from the list of commands. `--check` only reports what is not current.

Each module here generates the files of one kind. Its `files(commands, options)` returns their texts by path below the
root. Some files are generated whole, others have regions (../regions.py)."""
import pathlib
import sys

sys.path.append(str(pathlib.Path(__file__).resolve().parents[1]))

import cases
import command_list
import documents
import program

MAKERS = [program, cases, documents]


def main():
    commands, options = command_list.read()
    texts = {path: text for maker in MAKERS for path, text in maker.files(commands, options).items()}
    files = {path: command_list.ROOT / path for path in texts}
    changed = [path for path, text in texts.items() if not files[path].is_file() or files[path].read_text() != text]
    if "--check" in sys.argv:
        for path in changed:
            print(f"{path} is not current: run make generate", file=sys.stderr)
        sys.exit(1 if changed else 0)
    for path in changed:
        files[path].write_text(texts[path])


main()
