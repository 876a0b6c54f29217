"""Generates the files that come from the list of shapes. `--check` only reports what is not current.

Each module here makes the files of one kind of user. Its `files(shapes)` returns their texts by path below the root.
Its FOLDERS have generated files alone: another file that is found there is removed."""
import sys

import c
import rust
import shape_list
import tool

MAKERS = [c, rust, tool]


def differences(texts, folders):
    """The paths of the files that are not as they should be."""
    root = shape_list.ROOT
    for path, text in texts.items():
        if not (root / path).is_file() or (root / path).read_text() != text:
            yield path
    for folder in folders:
        for path in (root / folder).iterdir():
            if str(path.relative_to(root)) not in texts:
                yield str(path.relative_to(root))


def write(path, text):
    """Writes a file, or removes it where it has no text."""
    file = shape_list.ROOT / path
    if text is None:
        file.unlink()
    else:
        file.parent.mkdir(parents=True, exist_ok=True)
        file.write_text(text)


def main():
    shapes = shape_list.read()
    texts = {path: text for maker in MAKERS for path, text in maker.files(shapes).items()}
    changed = list(differences(texts, [folder for maker in MAKERS for folder in maker.FOLDERS]))
    if "--check" in sys.argv:
        for path in changed:
            print(f"{path} is not current: run make generate", file=sys.stderr)
        sys.exit(1 if changed else 0)
    for path in changed:
        write(path, texts.get(path))


main()
