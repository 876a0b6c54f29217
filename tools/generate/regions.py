"""The regions of files that are otherwise written by hand. A region lies between two comments, `begin NAME: generated
from LIST by make generate` and `end NAME`, and its name is unique in the file."""
import pathlib
import re
import sys

ROOT = pathlib.Path(__file__).resolve().parents[2]
# a comment of a line, by the ending of the file
COMMENTS = {".rt": "// {}", ".rs": "// {}", ".antt": "-- {}", ".md": "<!-- {} -->"}
BEGINS = "begin {}: generated from {} by make generate"
ENDS = "end {}"


def bordered(path, name, source):
    """Returns the pattern of a region: the comment before it, its lines, and the comment after it, with their empty lines."""
    form = COMMENTS[pathlib.Path(path).suffix]
    first, last = (re.escape(form.format(it)) for it in (BEGINS.format(name, source), ENDS.format(name)))
    return re.compile(rf"^([ ]*{first}\n\n?)(.*?)^(\n?[ ]*{last}\n)", re.M | re.S)


def filled(path, parts, source):
    """Returns the text of a file with these lines in the regions of these names, which are all that come from the source."""
    text = (ROOT / path).read_text()
    for name, lines in parts.items():
        text, count = bordered(path, name, source).subn(lambda it: it[1] + lines + it[3], text)
        if count != 1:
            sys.exit(f"{path}: {count} regions {name!r} from {source}, not one (tools/generate/regions.py has their marks)")
    begun = len(re.findall(BEGINS.format(r"\w+", re.escape(source)), text))
    if begun != len(parts):
        sys.exit(f"{path}: {begun} regions from {source}, not {len(parts)}")
    return text
