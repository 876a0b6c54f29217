"""Reads files of cases; README.md beside this file describes their form."""
import itertools
import os
import re

from case_trees import NAMED_USERS

TOP = os.path.dirname(os.path.dirname(os.path.abspath(__file__)))
INDENT = "    "
KEY = re.compile(r"(let \w+|for \w+(?: \| \w+)*|"
                 r"(?:before|after|link|hard|special|mode|owner|mode-after|owner-after) \S+|"
                 r"folder|args|stdin|stdout|stderr|status|input|output|writes|errors|room|rights|user|umask|"
                 r"parted):(?: (.*))?")
CHOICES = {
    "input": "each byte alone|fails after [0-9]+ bytes|a folder",
    "output": "full|no reader",
    "errors": "full|output",
    "rights": "read only",
    "user": "root|nobody",
}
SPECIAL = "FIFO|socket|device"
NAME = re.compile(r"\\\{(\w+)\}")
ESCAPE = re.compile(rb"\\(?:x([0-9a-f]{2})|([0-9]+)\{([^{}]*)\}|(.?))", re.DOTALL)
LETTERS = {b"t": b"\t", b"r": b"\r", b"n": b"\n", b"s": b" "}


class CaseError(Exception):
    """A file of cases that is not understood."""


class Text:
    """Bytes that are expected: all of them, or how they begin."""

    def __init__(self, content, is_whole=True):
        self.content, self.is_whole = content, is_whole


class Block:
    """A case as it is written: each key with its lines, and the rows for which it is run."""

    def __init__(self, place, name, lets):
        self.place, self.name, self.lets = place, name, lets
        self.fields, self.tables = {}, []

    def note(self, key, lines):
        if key in self.fields:
            raise CaseError(f"{self.place}: two of {key!r}")
        self.fields[key] = lines

    def note_rows(self, columns, lines):
        """Notes a value for each column of each row."""
        rows = []
        for line in lines:
            values = [value.strip() for value in line.split(" | ")]
            if len(values) != len(columns):
                raise CaseError(f"{self.place}: a row of {len(values)} values: {line!r}")
            values = ["" if value == "\\" else value for value in values]
            rows.append(dict(zip(columns, values)))
        if not rows:
            raise CaseError(f"{self.place}: no row")
        self.tables.append(rows)


class Case:
    """What a program is run on, and what it must do."""

    def __init__(self, block, row):
        self.place, self.name = block.place, block.name
        self.row = " | ".join(row.values())
        self.names = {**block.lets, **row}
        fields = dict(block.fields)
        self.args = self.words(fields.pop("args", []))
        self.stdin = self.text(fields.pop("stdin", [])).content
        self.has_stdout = "stdout" in fields
        self.stdout = self.text(fields.pop("stdout", []))
        self.stderr = self.text(fields.pop("stderr", []))
        self.is_killed = fields.get("status") == ["killed"]
        self.status = None if self.is_killed else self.number(fields.get("status", ["0"]))
        fields.pop("status", None)
        self.umask = self.mode(fields.pop("umask")) if "umask" in fields else None
        self.parted = self.one_line(fields.pop("parted")) if "parted" in fields else None
        self.room = self.number(fields.pop("room")) if "room" in fields else None
        self.writes = self.numbers(fields.pop("writes")) if "writes" in fields else None
        self.folder = self.one_line(fields.pop("folder")) if "folder" in fields else None
        self.choices = {key: self.choice(key, fields.pop(key, None)) for key in CHOICES}
        self.note_files(fields)
        if self.has_stdout and self.choices["output"]:
            raise CaseError(f"{self.place}: nobody can compare this output")
        if self.writes is not None and (self.choices["output"] or self.room is not None):
            raise CaseError(f"{self.place}: nobody can tell the writes of this output apart")

    def note_files(self, fields):
        """Notes what is said of files, of each kind by their names."""
        readers = {"before": lambda lines: self.text(lines).content, "link": self.one_line,
                   "hard": self.one_line, "special": self.special, "mode": self.mode, "owner": self.owner}
        self.named = {kind: {} for kind in [*readers, "after", "mode-after", "owner-after"]}
        for key, lines in fields.items():
            kind, name = key.split(" ")
            reader = readers["before" if kind == "after" else kind.replace("-after", "")]
            self.named[kind][name] = reader(lines)
        self.before, self.after = self.named["before"], self.named["after"]
        self.check_names()

    def check_names(self):
        """Rejects what is said of a file that is nowhere else, and a kill that nothing would cause."""
        made = {name for kind in ("before", "after", "hard", "special") for name in self.named[kind]}
        for kind in ("mode", "owner", "mode-after", "owner-after"):
            for name in self.named[kind]:
                if name not in made:
                    raise CaseError(f"{self.place}: no file is named {name!r}")
        if self.parted and self.parted not in self.named["hard"]:
            raise CaseError(f"{self.place}: {self.parted!r} is no second name")
        if self.is_killed and self.room is None:
            raise CaseError(f"{self.place}: nothing kills it without room")

    def expanded(self, line):
        """The line with texts in the place of names."""
        def named(match):
            if match[1] not in self.names:
                raise CaseError(f"{self.place}: no text is named {match[1]!r}")
            return self.expanded(self.names[match[1]])
        return NAME.sub(named, line)

    def plain(self, text):
        """The bytes of a text with escapes."""
        def escaped(match):
            digits, count, repeated, letter = match.groups()
            if digits:
                return bytes([int(digits, 16)])
            if count:
                return int(count) * ESCAPE.sub(escaped, repeated)
            if letter not in LETTERS:
                raise CaseError(f"{self.place}: no such escape in {text!r}")
            return LETTERS[letter]
        return ESCAPE.sub(escaped, text.encode())

    def text(self, lines):
        """The text of lines, or the bytes of a file."""
        if len(lines) == 1 and lines[0].startswith("< "):
            with open(os.path.join(TOP, self.expanded(lines[0][2:])), "rb") as file:
                return Text(file.read())
        content, is_whole = b"", True
        for line in map(self.expanded, lines):
            is_whole = not line.endswith("...")
            if line.endswith("\\"):
                content += self.plain(line[:-1])
            elif is_whole:
                content += self.plain(line) + b"\n"
            else:
                content += self.plain(line[:-3])
        return Text(content, is_whole)

    def one_line(self, lines):
        if len(lines) != 1:
            raise CaseError(f"{self.place}: a value of one line is wanted")
        return self.expanded(lines[0])

    def number(self, lines):
        value = self.one_line(lines)
        if not value.isdigit():
            raise CaseError(f"{self.place}: {value!r} is no number")
        return int(value)

    def numbers(self, lines):
        return [self.number([word]) for word in self.one_line(lines).split(" ")]

    def mode(self, lines):
        value = self.one_line(lines)
        if not re.fullmatch("[0-7]{3,4}", value):
            raise CaseError(f"{self.place}: {value!r} is no mode")
        return int(value, 8)

    def owner(self, lines):
        """A user and a group."""
        words = self.one_line(lines).split(" ")
        if len(words) != 2 or not all(word in NAMED_USERS for word in words):
            raise CaseError(f"{self.place}: a user and a group are wanted, each root or nobody")
        return tuple(NAMED_USERS[word] for word in words)

    def special(self, lines):
        value = self.one_line(lines)
        if not re.fullmatch(SPECIAL, value):
            raise CaseError(f"{self.place}: no file is a {value!r}")
        return value

    def words(self, lines):
        words = self.one_line(lines).split(" ") if lines else []
        return [b"" if word == '""' else self.plain(word) for word in words]

    def choice(self, key, lines):
        if lines is None:
            return None
        value = self.one_line(lines)
        if not re.fullmatch(CHOICES[key], value):
            raise CaseError(f"{self.place}: {key} cannot be {value!r}")
        return value


def indented(lines, at):
    """The indented lines from a line on, and the number of the line after them.

    Blank lines between them are lines of the text."""
    found = []
    while at < len(lines) and (lines[at].startswith(INDENT) or not lines[at]):
        found.append(lines[at][len(INDENT):])
        at += 1
    while found and not found[-1]:
        found.pop()
    return found, at


def range_lines(value):
    """The numbers of `M to N`, each on a line."""
    first, last = value.split(" to ")
    return [str(number) for number in range(int(first), int(last) + 1)]


def note_line(path, number, block, lets, key, lines):
    """Notes a key with its lines: of the file, or of the case that has begun."""
    kind, _, rest = key.partition(" ")
    if kind == "let":
        if len(lines) != 1:
            raise CaseError(f"{path}:{number}: a text of one line is wanted")
        lets[rest] = lines[0]
    elif block is None:
        raise CaseError(f"{path}:{number}: {key!r} before the first case")
    elif kind == "for":
        is_range = len(lines) == 1 and re.fullmatch("[0-9]+ to [0-9]+", lines[0])
        block.note_rows(rest.split(" | "), range_lines(lines[0]) if is_range else lines)
    else:
        block.note(key, lines)


def read_lines(path):
    """The lines of a file, each without what nobody sees."""
    with open(path, encoding="utf-8") as file:
        lines = file.read().split("\n")
    for number, line in enumerate(lines, 1):
        if line != line.rstrip() or "\t" in line:
            raise CaseError(f"{path}:{number}: a tab, or a space at the end; write \\t or \\s")
    return lines


def read_blocks(path):
    """The cases of a file as they are written."""
    lines, blocks, lets, at = read_lines(path), [], {}, 0
    while at < len(lines):
        line, at = lines[at], at + 1
        if not line or line.startswith("#"):
            continue
        if line.startswith("== "):
            blocks.append(Block(f"{path}:{at}", line[3:], lets))
            continue
        key = KEY.fullmatch(line)
        if key is None:
            raise CaseError(f"{path}:{at}: not understood: {line!r}")
        text, at = ([key[2]], at) if key[2] is not None else indented(lines, at)
        note_line(path, at, blocks[-1] if blocks else None, lets, key[1], text)
    return blocks


def check_columns(block):
    """Rejects a column that no line names: its rows would all be the same run."""
    written = "\n".join(line for lines in block.fields.values() for line in lines)
    for rows in block.tables:
        for column in rows[0]:
            if f"\\{{{column}}}" not in written:
                raise CaseError(f"{block.place}: nothing names {column!r}")


def read_cases(path, given=None):
    """The cases of a file, one for each row. A given text stands for that of a line `let` of its name."""
    cases = []
    for block in read_blocks(path):
        block.lets.update({name: text for name, text in (given or {}).items() if name in block.lets})
        check_columns(block)
        for rows in itertools.product(*block.tables):
            row = {column: value for part in rows for column, value in part.items()}
            cases.append(Case(block, row))
    return cases
