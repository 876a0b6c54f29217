"""The list of commands, lists/commands.txt, as records."""
import dataclasses
import pathlib
import re
import sys

ROOT = pathlib.Path(__file__).resolve().parents[3]
FILE = "lists/commands.txt"
MADE = f"Generated from {FILE} by make generate"
# the columns of a line of the help text that names a command with its words and options
USAGE_WIDTH = 73
HELP = "--help"
INDENT = "    "
COMMAND = re.compile(
    r"([a-z]+)( FILE(?:\.\.)?(?: [A-Z]+(?:\.\.)?)*)((?: \[[A-Z ]+\]\.\.)?)"
    r"((?: --[a-z-]+ [A-Z]+| \[--[a-z-]+(?: [^] ]+)?\])*)"
)
OPTION = re.compile(r"(--[a-z-]+)(?: +(\S.*))?")


@dataclasses.dataclass(frozen=True)
class Option:
    """A line of the options: `wanted` is what its value is, or None."""
    name: str
    wanted: str | None

    @property
    def variant(self):
        """Its name in the code."""
        return "".join(word.capitalize() for word in self.name.split("-"))


@dataclasses.dataclass(frozen=True)
class Command:
    """A command: the words after its name, those that may be left out, the options behind these as they are written, what
    it does, and its help."""
    name: str
    words: list[str]
    optional: str
    written: list[str]
    options: list[Option]
    summary: str
    text: list[str]

    @property
    def variant(self):
        """Its name in the code."""
        return self.name.capitalize()

    @property
    def constant(self):
        """The name of its help text in the code."""
        return self.name.upper()

    @property
    def start(self):
        """The words that it cannot be without."""
        return " ".join(["odht", self.name, *self.words, *(it for it in self.written if it[0] != "[")])

    @property
    def usage(self):
        """The lines of its words and options, as long as they may be."""
        lines = [" ".join(["odht", self.name, *self.words]) + self.optional]
        indent = " " * len(f"{lines[0]} ")
        for it in self.written:
            if len(f"{lines[-1]} {it}") > USAGE_WIDTH:
                lines.append(f"{indent}{it}")
            else:
                lines[-1] += f" {it}"
        return lines

    @property
    def takes_words(self):
        """Whether words may come after the file."""
        return self.words != ["FILE"] or self.optional != ""

    @property
    def is_of_files(self):
        """Whether all its words are files."""
        return self.words in (["FILE"], ["FILE.."]) and not self.optional

    @property
    def is_reading(self):
        """Whether it reads its file alone. What makes or replaces a file has an option for its other names."""
        return not self.has("--break-links") and not self.is_comparing

    @property
    def is_comparing(self):
        """Whether it compares its file with another. Then it fails with the status 2."""
        return "OTHER" in self.words

    @property
    def is_making(self):
        """Whether it makes its file: then the shape has to be given, or other files that have it."""
        return "--key SHAPE" in self.written or "INPUT.." in self.words

    @property
    def failed(self):
        """The status with which it fails: 2 if 1 is an answer, that a key is absent or that tables differ."""
        return 2 if self.is_comparing or "KEY.." in self.words else 1

    def has(self, option):
        return any(it.name == option for it in self.options)


def fail(what):
    sys.exit(f"{FILE}: {what}")


def read_options(lines):
    """The options, by name."""
    options = {}
    for line in lines:
        found = OPTION.fullmatch(line) or fail(f"this is no option: {line}")
        options[found[1]] = Option(*found.groups())
    return options


def read_command(lines, options):
    """A command of its lines: its words and options, what it does, and its help."""
    found = COMMAND.fullmatch(lines[0]) or fail(f"this is no command: {lines[0]}")
    name, words, optional, rest = found.groups()
    if len(lines) < 3 or lines[1].startswith(INDENT) or not all(it.startswith(INDENT) for it in lines[2:]):
        fail(f"{name}: a line that says what it does is wanted, and then its help, indented by four spaces")
    if any(it in line for line in lines for it in '"\\'):
        fail(f"{name}: a text of the code has no quotes and backslashes here")
    names = [HELP, *re.findall(r"--[a-z-]+", rest)]
    unknown = [it for it in names if it not in options]
    if unknown:
        fail(f"{name}: {unknown[0]} is not among the options")
    written = re.findall(r"\[[^]]*\]|--[a-z-]+ [A-Z]+", rest)
    return Command(name, words.split(), optional, written, [options[it] for it in names], lines[1], lines[2:])


def read():
    """The commands and the options, each in the order of the list."""
    lines = [line for line in (ROOT / FILE).read_text().splitlines() if not line.startswith("#")]
    parts = [part.split("\n") for part in re.split(r"\n\n+", "\n".join(lines).strip("\n"))]
    is_of_options = [part[0].startswith("--") for part in parts]
    if is_of_options.count(True) != 1:
        fail("one part with all options is wanted")
    options = read_options(parts[is_of_options.index(True)])
    commands = [read_command(part, options) for part, is_it in zip(parts, is_of_options) if not is_it]
    if len({it.name for it in commands}) != len(commands):
        fail("two commands have one name")
    return commands, list(options.values())


def values(commands, options):
    """What completes the value of each option that takes one of a few, by its name: the words with a bar between them,
    or, of a SHAPE, those of the list of options; of `hexN` and `text:N` what comes before the number."""
    written = " ".join(it for command in commands for it in command.written)
    found = {name: words.split("|") for name, words in re.findall(r"(--[a-z-]+) ([^] ]*\|[^] ]*)", written)}
    for it in options:
        if f"{it.name} SHAPE" in written:
            found[it.name] = [word.removesuffix("N") for word in re.split(", | or ", it.wanted)]
    return found
