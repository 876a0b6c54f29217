"""The list of errors and of the other statuses for C, lists/errors.txt, as records."""
import dataclasses
import pathlib
import re
import sys

ROOT = pathlib.Path(__file__).resolve().parents[3]
# the kinds of errors, in the order of their declaration, and of the other statuses
KINDS = ["header", "slots", "check", "bound", "call"]
OTHERS = ["ok", "other"]
# the numbers that errors may have
NUMBERS = range(1, 32)
TEXTS = ["fields", "text", "error.rt", "odht.h", "odht-ffi"]
ROW = re.compile(r"(\S+) +(\d+) +(\S+) +(\S+) +(\S+) +(\S.*)")
LINE = re.compile(r" {4}(\S+) +(\S.*)")
MORE = re.compile(r" {8,}(\S.*)")
FIELDS = re.compile(r"(\w+: [^,:]+(, \w+: [^,:]+)*)?")


@dataclasses.dataclass(frozen=True)
class Status:
    """A status of the list: that of the error `name`, or where this is None another one."""
    name: str | None
    number: int
    kind: str
    slot: str | None
    constant: str
    short: str
    texts: dict

    @property
    def listed(self):
        """The line of its fields."""
        return " ".join(self.texts.get("fields", []))

    @property
    def fields(self):
        """The names of its fields, each with its type."""
        return dict(it.split(": ") for it in self.listed.split(", ") if it)

    @property
    def text(self):
        """What is written of the error."""
        return " ".join(self.texts.get("text", []))


def of_kinds(statuses, *kinds):
    """The statuses of these kinds, in the order of the list."""
    return [it for it in statuses if it.kind in kinds]


def errors(statuses):
    """The errors, in the order of the list."""
    return of_kinds(statuses, *KINDS)


def by_number(statuses):
    """The same statuses by their numbers."""
    return sorted(statuses, key=lambda it: it.number)


def declared(statuses):
    """The errors in the order of their declaration: by their kinds, and these by number."""
    return sorted(errors(statuses), key=lambda it: (KINDS.index(it.kind), it.number))


def ranges(statuses):
    """Their numbers in words: `1 to 7`, or with a later one `1 to 7 and 22`."""
    parts = []
    for number in sorted(it.number for it in statuses):
        if parts and parts[-1][1] == number - 1:
            parts[-1][1] = number
        else:
            parts.append([number, number])
    return " and ".join(f"{first} to {last}" if first < last else f"{first}" for first, last in parts)


def records(lines):
    """The statuses of these lines."""
    found, texts, key = [], None, None
    for at, line in enumerate(lines, 1):
        row, pair, more = (it.fullmatch(line) for it in (ROW, LINE, MORE))
        if row:
            name, number, kind, slot, constant, short = row.groups()
            texts, key = {}, None
            named = (None if it == "-" else it for it in (name, slot))
            found.append(Status(next(named), int(number), kind, next(named), constant, short, texts))
        elif more and key:
            texts[key].append(more[1])
        elif pair and found and pair[1] in TEXTS and pair[1] not in texts:
            key = pair[1]
            texts[key] = [pair[2]]
        elif line and not line.startswith("#"):
            sys.exit(f"lists/errors.txt:{at}: this line is not understood")
    return found


def faults_of(status):
    """What is wrong with a status by itself."""
    if status.kind not in (KINDS if status.name else OTHERS):
        yield f"the kind is {status.kind}"
    if status.kind in KINDS and status.number not in NUMBERS:
        yield f"its number is {status.number}"
    if not FIELDS.fullmatch(status.listed):
        yield f"its fields are {status.listed}"
        return
    if not status.name:
        return
    yield from (f"it has no line {it}" for it in ("text", "error.rt", "odht-ffi") if it not in status.texts)
    if status.slot and status.slot not in status.fields:
        yield f"it has no field {status.slot}"
    named = re.findall(r"\{(\w+)\}", status.text)
    yield from (f"its text names {it}, which is no field" for it in named if it not in status.fields)


def faults(statuses):
    """What is wrong with the list, as sentences."""
    for status in statuses:
        yield from (f"ODHT_{status.constant}: {it}" for it in faults_of(status))
    for what in ("name", "number", "constant", "short"):
        values = [getattr(it, what) for it in statuses if getattr(it, what) is not None]
        yield from (f"the {what} {it} is there twice" for it in sorted({it for it in values if values.count(it) > 1}))


def read():
    """The statuses, in the order of the list."""
    statuses = records((ROOT / "lists/errors.txt").read_text().splitlines())
    wrong = list(faults(statuses))
    if wrong:
        sys.exit("\n".join(f"lists/errors.txt: {it}" for it in wrong))
    return statuses
