"""The list of ready shapes, lists/shapes.txt, as records."""
import dataclasses
import pathlib

ROOT = pathlib.Path(__file__).resolve().parents[3]


@dataclasses.dataclass(frozen=True)
class Shape:
    """A line of the list: `calls` is the name of its calls for C, or None."""
    calls: str | None
    configuration: str
    key: str
    value: str
    hash: str
    words: str

    @property
    def is_set(self):
        """Whether it has no values."""
        return self.value == "()"


def byte_count(type_name):
    """How many bytes a key or value of this type has in a table."""
    if type_name == "()":
        return 0
    if type_name.startswith("["):
        return int(type_name[len("[u8;"):-1])
    return int(type_name[1:]) // 8


def read():
    """The shapes, in the order of the list."""
    lines = (ROOT / "lists/shapes.txt").read_text().splitlines()
    rows = (line.split(maxsplit=5) for line in lines if line and not line.startswith("#"))
    return [Shape(None if calls == "-" else calls, *rest) for calls, *rest in rows]
