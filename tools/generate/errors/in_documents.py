"""What the documents have of each error: its numbers, names and texts in tables."""
from error_list import by_number, declared, of_kinds

# what a part of the format is written as
PARTS = ", where the part is `EntryMetadata`, `Config::EncodedKey`, `Config::EncodedValue` or `Header`"


def numbered(status):
    """The row of a status in "Numbers for C"."""
    name = f"`{status.name}`" if status.name else ""
    return f"| {status.number} | `ODHT_{status.constant}` | {name} | {status.short} |\n"


def written(error):
    """The row of an error's text."""
    return f"| `{error.name}` | `{error.text}`{PARTS if 'Part' in error.fields.values() else ''} |\n"


def table(head, rows):
    """A table."""
    titles = " | ".join(head)
    return f"| {titles} |\n|{'---|' * len(head)}\n{''.join(rows)}"


def files(statuses):
    """The regions by path. No vector has a bound."""
    numbers = table(["number", "name in `odht.h`", "error", "short text"], map(numbered, by_number(statuses)))
    some = declared(of_kinds(statuses, "header", "slots", "check", "call"))
    return {
        "docs/FORMAT.md": {"numbers": numbers},
        "crates/odht_vectors/data/README.md": {"texts": table(["error", "text"], map(written, some))},
    }
