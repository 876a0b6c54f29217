"""Where what is written by hand has to name each error, or has the numbers of some: `faults` tells what is left out."""
import re

from error_list import KINDS, ROOT, of_kinds, ranges
from header_marks import RANGES

OF_BYTES = ["header", "slots", "check", "bound"]
WITHOUT_BOUND = ["header", "slots", "check", "call"]
# a file, the part of it between two texts, how it names an error, and the kinds that it names
NAMED = [
    ("docs/FORMAT.md", "\n## What is rejected", "\n## How long searches are", r"\| `{}` \|", OF_BYTES),
    ("docs/USING.md", "\n| error | when |", "\n\n", r"`{}`", KINDS),
    ("crates/odht_interface/src/errors.rt", "\nconst OPENING", "\nfn kind_of", r"Error::{}\b", WITHOUT_BOUND),
    ("crates/odht_calls/proofs/examples/Statuses.antt", "\npub opening_statuses", "\npub other_statuses",
     r"status_of \(?{}\b", KINDS),
]
# files that tell the numbers of errors from 1 on
NUMBERED = ["bindings/rust/src/error.rs", "bindings/rust/src/table.rs", "bindings/rust/src/table_mut.rs"]


def left_out(statuses):
    """What a file does not name."""
    for path, begins, ends, form, kinds in NAMED:
        text = (ROOT / path).read_text().partition(begins)[2].partition(ends)[0]
        for error in of_kinds(statuses, *kinds):
            if not re.search(form.format(error.name), text):
                yield f"{path} does not name {error.name} behind {begins.strip()!r}"


def other_numbers(statuses):
    """Numbers that are not those of the errors which calls return."""
    right = [ranges(of_kinds(statuses, *kinds)) for kinds in RANGES.values()]
    for path in NUMBERED:
        for found in re.findall(r"\b1 to (?!100\b)\d+(?: and \d+(?: to \d+)?)*", (ROOT / path).read_text()):
            if found not in right:
                yield f"{path}: errors {found}; calls return {', '.join(right)}"


def faults(statuses):
    """What is wrong, as sentences."""
    yield from left_out(statuses)
    yield from other_numbers(statuses)
