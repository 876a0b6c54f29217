"""What crates in Rust have of each error: the list of odht-ffi and of its test, numbers, and the order of checks."""
import textwrap

from error_list import by_number, errors, of_kinds
from in_code import numbered

LINE = 120


def camel(status):
    """The name of a status in odht-ffi: that for C as one word."""
    return "".join(it.capitalize() for it in status.constant.split("_"))


def listed(status):
    """The lines of a status in the list of odht-ffi."""
    comment = "".join(f"    /// {it}\n" for it in status.texts["odht-ffi"])
    return f'{comment}    {camel(status)} = {status.number} "{status.short}",\n'


def tested(some):
    """The list of the test."""
    rows = "".join(f'    ({it.number}, Error::{camel(it)}, "{it.short}"),\n' for it in some)
    return f"const ERRORS: [(u32, Error, &str); {len(some)}] = [\n{rows}];\n"


def in_order(statuses):
    """The sentence that tells which errors the whole check returns behind those of opening, in their order."""
    names = [f"`{it.name}`" for it in of_kinds(statuses, "slots", "check")]
    text = "The first of the errors that [`HashTable::try_from_raw_bytes`] returns, then of "
    text += f"{', '.join(names[:-1])} and {names[-1]}."
    lines = textwrap.wrap(text, LINE - len("/// "), break_long_words=False, break_on_hyphens=False)
    return "".join(f"/// {it}\n" for it in lines)


def files(statuses):
    """The regions by path."""
    in_bindings = [it for it in by_number(statuses) if "odht-ffi" in it.texts]
    return {
        "bindings/rust/src/error.rs": {"errors": "".join(map(listed, in_bindings))},
        "bindings/rust/tests/errors.rs": {"ERRORS": tested(in_bindings)},
        "rust/beside/src/c_library.rs": {"status": numbered(errors(statuses), " " * 12)},
        "rust/src/sizes.rs": {"order": in_order(statuses)},
    }
