"""What the code of the crates has of each error: its variant, the arm that writes it, its number, slot and kind."""
import re
import textwrap

from error_list import by_number, declared, errors, of_kinds

# the widths at which `rt fmt` parts a line, the arguments of a macro, and the fields of a pattern
LINE, ARGUMENTS, FIELDS = 100, 60, 18
ARM = " " * 8
# the functions of error.rt that write errors, each with how far its arms are indented, and the kinds of these errors
WRITERS = {
    "fmt": (12, ["header"]),
    "write_contents_error": (8, ["slots", "check", "bound"]),
    "write_call_error": (8, ["call"]),
}
# what the tests of the interface call each kind
WORDS = {
    "header": "opening",
    "slots": "opening",
    "check": "checking",
    "bound": "checking within a bound",
    "call": "calls",
}


def is_bytes(type_name):
    """Whether a field of this type is an array of bytes."""
    return type_name.startswith("[")


def variant(error):
    """An error in the declaration of `Error`."""
    fields = "".join(f"{ARM}{name}: {type_name},\n" for name, type_name in error.fields.items())
    body = f" {{\n{fields}    }}" if fields else ""
    mark = "    /// "
    text = " ".join(error.texts["error.rt"])
    comment = textwrap.fill(text, LINE - 1, initial_indent=mark, subsequent_indent=mark, break_on_hyphens=False)
    return f"{comment}\n    {error.name}{body},\n"


def taken(error, indent):
    """The pattern that takes all fields of an error."""
    names = ", ".join(error.fields)
    if len(names) > FIELDS:
        return f"Error::{error.name} {{\n" + "".join(f"{indent}    {it},\n" for it in error.fields) + f"{indent}}}"
    return f"Error::{error.name} {{ {names} }}" if names else f"Error::{error.name}"


def formatted(error):
    """Its text as `write!` takes it: bytes are written by `Debug`."""
    return re.sub(r"\{(\w+)\}", lambda it: f"{{{it[1]}:?}}" if is_bytes(error.fields[it[1]]) else it[0], error.text)


def written(error, indent):
    """The arm that writes an error."""
    head, arguments = f"{indent}{taken(error, indent)} =>", f'f, "{formatted(error)}"'
    if len(arguments) > ARGUMENTS:
        lines = arguments.replace("f, ", f"f,\n{indent}    ", 1)
        return f"{head} write!(\n{indent}    {lines}\n{indent}),\n"
    if len(f"{head} write!({arguments}),") <= LINE:
        return f"{head} write!({arguments}),\n"
    return f"{head} {{\n{indent}    write!({arguments})\n{indent}}}\n"


def writers(statuses):
    """The regions of the functions that write errors."""
    return {
        name: "".join(written(it, " " * indent) for it in declared(of_kinds(statuses, *kinds)))
        for name, (indent, kinds) in WRITERS.items()
    }


def any_of(error):
    """The pattern of an error, whatever its fields are."""
    return f"Error::{error.name} {{ .. }}" if error.fields else f"Error::{error.name}"


def numbered(statuses, indent):
    """The arms from each error to its number."""
    return "".join(f"{indent}{any_of(it)} => {it.number},\n" for it in by_number(errors(statuses)))


def with_slot(error):
    """The pattern of an error that takes its slot."""
    rest = ", .." if len(error.fields) > 1 else ""
    return f"Error::{error.name} {{ {error.slot}{rest} }}"


def arm(patterns, value):
    """An arm with these patterns."""
    head = f"{ARM}{' | '.join(patterns)} =>"
    if len(f"{head} {value},") <= LINE:
        return f"{head} {value},\n"
    if len(head) <= LINE:
        return f"{head}\n{ARM}    {value},\n"
    return f"{head} {value},\n".replace(" | ", f"\n{ARM}| ")


def grouped(some, key, pattern, value):
    """The arms of errors; those of one key are one arm."""
    groups = {}
    for error in some:
        groups.setdefault(key(error), []).append(pattern(error))
    return "".join(arm(patterns, value(it)) for it, patterns in groups.items())


def files(statuses):
    """The regions by path."""
    named = [it for it in errors(statuses) if it.slot]
    kinds = grouped(declared(statuses), lambda it: WORDS[it.kind], any_of, '"{}"'.format)
    variants = "".join(map(variant, declared(statuses)))
    return {
        "crates/odht_header/src/error.rt": {"variants": variants, **writers(statuses)},
        "crates/odht_calls/src/status.rt": {"status_of": numbered(statuses, ARM)},
        "crates/odht_calls/src/places.rt": {"slot_of": grouped(named, lambda it: it.slot, with_slot, str)},
        "crates/odht_interface/src/errors.rt": {"kind_of": kinds},
    }
