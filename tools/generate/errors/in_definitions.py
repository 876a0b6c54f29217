"""What the definitions and lemmas of the crates have of each error: clauses, and the line with the names of all."""
import re

from error_list import by_number, declared, errors, of_kinds
from in_code import is_bytes

# where a line of `error_text` is parted
LINE = 130
# what the definitions of odht_calls call a field that has another name in the error
SHORTER = {"slot_count": "slots", "count": "n"}


def used(statuses):
    """The line that has the names of all errors."""
    names = ", ".join(it.name for it in declared(statuses))
    return f"use Rattle.odht_header.specs.declared.error.Error.TheVariants.{{{names}}}\n"


def pattern(error, fields):
    """The pattern of an error, with these names of its fields."""
    return f"({' '.join([error.name, *fields])})" if error.fields else error.name


def clause(function, error, value):
    """A clause of a definition by errors, with the fields as they are declared."""
    return f"{function} {pattern(error, error.fields)} = {value}\n"


def shorter(function, error, value):
    """The same as odht_calls has it."""
    names = [SHORTER.get(it, it) for it in error.fields]
    return f"{function} {pattern(error, names)} = {value}\n"


def written(error, field):
    """What is written of a field."""
    type_name = error.fields[field]
    function = "bytes_text" if is_bytes(type_name) else "part_text" if type_name == "Part" else "decimal"
    return f"{function} {field}"


def pieces(error):
    """What the text of an error is joined of: each is a text, and the field behind it."""
    for text, field in re.findall(r"([^{]*)(?:\{(\w+)\})?", error.text):
        parts = [f'codes "{text}"'] if text else []
        parts += [written(error, field)] if field else []
        if parts:
            yield " ++ ".join(parts)


def parted(parts):
    """The parts joined in two lines, of which the longer one is as short as it can be."""
    splits = [(" ++ ".join(parts[:at]), f"++ {' ++ '.join(parts[at:])}") for at in range(1, len(parts))]
    return "\n    ".join(min(splits, key=lambda lines: max(map(len, lines))))


def text_clause(error):
    """The clause of `error_text`."""
    parts = list(pieces(error))
    text = " ++ ".join(parts)
    line = clause("error_text", error, text)
    if len(line.rstrip()) <= LINE:
        return line
    below = text if len(f"    {text}") <= LINE else parted(parts)
    return clause("error_text", error, f"\n    {below}").replace("= \n", "=\n", 1)


def holds_of(function, some):
    """The clauses of a definition that holds of some errors."""
    return "".join(clause(function, it, "Unit") for it in some)


def slots(statuses):
    """The clauses of `slot_of`: of the errors that name a slot, then of the others."""
    some = sorted(errors(statuses), key=lambda it: it.slot is None)
    return "".join(shorter("slot_of", it, it.slot or "no_slot") for it in some)


def letters(error):
    """Names for its fields in a lemma: letters for numbers."""
    names = iter("abcdefgh")
    return ["bs" if is_bytes(it) else "part" if it == "Part" else next(names) for it in error.fields.values()]


def is_not_done(error):
    """The line of the lemma that its number is not that of success."""
    return f"not_done {pattern(error, letters(error))} h = omega (arith, h)\n"


def files(statuses):
    """The regions by path."""
    names, numbers = {"names": used(statuses)}, by_number(errors(statuses))
    return {
        "crates/odht_header/specs/ErrorTexts.antt": {
            **names,
            "error_text": "".join(map(text_clause, declared(statuses))),
            "IsOpeningError": holds_of("IsOpeningError", declared(of_kinds(statuses, "header"))),
            "IsCallError": holds_of("IsCallError", declared(of_kinds(statuses, "call"))),
        },
        "crates/odht_calls/specs/Statuses.antt": {
            **names,
            "status_of": "".join(shorter("status_of", it, it.number) for it in numbers),
        },
        "crates/odht_calls/specs/Places.antt": {**names, "slot_of": slots(statuses)},
        "crates/odht_calls/proofs/lemmas/Statuses.antt": {
            **names,
            "not_done": "".join(map(is_not_done, numbers)),
        },
    }
