"""What tools/shapes writes into the header and the exports for the marks of these names: numbers, and the statuses."""
from error_list import by_number, of_kinds, ranges

# where the comments on statuses begin, and whose lines stand together
COLUMN = 42
GROUPS = {"OK": ["ok"], "OPENING": ["header", "slots"], "CHECK": ["check"], "BOUND": ["bound"], "CALL": ["call"]}
GROUPS["OTHER"] = ["other"]
# the numbers of the errors that a call on bytes, opening and the whole check return
RANGES = {"HEADER": ["header"], "OPENING": ["header", "slots"], "CHECK": ["header", "slots", "check"]}


def in_order(statuses):
    """The numbers of errors that the whole check looks for behind all slots, before the bound, and behind it."""
    some = of_kinds(statuses, "header", "slots", "check", "bound")
    kinds = [it.kind for it in some]
    bound = kinds.index("bound")
    last_slot = len(kinds) - 1 - kinds[::-1].index("slots")
    behind = [it for it in some[last_slot + 1:] if it.kind != "bound"]
    found = {"BEHIND_SLOTS": behind, "BEFORE_BOUND": some[:bound], "BEHIND_BOUND": some[bound + 1:]}
    return {name: ranges(part) for name, part in found.items()}


def enumerated(status, comma):
    """The line of a status in `enum odht_status`."""
    lines = status.texts.get("odht.h", [])
    text = f"\n{' ' * (COLUMN + 3)}".join(lines)
    words = ": ".join(filter(None, (status.name and f"Error::{status.name}", text)))
    return f"    ODHT_{status.constant} = {status.number}{comma}".ljust(COLUMN) + f"/* {words} */"


def marks(statuses):
    """The texts by the names of their marks."""
    last = max(it.number for it in statuses)
    found = {name: ranges(of_kinds(statuses, *kinds)) for name, kinds in RANGES.items()}
    for name, kinds in GROUPS.items():
        some = by_number(of_kinds(statuses, *kinds))
        found[f"STATUS_{name}"] = "\n".join(enumerated(it, "" if it.number == last else ",") for it in some)
    cases = (f'    case ODHT_{it.constant}: return "{it.short}";' for it in by_number(statuses))
    return found | in_order(statuses) | {"STATUS_NAMES": "\n".join(cases)}
