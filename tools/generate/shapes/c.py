"""What C and C++ have of each shape: its exports, the list of their modules, include/odht.h, and include/odht.hpp.

The parts are in crates/odht_c/exports: shape.rt.in is the exports of one shape, header_*.h are the header in this order
of PARTS, header.hpp.in is that for C++. A mark @NAME@ in a part is replaced by its text; those of errors and statuses
are in ../errors/header_marks.py."""
import sys

import shape_list

sys.path.append(str(shape_list.ROOT / "tools/generate/errors"))
import error_list
import header_marks

FOLDERS = ["crates/odht_c/src/generated"]
EXPORTS = shape_list.ROOT / "crates/odht_c/exports"
PARTS = ["head", "calls", "kinds", "table", "map", "set", "any"]
HASHES = {"fx": "FxHashFn", "unhash": "UnHashFn"}
LINE = 100


def filled(text, marks):
    """The text with each mark replaced."""
    for name, value in marks.items():
        text = text.replace(f"@{name}@", value)
    return text


def part(name):
    """A part, with the marks of errors and statuses replaced."""
    return filled((EXPORTS / name).read_text(), header_marks.marks(error_list.read()))


def is_bytes(type_name):
    """Whether a key or value of this type is an array of bytes, which is passed by reference."""
    return type_name.startswith("[")


def spaced(type_name):
    """A type as it is written in code: `[u8; 16]`."""
    return type_name.replace(";", "; ")


def parameter(type_name):
    """The type of the parameter for a single key or value."""
    return f"&{spaced(type_name)}" if is_bytes(type_name) else type_name


def passed(name, type_name):
    """A parameter as the calls of odht_calls take it: by reference."""
    return name if is_bytes(type_name) else f"&{name}"


def meant(name, type_name):
    """What a clause calls the key or value of a parameter."""
    return f"{name}.now" if is_bytes(type_name) else name


def wrapped(line):
    """A line of code; the signature of a function that is too long has a parameter a line, as `rt fmt` has it."""
    if len(line) <= LINE or not line.startswith("pub extern"):
        return line
    name, _, rest = line.partition("(")
    parameters, _, result = rest.rpartition(")")
    return "\n".join([f"{name}(", *(f"    {it}," for it in parameters.split(", ")), f"){result}"])


def exports(shape, template):
    """The exports of a shape."""
    pair = [f"key: {parameter(shape.key)}"]
    if not shape.is_set:
        pair.append(f"value: {parameter(shape.value)}")
    marks = {
        "WORDS": f"{shape.words}, {HASHES[shape.hash]}",
        "NAME": shape.calls,
        "CONFIG": shape.configuration,
        "PAIR": ", ".join(pair),
        "KEY": spaced(shape.key),
        "KEY_PARAMETER": parameter(shape.key),
        "KEY_NOW": meant("key", shape.key),
        "KEY_REFERENCE": passed("key", shape.key),
        "VALUE": spaced(shape.value),
        "VALUE_NOW": "tt" if shape.is_set else meant("value", shape.value),
        "VALUE_REFERENCE": "&()" if shape.is_set else passed("value", shape.value),
    }
    return "".join(f"{wrapped(line)}\n" for line in filled(template, marks).splitlines())


def modules(shapes):
    """The file that names the modules of the exports."""
    names = sorted(shape.calls for shape in shapes)
    head = "//! The exports of each shape of table. Generated from lists/shapes.txt by make generate.\n\n"
    return head + "".join(f"pub(crate) mod {name};\n" for name in names)


def kind(type_name):
    """A key or value as the macros of the header take it: what it is, and how many bits or bytes it has."""
    count = shape_list.byte_count(type_name)
    return f"ODHT_BYTES, {count}" if is_bytes(type_name) else f"ODHT_NUMBER, {8 * count}"


def declared(shape):
    """The line of the header that declares the calls of a shape."""
    if shape.is_set:
        return f"ODHT_DECLARE_SET({shape.calls}, {kind(shape.key)})\n"
    return f"ODHT_DECLARE_MAP({shape.calls}, {kind(shape.key)}, {kind(shape.value)})\n"


def listed(shape):
    """The line of the header's first comment that names a shape."""
    return f" *   odht_{shape.calls + '_*':<10} {shape.words}, {HASHES[shape.hash]}"


def header(shapes):
    """include/odht.h."""
    version = (shape_list.ROOT / "packaging/VERSION").read_text().strip()
    major, minor, patch = version.split(".")
    marks = {"SHAPES": "\n".join(map(listed, shapes)), "VERSION": version}
    marks |= {"MAJOR": major, "MINOR": minor, "PATCH": patch}
    parts = "".join(part(f"header_{it}.h") for it in PARTS)
    lines = "".join(map(declared, shapes))
    return f"{filled(parts, marks)}\n/* Each shape. */\n{lines}{part('header_tail.h')}"


def typed(type_name):
    """A key or value as C++ names it."""
    count = shape_list.byte_count(type_name)
    return f"bytes<{count}>" if is_bytes(type_name) else f"std::uint{8 * count}_t"


def header_for_cpp(shapes):
    """include/odht.hpp."""
    maps = [it for it in shapes if not it.is_set]
    sets = [it for it in shapes if it.is_set]
    marks = {
        "OWNING": part("header_owning.hpp.in"),
        "MAPS": "".join(f"ODHT_HPP_MAP({it.calls}, {typed(it.key)}, {typed(it.value)})\n" for it in maps),
        "SETS": "".join(f"ODHT_HPP_SET({it.calls}, {typed(it.key)})\n" for it in sets),
        "NAMED_MAPS": "".join(f'    "{typed(it.key)} to {typed(it.value)}; " \\\n' for it in maps),
        "NAMED_SETS": " \\\n".join(f'    "{typed(it.key)}{"." if it is sets[-1] else "; "}"' for it in sets),
    }
    return filled(part("header.hpp.in"), marks)


def files(shapes):
    """The texts of these files by path."""
    with_calls = [shape for shape in shapes if shape.calls]
    template = part("shape.rt.in")
    texts = {f"{FOLDERS[0]}/{shape.calls}.rt": exports(shape, template) for shape in with_calls}
    texts[f"{FOLDERS[0]}.rt"] = modules(with_calls)
    texts["include/odht.h"] = header(with_calls)
    texts["include/odht.hpp"] = header_for_cpp(with_calls)
    return texts
