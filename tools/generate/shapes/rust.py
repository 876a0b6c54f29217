"""What Rust and the tests in C have of each shape: lists, as macros that hand each shape to another macro."""
import shape_list
from c import HASHES, is_bytes, spaced

FOLDERS = ["rust/src/configs/generated", "bindings/rust/src/generated", "tests/c/generated"]
HEAD = "Generated from lists/shapes.txt by make generate."


def described(shape):
    """A shape as the beginning of a sentence: what it is from and to, or what it is a set of."""
    words = f"a set {shape.words.removesuffix(', a set')}" if shape.is_set else shape.words
    return f"{words[0].upper()}{words[1:]}"


def configuration(shape):
    """The line of a configuration in the crate for Rust."""
    lengths = f"{shape_list.byte_count(shape.key)}, {shape_list.byte_count(shape.value)}"
    types = f"{spaced(shape.key)} => {spaced(shape.value)}"
    return f'{shape.configuration}: {types}, {lengths}, {HASHES[shape.hash]}, "{described(shape)}";'


def type_of(shape):
    """The type of a shape in odht-ffi."""
    return shape.calls.upper().replace("_", "")


def kind(type_name):
    """A type, and how one is passed."""
    return f"{spaced(type_name)} as {'bytes' if is_bytes(type_name) else 'number'}"


def over_calls(shape):
    """The line of a shape in odht-ffi. The value of a set is not passed."""
    value = "()" if shape.is_set else kind(shape.value)
    names = f"{shape.calls}, {type_of(shape)}, {shape.configuration}"
    return f'{names}: {kind(shape.key)} => {value}, "{described(shape)}";'


def macro(name, meaning, lines):
    """A file with a macro that hands these lines to the macro that is its argument."""
    body = "".join(f"        {line}\n" for line in lines)
    head = f"// {HEAD}\n\n// {meaning}\nmacro_rules! {name} {{\n    ($each:ident) => {{ $each! {{\n"
    return f"{head}{body}    }} }};\n}}\n"


def in_c(type_name):
    """A key or value as the macros of tests/c take it: what it is, and how many bits or bytes it has."""
    count = shape_list.byte_count(type_name)
    return f"BYTES, {count}" if is_bytes(type_name) else f"NUMBER, {8 * count}"


def tested(shape):
    """The line of a shape for the tests in C."""
    hashed = "FX" if shape.hash == "fx" else "UN"
    if shape.is_set:
        return f"    SET({shape.calls}, {in_c(shape.key)}, {hashed})"
    return f"    MAP({shape.calls}, {in_c(shape.key)}, {in_c(shape.value)}, {hashed})"


def tests_in_c(shapes):
    """The list for the tests in C."""
    lines = ["#define EACH_SHAPE(MAP, SET)", *map(tested, shapes)]
    body = " \\\n".join(lines)
    head = f"/*\n * {HEAD}\n *\n * Each shape by MAP or SET: its name, key and value, and how keys are hashed.\n */\n"
    return f"{head}#ifndef SHAPE_LIST_H\n#define SHAPE_LIST_H\n\n{body}\n\n#endif\n"


def files(shapes):
    """The texts of these files by path."""
    with_calls = [shape for shape in shapes if shape.calls]
    ready = "Hands each configuration to a macro: its name, key, value, their lengths, hash function, and text."
    meaning = "Hands each shape to a macro: its calls, its type, its configuration, its key, its value, and its text."
    return {
        "rust/src/configs/generated/list.rs": macro("each_configuration", ready, map(configuration, shapes)),
        "bindings/rust/src/generated/shapes.rs": macro("each_shape", meaning, map(over_calls, with_calls)),
        "tests/c/generated/shape_list.h": tests_in_c(with_calls),
    }
