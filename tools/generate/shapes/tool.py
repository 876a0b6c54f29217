"""What the program `odht` has of the list: the shapes with their definitions, and the way to each configuration."""
import shape_list
from shape_list import byte_count

FOLDERS = []

CORE = "crates/odht_tool_core"
TABLES = "crates/odht_tool_tables"
MADE = "Generated from lists/shapes.txt by make generate"

# the function that goes from a shape to its configuration and has a contract, by its crate and place, and what it calls
DISPATCHER = ("odht_tool_reads", "commands/get/get_lines_of", "get_lines")


def number_part(type_name):
    """The part of a type that is no array: its name in Rattle."""
    return {"()": "Nothing", "u32": "U32", "u64": "U64"}[type_name]


def code_part(type_name):
    """The type of a key or value as an expression of Rattle."""
    if type_name.startswith("["):
        return f"Part::Bytes({byte_count(type_name)})"
    return f"Part::{number_part(type_name)}"


def spec_part(type_name):
    """The same in a definition."""
    if type_name.startswith("["):
        return f"Bytes {byte_count(type_name)}"
    return number_part(type_name)


def hash_name(shape):
    return shape.hash.capitalize()


def word(type_name):
    """The word that stands for the type behind `--key` or `--value`."""
    if type_name.startswith("["):
        return f"hex{byte_count(type_name)}"
    return "none" if type_name == "()" else type_name


def method(shapes, words, name, result, definition, value):
    """A method of `Shape` with an arm for each shape."""
    arms = "".join(f"            Shape::{it.configuration} => {value(it)},\n" for it in shapes)
    return f"""    /// {words}
    pub(crate) fn {name}(self) -> {result}
        ensures {{ result ≡ {definition} self }}
    {{
        match self {{
{arms}        }}
    }}
"""


def code(shapes):
    """The shapes, with what each has, and their lines in the help of `build`."""
    variants = "".join(f"    /// {it.words[0].upper()}{it.words[1:]}.\n    {it.configuration},\n" for it in shapes)
    listed = "".join(f"    Shape::{it.configuration},\n" for it in shapes)
    methods = "\n".join([
        method(shapes, "The type of its keys.", "key", "Part", "key_part", lambda it: code_part(it.key)),
        method(shapes, "The type of its values.", "value", "Part", "value_part", lambda it: code_part(it.value)),
        method(shapes, "Its hash function.", "hash", "Hash", "shape_hash", lambda it: f"Hash::{hash_name(it)}"),
    ])
    return f"""//! The ready shapes. {MADE}.
ghost use Rattle.std.specs.Prelude.{{◌≡◌}};
ghost use Rattle.odht_tool_core.specs.generated.ShapeList.{{key_part, value_part, shape_hash}};

use crate::shapes::{{Hash, Part}};

/// A ready shape, by the name of its configuration.
#[derive(Clone, Copy)]
pub enum Shape {{
{variants}}}

/// The ready shapes. Of two that a file fits the first is taken.
pub(crate) const SHAPES: [Shape; {len(shapes)}] = [
{listed}];

impl Shape {{
{methods}}}

/// The lines of the ready shapes in the help of `build`.
pub(crate) const READY: &str = "\\
ready shapes, by --key, --value and --hash; the first that fits is taken:
{help_lines(shapes)}\";
"""


def help_lines(shapes):
    """A line of the help for each shape."""
    return "".join(f"    {word(it.key):<7}{word(it.value):<7}{it.hash}\n" for it in shapes)


def definition(shapes, name, result, value):
    """A definition with a clause for each shape."""
    clauses = "".join(f"{name} {it.configuration} = {value(it)}\n" for it in shapes)
    return f"abbrev pub {name} : Shape → {result}\n{clauses}"


def definitions(shapes):
    names = ", ".join(it.configuration for it in shapes)
    declared = "Rattle.odht_tool_core.specs.declared.shapes"
    shape = "Rattle.odht_tool_core.specs.declared.generated.shapes.Shape"
    listed = "".join(f"    {'∷ ' if at else ''}{it.configuration}\n" for at, it in enumerate(shapes))
    parts = [
        definition(shapes, "key_part", "Part", lambda it: spec_part(it.key)),
        definition(shapes, "value_part", "Part", lambda it: spec_part(it.value)),
        definition(shapes, "shape_hash", "Hash", hash_name),
        f"abbrev pub ready_shapes : List Shape\nready_shapes =\n{listed}    ∷ []\n",
    ]
    return f"""-- The ready shapes. {MADE}.
--     key_part s           the type of the keys of the shape s
--     value_part s         that of its values
--     shape_hash s         the name of its hash function
--     ready_shapes         all of them; of two that a file fits the first is taken
use Rattle.std.specs.Prelude.{{List, [], ◌∷◌}}
use {declared}.Hash.{{Hash}}
use {declared}.Hash.TheVariants.{{Fx, Unhash}}
use {declared}.Part.{{Part}}
use {declared}.Part.TheVariants.{{Nothing, U32, U64, Bytes}}
use {shape}.{{Shape}}
use {shape}.TheVariants.{{{names}}}

""" + "\n".join(parts)


def version():
    text = (shape_list.ROOT / "packaging/VERSION").read_text().strip()
    return f"""//! The version. Generated from packaging/VERSION by make generate.

/// The version of the program, which is that of the library.
pub(crate) const VERSION: &str = "{text}";
"""


def macro(shapes):
    """The macro that goes from a shape to its configuration."""
    arms = "".join(f"""            Shape::{it.configuration} => {{
                $function::<$kind<odht::configs::{it.configuration}>, $($more),*>($($argument),*)
            }}
""" for it in shapes)
    return f"""//! The configuration of each shape. {MADE}.

/// A configuration as the kind of [`for_shape`](crate::for_shape).
pub type Itself<C> = C;

/// Calls a function for a shape. Its first type parameter is of a kind, such as `HashTableOwned` or
/// [`Itself`], and of the configuration of the shape:
/// `for_shape!(shape, Kind, function[more, parameters](arguments))`.
#[macro_export]
macro_rules! for_shape {{
    ($shape:expr, $kind:ident, $function:ident[$($more:ty),*]($($argument:expr),*)) => {{
        match $shape {{
{arms}        }}
    }};
}}
"""


def answers(shapes, crate, dispatcher, called):
    """What the prover asks for of a function that goes from a shape to its configuration: an answer for each. What is
    in a macro of another crate has the macro in its name."""
    text = f"-- An answer for each shape. {MADE}.\n"
    text += f"use Rattle.{crate}.proofs.{dispatcher.replace('/', '.')}.Goals as goal\n"
    for at, shape in enumerate(shapes, 1):
        place = f"in-{shape.configuration}-for_shape"
        call = f"c.for_shape-{called}" + (f"-{at}" if at > 1 else "")
        text += f"\npub returns-{place} : goal.returns-{place}\nreturns-{place} g c = rw c.{place}.is {call}.ensures\n"
    return text


def files(shapes):
    """The texts by path."""
    texts = {
        f"{CORE}/src/generated/shapes.rt": code(shapes),
        f"{CORE}/src/generated/version.rt": version(),
        f"{CORE}/specs/generated/ShapeList.antt": definitions(shapes),
        f"{TABLES}/src/generated/shapes.rt": macro(shapes),
    }
    crate, dispatcher, called = DISPATCHER
    texts[f"crates/{crate}/proofs/{dispatcher}/Answers.antt"] = answers(shapes, crate, dispatcher, called)
    return texts
