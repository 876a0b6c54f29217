"""What the program `odht` has of the list: the commands and their options with their definitions, the texts of its
help, and what is known of a command that reads its file alone.

topics.rt.in beside this file is the file of the commands and options: a mark @NAME@ in it is replaced by its text."""
import sys

import command_list
from command_list import FILE, MADE
from regions import filled

CORE = "crates/odht_tool_core"
TEMPLATE = command_list.ROOT / "tools/generate/commands/topics.rt.in"
# the columns that `rt fmt` leaves a line of code, a list in one line, and the fields of a record in one line
LINE, LIST, RECORD = 100, 60, 18
SUMMARY_COLUMN = 21
# what a word or an option of a command that reads its file alone becomes: a field, its type, and its value
FIELDS = {
    "--hash": ("hash", "Option<Hash>", "hash"),
    "--key": ("kinds", "Kinds", "kinds"),
    "--whole": ("bound", "Option<usize>", "bound"),
    "--check": ("is_checked", "bool", "is_checked: self.is_checking()"),
    "KEY..": ("keys", "Keys", "keys"),
    "--slots": ("is_slots", "bool", "is_slots: self.is_slots"),
    "--values": ("is_values", "bool", "is_values: self.is_values"),
    "--json": ("is_json", "bool", "is_json: self.is_json"),
}
# these become none: where there is --help nothing is run, the offset is that of each such command, how lines end is known
# to the streams, and what is said of values stands with what is said of keys
NO_FIELDS = [command_list.HELP, "--null", "--at", "--value"]


def line(indent, text):
    return f"{' ' * indent}{text}\n"


def arm(patterns, value):
    """The arm of a match for several variants: where they are too long for one line its value stands below them, or each
    of them on a line."""
    names = " | ".join(patterns)
    text = line(12, f"{names} => {value},")
    if fits(text):
        return text
    if value.startswith("Some("):
        return line(12, f"{names} => Some(") + line(16, f"{value[len('Some('):-1]},") + line(12, "),")
    front = line(12, f"{names} =>")
    return front + line(16, f"{value},") if fits(front) else text.replace(" | ", f"\n{' ' * 12}| ")


def fits(text):
    """Whether a line is short enough."""
    return len(text.rstrip("\n")) <= LINE


def listed_options(command):
    """The arm of a command with a list of its options."""
    options = [f"Setting::{it.variant}" for it in command.options]
    if len(", ".join(options)) <= LIST:
        return line(12, f"Topic::{command.variant} => &[{', '.join(options)}],")
    lines = "".join(line(16, f"{it},") for it in options)
    return line(12, f"Topic::{command.variant} => &[") + lines + line(12, "],")


def wanted(options):
    """What the value of each option is: an arm for each text, and first one for those without a value."""
    texts = dict.fromkeys([None, *(it.wanted for it in options)])
    patterns = {text: [f"Setting::{it.variant}" for it in options if it.wanted == text] for text in texts}
    return "".join(arm(patterns[it], f'Some("{it}")' if it else "None") for it in texts if patterns[it])


def topics(commands, options):
    """The commands and the options, with what each has."""
    with_words = [f"Topic::{it.variant}" for it in commands if it.takes_words]
    marks = {
        "MADE": MADE,
        "TOPICS": "".join(line(4, f"{it.variant},") for it in commands),
        "COUNT": str(len(commands)),
        "LISTED": "".join(line(4, f"Topic::{it.variant},") for it in commands),
        "TOPIC_NAMES": "".join(line(12, f'Topic::{it.variant} => "{it.name}",') for it in commands),
        "WITH_WORDS": arm(with_words, "true") if with_words else "",
        "OPTIONS": "".join(map(listed_options, commands)),
        "SETTINGS": "".join(line(4, f"{it.variant},") for it in options),
        "SETTING_NAMES": "".join(line(12, f'Setting::{it.variant} => "{it.name}",') for it in options),
        "WANTED": wanted(options),
    }
    text = TEMPLATE.read_text()
    for name, value in marks.items():
        text = text.replace(f"@{name}@", value)
    return text


def definition(name, kind, records, value):
    """A definition with a clause for each command or option, by the name of its variant."""
    clauses = "".join(f"{name} {variant} = {value(it)}\n" for variant, it in records)
    return f"abbrev pub {name} : {kind}\n{clauses}"


def spec_list(names):
    return " ∷ ".join([*names, "[]"])


def definitions(commands, options):
    topics = {it.variant for it in commands}
    # an option of the name of a command has a longer one
    settings = {it: f"With{it.variant}" if it.variant in topics else it.variant for it in options}
    imported = [it.variant if it.variant == name else f"{it.variant} as {name}" for it, name in settings.items()]
    of_topics = [(it.variant, it) for it in commands]
    of_settings = [(name, it) for it, name in settings.items()]
    declared = "Rattle.odht_tool_core.specs.declared.generated.topics"
    parts = [
        definition("command_name", "Topic → List ℕ", of_topics, lambda it: f'codes "{it.name}"'),
        f"abbrev pub commands : List Topic\ncommands = {spec_list(it.variant for it in commands)}\n",
        definition("option_name", "Setting → List ℕ", of_settings, lambda it: f'codes "{it.name}"'),
        definition("options_of", "Topic → List Setting", of_topics, lambda of: spec_list(settings[it] for it in of.options)),
    ]
    return f"""-- The commands of the program and their options. {MADE}.
--     command_name t       the name of the command t
--     commands             all commands, in the order of the help text
--     option_name s        the name of the option s
--     options_of t         the options that the command t has
use Rattle.std.specs.Prelude.{{ℕ, List, [], ◌∷◌, codes}}
use {declared}.Setting.{{Setting}}
use {declared}.Setting.TheVariants.{{{', '.join(imported)}}}
use {declared}.Topic.{{Topic}}
use {declared}.Topic.TheVariants.{{{', '.join(it.variant for it in commands)}}}

""" + "\n".join(parts)


def summary(command):
    """The arm of a command with its lines in the help of all commands."""
    if len(command.start) < SUMMARY_COLUMN - 1:
        text = f'"{command.start:<{SUMMARY_COLUMN}}{command.summary}\\n"'
        one = line(8, f"Topic::{command.variant} => {text},")
        return one if fits(one) else line(8, f"Topic::{command.variant} =>") + line(12, f"{text},")
    text = f'"{command.start}\n{" " * SUMMARY_COLUMN}{command.summary}\\n"'
    return line(8, f"Topic::{command.variant} => {{") + line(12, text) + line(8, "}")


def help_text(command):
    """The constant with the help of a command."""
    lines = "".join(f"{it}\n" for it in [*command.usage, *command.text])
    return f'const {command.constant}: &str = "\\\n{lines}";\n'


def helps(commands):
    """The texts of the help, by command."""
    summaries = "".join(map(summary, commands))
    names = "".join(line(8, f"Topic::{it.variant} => {it.constant},") for it in commands)
    texts = "\n".join(map(help_text, commands))
    return f"""//! The help of each command. {MADE}.
use crate::arguments::Topic;

/// The lines of a command in the help of all commands.
pub(crate) fn summary_of(topic: Topic) -> &'static str {{
    match topic {{
{summaries}    }}
}}

/// The help of a command.
pub(crate) fn text_of(topic: Topic) -> &'static str {{
    match topic {{
{names}    }}
}}

{texts}"""


def fields(command):
    """The fields of a command that reads its file alone."""
    names = [it for it in [*command.words[1:], *(it.name for it in command.options)] if it not in NO_FIELDS]
    unknown = [it for it in names if it not in FIELDS]
    if unknown:
        sys.exit(f"tools/generate/commands/program.py: FIELDS does not say what {unknown[0]} of {command.name} becomes")
    return [field for name, field in FIELDS.items() if name in names]


def variant(command):
    """The variant of such a command."""
    lines = "".join(line(8, f"{name}: {kind},") for name, kind, _ in fields(command))
    return line(4, f"{command.variant} {{") + lines + line(4, "},")


def made_of(pattern, command):
    """The arm that makes its variant."""
    values = [value for _, _, value in fields(command)]
    begins = f"{pattern} => Reading::{command.variant} {{"
    if len(", ".join(values)) <= RECORD:
        return line(12, f"{begins} {', '.join(values)} }},")
    return line(12, begins) + "".join(line(16, f"{it},") for it in values) + line(12, "},")


def arms_of_readings(commands):
    """The arms that make the variants. The last one is for all others."""
    *before, last = commands
    return "".join(made_of(f"Topic::{it.variant}", it) for it in before) + made_of("_", last)


def files(commands, options):
    """The texts by path."""
    readings = [it for it in commands if it.is_reading]
    # `get` is made elsewhere, since its words are no files
    of_files = [it for it in readings if it.is_of_files]
    source = f"{CORE}/src"
    arguments, draft = f"{source}/arguments.rt", f"{source}/arguments/draft.rt"
    return {
        f"{source}/generated/topics.rt": topics(commands, options),
        f"{source}/generated/help.rt": helps(commands),
        f"{CORE}/specs/generated/Commands.antt": definitions(commands, options),
        arguments: filled(arguments, {"readings": "".join(map(variant, readings))}, FILE),
        draft: filled(draft, {"readings": arms_of_readings(of_files)}, FILE),
    }
