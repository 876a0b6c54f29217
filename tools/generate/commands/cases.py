"""The cases of the program `odht` that are the same for each command: its help, and words that are not understood."""
from command_list import MADE

FILE = "tests/tool/generated/commands.cases"
HEAD = f"# What is the same for each command. {MADE}.\n"


def rows(lines):
    return "".join(f"    {it}\n" for it in lines)


def names(commands):
    return rows(it.name for it in commands)


def unknown(commands):
    """Words that no slip makes of a command."""
    known = ", ".join(["help", *(it.name for it in commands)])
    shown = {'""': '""', "a": '"a"'}
    lines = [f"{word:<5} | no command is named {text}; there are {known}" for word, text in shown.items()]
    return f"""== words that are no command
for words | message:
{rows(lines)}args: \\{{words}}
stderr: odht: \\{{message}}
status: 2
"""


def help_of_each(commands):
    return f"""== the help of a command
for command:
{names(commands)}for words:
    help \\{{command}}
    \\{{command}} --help
    \\{{command}} -h
    \\{{command}} a b c --help
args: \\{{words}}
stdout: odht \\{{command}} FILE...
"""


def misused(title, columns, lines, args, message):
    """Rows of a command and more, each of which is a usage error of that command."""
    words = " ".join(["\\{command}", *args])
    return f"""== {title}
for {columns}:
{lines}args: {words}
stderr: odht: {message}; try `odht \\{{command}} --help`
status: 2
"""


def words_in_number(commands):
    """Too few words, too many, and more than one that stands for standard input."""
    of_one_file = [it for it in commands if not it.takes_words]
    of_files = [it for it in commands if it.takes_words and it.is_of_files]
    streams = "only one FILE can be standard input"
    return [
        misused("no file", "command", names(commands), [], "FILE is missing"),
        misused("a word too many", "command", names(of_one_file), ["a", "b"], '"b" is one word too many'),
        misused("standard input twice", "command", names(of_files), ["-", "a", "-"], streams),
    ]


def option_rows(commands, options_of):
    """A row of each command for each of these options of it."""
    return rows(f"{it.name} | {option}" for it in commands for option in options_of(it))


def without_value(commands):
    lines = option_rows(commands, lambda of: [f"{it.name} | {it.wanted}" for it in of.options if it.wanted])
    message = "a value is wanted behind \\{option}: \\{wanted}"
    return misused("an option without its value", "command | option | wanted", lines, ["a", "\\{option}"], message)


def with_value(commands):
    lines = option_rows(commands, lambda of: [it.name for it in of.options if not it.wanted])
    message = "\\{option} takes no value"
    return misused("a value behind an option that takes none", "command | option", lines, ["a", "\\{option}=x"], message)


def options_of_others(commands, options):
    lines = option_rows(commands, lambda of: [it.name for it in options if it not in of.options])
    return f"""== an option of other commands
for command | option:
{lines}args: \\{{command}} a \\{{option}}
stderr: odht: `odht \\{{command}}` has no option "\\{{option}}"...
status: 2
"""


def absent(commands):
    """A file that is not there, by each command that reads one."""
    made = [it for it in commands if not it.is_making and not it.is_comparing]
    lines = rows(f"{it.name} absent.odht{' 1' * (len(it.words) - 1)} | {it.failed}" for it in made)
    return f"""== a file that is not there
for words | status:
{lines}args: \\{{words}}
stderr: odht: absent.odht: cannot be read: No such file...
status: \\{{status}}
"""


def files(commands, options):
    """The texts by path."""
    parts = [
        HEAD,
        unknown(commands),
        help_of_each(commands),
        *words_in_number(commands),
        without_value(commands),
        with_value(commands),
        options_of_others(commands, options),
        absent(commands),
    ]
    return {FILE: "\n".join(parts)}
