#!/usr/bin/env python3
"""The manual page of the program `odht`, and what completes its words in bash, zsh and fish, generated from the list of its
commands (lists/commands.txt) and of the end of its help of all commands (crates/odht_tool_core/src/help.rt).

  manual.py           writes packaging/odht.1 and packaging/completions/
  manual.py --check   reports those that are not current, with status 1
"""
import os
import re
import sys

TOP = os.path.dirname(os.path.dirname(os.path.dirname(os.path.realpath(__file__))))
sys.path.insert(0, f"{TOP}/tools/generate/commands")
import command_list

HELP = f"{TOP}/crates/odht_tool_core/src/help.rt"
READY = f"{TOP}/crates/odht_tool_core/src/generated/shapes.rt"
MADE = "Generated from lists/commands.txt and the help by make generate."
# where in a line of the help what is said of an option begins
TEXT_COLUMN = 15


def read(path):
    with open(path, encoding="utf-8") as it:
        return it.read()


class Command:
    """A command: its name, its line in the general help, its usage, its text, and its options."""

    def __init__(self, listed):
        self.name, self.summary, self.usage = listed.name, listed.summary, listed.usage
        text = "\n".join(line[len(command_list.INDENT):] for line in listed.text)
        # a line that begins with spaces goes on with what the line before it says
        self.text = re.sub(r"\n +", " ", text).split("\n")
        self.options = [it.name for it in listed.options]

    def paragraph(self):
        """Returns the words of the text, without the lines that describe an option or a word each, and the examples."""
        return " ".join(line for line in self.text if not described(line) and not is_example(line))

    def examples(self):
        return list(filter(is_example, self.text))

    def described(self):
        return [found for found in map(described, self.text) if found]


def is_example(line):
    """Returns whether a line is a command as one types it."""
    return line.startswith("$ ")


def described(line):
    """Returns the options or the words that a line describes, and the description, which begins at column 15; None for
    any other line."""
    found = re.match(r"((?:-0, )?(?:--[a-z-]+(?:, )?)+|[A-Z]+|[a-z]+(?:,? [a-z]+)*(?=  )) +(\S.*)", line)
    return found.groups() if found and found.start(2) == TEXT_COLUMN else None


def listed():
    """Returns all commands, the general text of the help, and of each option that takes a value what that is, in words,
    and the words that complete it, if any do."""
    commands, options = command_list.read()
    values = command_list.values(commands, options)
    general = re.search(r'^const GENERAL: &str = "\\\n(.*?)";', read(HELP), re.S | re.M)
    valued = {it.name: (it.wanted, " ".join(values.get(it.name, []))) for it in options if it.wanted}
    return list(map(Command, commands)), general[1], valued


def roff(text):
    """Returns a text with what is special in a manual page marked."""
    text = text.replace("\\", "\\e").replace("-", "\\-")
    return f"\\&{text}" if text[:1] in (".", "'") else text


def page(made, general, _):
    """Returns the manual page."""
    lines = [f'.\\" {MADE}', ".TH ODHT 1", ".SH NAME", "odht \\- describes, checks, searches and makes table files"]
    lines += [".SH SYNOPSIS", ".nf"]
    lines += [roff(line) for it in made for line in it.usage]
    lines += [".fi", ".SH DESCRIPTION"]
    lines += [
        "A table file holds keys and their values in the form in which they are used.",
        "The commands describe such files, check them, look keys up in them, and make them.",
    ]
    for it in made:
        lines += [f".SS {it.name}", roff(it.paragraph())]
        for word, text in it.described():
            lines += [".TP", f".B {roff(word)}", roff(text)]
        lines += [".PP", ".nf", *map(roff, it.examples()), ".fi"]
        if it.name == "build":
            lines += [".PP", ".nf", *map(roff, ready_shapes()), ".fi"]
    first, *parts = general.rstrip("\n").split("\n\n")
    status = next(part for part in parts if part.startswith("Status"))
    lines += [".SH HELP AND WORDS", ".nf", *map(roff, first.split("\n")), ".fi"]
    lines += [line for part in parts if part != status for line in (".PP", roff(in_a_line(part)))]
    lines += [".SH EXIT STATUS", roff(in_a_line(status).removeprefix("Status "))]
    return "\n".join(lines) + "\n"


def ready_shapes():
    """Returns the lines of the ready shapes, which the help of `build` ends with."""
    return re.search(r'READY: &str = "\\\n(.*?)\n";', read(READY), re.S)[1].split("\n")


def in_a_line(text):
    return " ".join(text.split())


def bash(made, _, valued):
    """Returns what completes words in bash."""
    lines = [f"# {MADE}", "_odht() {", "    local word=${COMP_WORDS[COMP_CWORD]} before=${COMP_WORDS[COMP_CWORD-1]}"]
    lines += ["    # --hash=fx is three words here", "    if [ \"$word\" = = ]; then word=; elif [ \"$before\" = = ]; then"]
    lines += ["        before=${COMP_WORDS[COMP_CWORD-2]}", "    fi"]
    names = " ".join(it.name for it in made)
    lines += ["    if [ \"$COMP_CWORD\" = 1 ]; then"]
    lines += [f"        COMPREPLY=($(compgen -W '{names} help --help --version' -- \"$word\"))", "        return", "    fi"]
    lines += ["    case $before in"]
    lines += [f"        help) COMPREPLY=($(compgen -W '{names}' -- \"$word\")); return;;"]
    for option, (_, words) in valued.items():
        values = f"($(compgen -W '{words}' -- \"$word\"))" if words else "()"
        lines += [f"        {option}) COMPREPLY={values}; return;;"]
    lines += ["    esac", "    case ${COMP_WORDS[1]}:$word in"]
    for it in made:
        lines += [f"        {it.name}:-*) COMPREPLY=($(compgen -W '{' '.join(it.options)}' -- \"$word\"));;"]
    lines += ["        *) mapfile -t COMPREPLY < <(compgen -f -- \"$word\");;", "    esac", "}"]
    lines += ["complete -o filenames -F _odht odht"]
    return "\n".join(lines) + "\n"


def zsh(made, _, valued):
    """Returns what completes words in zsh."""
    lines = ["#compdef odht", f"# {MADE}", "_odht() {", "    local -a commands options"]
    lines += ["    commands=("]
    lines += [f"        '{it.name}:{in_zsh(it.summary)}'" for it in made]
    lines += ["        'help:prints the help of a command'", "    )", "    if (( CURRENT == 2 )); then"]
    lines += ["        _describe command commands", "        return", "    fi", "    case $words[2] in"]
    lines += ["        help) _describe command commands;;"]
    for it in made:
        specs = " ".join(f"'{option_in_zsh(option, valued)}'" for option in it.options)
        lines += [f"        {it.name}) _arguments -S {specs} '*:file:_files';;"]
    lines += ["    esac", "}", "_odht \"$@\""]
    return "\n".join(lines) + "\n"


def option_in_zsh(option, valued):
    if option not in valued:
        return option
    wanted, words = valued[option]
    return f"{option}=:{in_zsh(wanted)}:({words.replace(':', in_zsh(':'))})" if words else f"{option}=:{in_zsh(wanted)}: "


def fish(made, _, valued):
    """Returns what completes words in fish."""
    lines = [f"# {MADE}"]
    for it in made:
        lines += [f"complete -c odht -n __fish_use_subcommand -f -a {it.name} -d '{quoted(it.summary)}'"]
    lines += ["complete -c odht -n __fish_use_subcommand -f -a help -d 'prints the help of a command'"]
    lines += [f"complete -c odht -n '__fish_seen_subcommand_from help' -f -a '{' '.join(it.name for it in made)}'"]
    for it in made:
        for option in it.options:
            line = f"complete -c odht -n '__fish_seen_subcommand_from {it.name}' -l {option[2:]}"
            if option in valued:
                wanted, words = valued[option]
                line += f" -x -a '{words}'" if words else " -x"
                line += f" -d '{quoted(wanted)}'"
            lines += [line]
    return "\n".join(lines) + "\n"


def quoted(text):
    """Returns a text as a part of a word within single quotes."""
    return text.replace("'", "")


def in_zsh(text):
    """Returns the same of a part of a description, where a colon ends one."""
    return quoted(text).replace(":", "\\:")


MADE_FILES = {
    "packaging/odht.1": page,
    "packaging/completions/odht.bash": bash,
    "packaging/completions/_odht": zsh,
    "packaging/completions/odht.fish": fish,
}


def main(words):
    if words not in ([], ["--check"]):
        sys.exit(__doc__)
    read_commands = listed()
    stale = []
    for name, make in MADE_FILES.items():
        path, text = f"{TOP}/{name}", make(*read_commands)
        if not words:
            os.makedirs(os.path.dirname(path), exist_ok=True)
            with open(path, "w", encoding="utf-8") as it:
                it.write(text)
        elif not os.path.exists(path) or read(path) != text:
            stale.append(name)
    if stale:
        print(f"not current: run make generate: {', '.join(stale)}")
    return 1 if stale else 0


if __name__ == "__main__":
    sys.exit(main(sys.argv[1:]))
