"""The table of the commands in docs/TOOL.md."""
from command_list import FILE
from regions import filled

TOOL = "docs/TOOL.md"


def row(command):
    options = ", ".join(f"`{it.name}`" for it in command.options[1:] if it.name not in command.start.split())
    return f"| `{command.start}` | {command.summary} | {options} |\n"


def files(commands, _):
    """The text by path."""
    table = "| command | what it does | options |\n|---|---|---|\n" + "".join(map(row, commands))
    return {TOOL: filled(TOOL, {"commands": table}, FILE)}
