"""The table of all commands in tools/README.md, made from the specification."""

from __future__ import annotations

from replay_tools.cli.definition import COMMANDS
from replay_tools.cli.specification import Command, Group

# what surrounds it there
BEGIN, END = "<!-- commands: tools/test --write test_table_of_commands writes this table -->\n", "<!-- end -->\n"


def text() -> str:
    """The table with the mark in front of it: the commands of each group, and what they need besides python3."""
    rows = [row(command) for group in Group for command in COMMANDS.values() if command.group is group]
    return "".join(f"{line}\n" for line in (BEGIN.rstrip("\n"), "", "| command | what it does | what it needs |",
                                            "|---|---|---|", *rows, ""))


def row(command: Command) -> str:
    said = (command.sentence or f"{command.says[0].upper()}{command.says[1:]}.").rstrip(".")
    return f"| `{command.name}` | {said} | {command.needs} |"
