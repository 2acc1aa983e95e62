"""The help of a command, made from the specification."""

from __future__ import annotations

import textwrap
from collections.abc import Iterable, Iterator, Mapping
from dataclasses import dataclass

from replay_tools.cli import definition
from replay_tools.cli.specification import Command, Entry, Example, Group, Option, Together
from replay_tools.cli.statuses import Status

WIDTH, COLUMN = 80, 22
# options without a short name are in the column of the others' long names
INDENT_OF_LONG = 4


@dataclass(frozen=True)
class Parts:
    """The parts of a help, each as lines."""

    sentence: str
    usage: list[str]
    lists: list[list[str]]
    """the commands of each group, with their headings"""
    notes: list[str]
    examples: list[str]
    options: list[str]
    exits: list[str]
    more: str

    @property
    def described(self) -> list[str]:
        """What precedes a manual page's details: paragraphs."""
        return [self.sentence, *self.notes]


def of_command(command: Command, entry: Entry = definition.OF_ALL) -> str:
    """A command's help, as it is typed after an entry."""
    return text_of(parts_of_command(command, entry))


def of_entry(entry: Entry) -> str:
    """The help of what has all commands, or helps with their arguments."""
    return text_of(parts_of_entry(entry))


def parts_of_command(command: Command, entry: Entry = definition.OF_ALL) -> Parts:
    more = ", ".join(filter(None, [f"man kubelet-replay-{command.name}", command.more]))
    return Parts(
        command.sentence or f"{command.says[0].upper()}{command.says[1:]}.",
        [f"{entry.typed} {command.name} {words}" for words in command.usage], [], list(command.notes),
        examples(command.examples, entry), list(options(shown_lines(command, entry.is_of_kubectl))),
        exits(command.exits), more)


def parts_of_entry(entry: Entry) -> Parts:
    return Parts(
        entry.sentence, [typed(words, entry) for words in entry.usage],
        [commands(group) for group in Group] if entry.lists_commands else [], list(entry.notes),
        examples(entry.examples, entry), [], exits(entry.exits), f"man {entry.name}" if entry.about else "")


def text_of(parts: Parts) -> str:
    """The help as a text: its parts as paragraphs."""
    paragraphs = [
        [parts.sentence], headed("Usage", parts.usage), *parts.lists, *(note.split("\n") for note in parts.notes),
        headed("Examples", parts.examples), headed("Options", parts.options),
        [*parts.exits, *([f"More: {parts.more}"] if parts.more else [])]]
    return "\n\n".join("\n".join(lines) for lines in paragraphs if lines) + "\n"


def headed(heading: str, lines: list[str]) -> list[str]:
    return [f"{heading}:", *(f"  {line}" for line in lines)] if lines else []


def typed(line: str, entry: Entry) -> str:
    """A line of the shell, with the command as it is typed."""
    return line.replace("{kubelet_replay}", entry.typed)


def examples(given: Iterable[Example], entry: Entry) -> list[str]:
    return [line for example in given for line in (f"# {example.does}", *typed(example.line, entry).split("\n"))]


def commands(group: Group) -> list[str]:
    """The commands of a group, a line for each."""
    width = max(map(len, definition.COMMANDS))
    return headed(group.value, [f"{command.name:{width}}   {command.says}" for command in definition.COMMANDS.values()
                                if command.group is group])


def shown_lines(command: Command, is_of_kubectl: bool) -> list[Option | Together]:
    return [line for line in command.lines if not line.is_hidden and (is_of_kubectl or not line.needs_kubectl)]


def options(lines: list[Option | Together]) -> Iterator[str]:
    """The lines of options; a long beginning has what it does in the line after it."""
    has_short = any(is_short(name) for line in lines for option in line.options for name in option.names
                    if not line.head.startswith("--"))
    for line in lines:
        head = f"{' ' * INDENT_OF_LONG if has_short and line.head.startswith('--') else ''}{line.head}"
        if len(head) + 2 <= COLUMN:
            yield f"{head:{COLUMN}}{line.text}"
        else:
            yield head
            yield f"{' ' * COLUMN}{line.text}"


def is_short(name: str) -> bool:
    return not name.startswith("--")


def exits(statuses: Mapping[Status, str]) -> list[str]:
    said = ", ".join(f"{status.value} {when}" for status, when in statuses.items())
    return textwrap.wrap(f"Exit status: {said}.", WIDTH, break_on_hyphens=False)
