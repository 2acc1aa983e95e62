"""Candidates for the last of some arguments, as kubectl asks its plugins for them, and the completion of each shell."""

from __future__ import annotations

import os
import shlex
from argparse import Namespace
from collections.abc import Iterable, Iterator
from typing import Any

from replay_tools import entry
from replay_tools.cli import options, parsing
from replay_tools.cli.definition import COMMANDS
from replay_tools.cli.specification import Command, Option
from replay_tools.plugin import files, of_cluster, words

# kubectl's directives: the shell offers no files, or its files
NO_FILES, FILES = 4, 0


def words_of_line(line: str) -> list[str]:
    """The arguments on a line of bash up to the cursor, without their quotes; the last one may be empty, or its quote
    open. bash itself splits a line at each colon, and keeps the quotes."""
    for end in ("", "'", '"'):
        try:
            found = shlex.split(f"{line}.{end}")
        except ValueError:
            continue
        return [os.path.expanduser(word) for word in [*found[:-1], found[-1][:-1]]][1:]
    return []


def answer(given: list[str], is_of_kubectl: bool) -> str:
    """The candidates for the last argument, a line for each, and the directive, as kubectl reads them."""
    found, directive = candidates(given, is_of_kubectl)
    return "".join(f"{name}\n" for name in found) + f":{directive}\n"


def candidates(given: list[str], is_of_kubectl: bool) -> tuple[list[str], int]:
    """The candidates for the last argument, and the directive."""
    *before, last = given or [""]
    if before in ([], ["help"]):
        return beginning(COMMANDS, last), NO_FILES
    command, rest = COMMANDS.get(before[0]), before[1:]
    if command is None:
        return [], NO_FILES
    if command.subcommands and not rest:
        return beginning(command.subcommands, last), NO_FILES
    try:
        subcommand = parsing.subcommand_of(command, rest)
        own = command.options_of(subcommand)
        waiting = waiting_option(own, rest)
        found = with_all(parsing.typed(command, rest if waiting is None else rest[:-1]), is_of_kubectl)
    except entry.Fault:
        return [], NO_FILES
    if waiting is not None:
        return values_of(waiting, found, last)
    name, equals, value = last.partition("=")
    if equals and name.startswith("--"):
        # the shell puts the option in front of its value again
        own_value = next((option for option in own if option.value and name in option.names), None)
        return ([], NO_FILES) if own_value is None else values_of(own_value, found, value)
    if last.startswith("-"):
        return beginning(names_of(command, own, is_of_kubectl), last), NO_FILES
    return arguments_of(command, found, last)


def waiting_option(own: Iterable[Option], given: list[str]) -> Option | None:
    """The option that the arguments end with, where it needs a value."""
    if not given or given[-2:-1] == given[-1:]:
        return None
    return next((option for option in own if option.value and given[-1] in option.names), None)


def with_all(found: Namespace, is_of_kubectl: bool) -> Namespace:
    """The same for a command that has no context: pods are taken of all namespaces if none is named."""
    everywhere = getattr(found, "is_everywhere", False) or not is_of_kubectl and getattr(found, "namespace", 0) is None
    every: dict[str, Any] = {"files": [], "trace": None, "traces": [], "namespace": None, "recorders": None,
                             "kubectl": []}
    return Namespace(**{**every, **vars(found), "is_everywhere": everywhere})


def values_of(option: Option, found: Namespace, last: str) -> tuple[list[str], int]:
    """What the value of an option may become."""
    named = keys(found)
    if option.names == options.NAMESPACE.names and named:
        return beginning([key.partition("/")[0] for key in named], last), NO_FILES
    if option.choices:
        before = last[:last.rfind(",") + 1] if option.is_list else ""
        left = [each for each in option.choices if each not in before.split(",")]
        return beginning([before + each for each in left], last), NO_FILES
    names = [] if found.files else of_cluster.values(option.names[-1], found)
    if names:
        return beginning(names, last), NO_FILES
    return [], FILES if option.is_of_file else NO_FILES


def arguments_of(command: Command, found: Namespace, last: str) -> tuple[list[str], int]:
    """What an argument that is no option may become."""
    if command.name == "fetch":
        return beginning(of_cluster.recording(found), last), NO_FILES
    if command.name == "import":
        return beginning(of_cluster.nodes(found), last), NO_FILES
    if command.pods == "none" or command.pods == "one" and found.named:
        return [], FILES if command.names_files else NO_FILES
    if command.name in ("story", "why") and not keys(found) and not found.files:
        return beginning(of_cluster.targets(found, last), last), NO_FILES
    return beginning(pods(found, last), last), NO_FILES


def names_of(command: Command, own: Iterable[Option], is_of_kubectl: bool) -> Iterator[str]:
    """The options that are offered, by their long names."""
    needing = {option for line in command.lines if line.needs_kubectl for option in line.options}
    for option in own:
        if not option.is_hidden and (is_of_kubectl or option not in needing):
            yield from option.names


def beginning(names: Iterable[str], start: str) -> list[str]:
    return sorted({name for name in names if name.startswith(start)})


def keys(found: Namespace) -> list[str]:
    """The pods of the last file that is named."""
    named = [*found.traces, *filter(None, [found.trace]), *found.files]
    return files.keys_of(named[-1]) if named else []


def pods(found: Namespace, last: str) -> list[str]:
    """Names in the namespace; with a slash in the argument, names after one."""
    head, slash, _ = last.partition("/")
    named = keys(found)
    if slash and head not in words.POD_TYPES or found.is_everywhere:
        return named
    namespace = found.namespace or words.current_namespace(found.kubectl)
    before = f"{head}/" if slash else ""
    return [before + key.partition("/")[2] for key in named if key.startswith(namespace + "/")]
