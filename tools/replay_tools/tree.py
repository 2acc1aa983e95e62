"""Runs a command by its name: its help, its version or its work. What the work needs is imported where it begins, so
that a help and a wrong argument take no longer than they have to."""

from __future__ import annotations

import importlib
import sys
from typing import Any, TYPE_CHECKING

from replay_tools import entry
from replay_tools.cli.definition import COMMANDS, ENTRIES, OF_ALL
from replay_tools.cli.specification import Entry
from replay_tools.cli.statuses import Status

if TYPE_CHECKING:
    from argparse import Namespace

HELP, VERSION = ("-h", "--help"), ("--version", "-V")


def start(given: list[str]) -> int:
    """The status of a process that was started for a command, by its name and arguments; without a name all are
    arguments of kubelet-replay."""
    is_named = given[:1] != [] and (given[0] in ENTRIES or is_tool(given[0]))
    name, words = (given[0], given[1:]) if is_named else (OF_ALL.name, given)
    return entry.run(name, lambda: run(name, words))


def run(name: str, words: list[str]) -> int:
    """The status of what has all commands, or of one command by itself. Its faults are printed under its name."""
    return entry.answered(name, lambda: answer(name, words))


def answer(name: str, words: list[str]) -> int:
    """Writes a help or the version, or does the work; the status."""
    if len(words) == 1 and words[0] in VERSION:
        return entry.version(name)
    if name == "kubectl_complete-replay":
        return shown_help(ENTRIES[name]) if len(words) == 1 and words[0] in HELP else completed(words, True)
    of_all = ENTRIES.get(name, OF_ALL)
    given = words if name in ENTRIES else [name, *words]
    if given[:1] == ["__complete"]:
        return completed(given[1:], of_all.is_of_kubectl)
    if given[:1] == ["__complete_line"] and len(given) == 2:
        from replay_tools.cli import completion
        return completed(completion.words_of_line(given[1]), of_all.is_of_kubectl)
    if given[:1] == ["help"] and len(given) > 1:
        given = [given[1], "--help"]
    if not given or given[0] in (*HELP, "help"):
        return shown_help(of_all, is_fault=not given)
    if given[0] not in COMMANDS:
        from replay_tools.cli import parsing
        raise entry.Fault(parsing.no_command(given[0], list(COMMANDS)))
    if any(word in HELP for word in given):
        from replay_tools.cli import help
        sys.stdout.write(help.of_command(COMMANDS[given[0]], of_all))
        return Status.DONE
    if len(given) == 2 and given[1] in VERSION:
        return version(given[0])
    command = COMMANDS[given[0]]
    if not command.takes_file and not command.parses_itself:
        # what finds its traces would take as long to import as the command itself
        from replay_tools.cli import parsing
        return work(command.name, parsing.parsed(command, given[1:], of_all.is_of_kubectl))
    from replay_tools.plugin import commands
    return commands.run(given, commands.Caller(name, of_all.is_of_kubectl))


def shown_help(of: Entry, is_fault: bool = False) -> int:
    """Writes the help of what has all commands, as an error where no command is given; the status."""
    from replay_tools.cli import help
    (sys.stderr if is_fault else sys.stdout).write(help.of_entry(of))
    return Status.BAD_INPUT if is_fault else Status.DONE


def version(name: str) -> int:
    """Writes the version of a command, which of the program is its own; the status."""
    if is_tool(name):
        return entry.version(name)
    from replay_tools import program
    from replay_tools.plugin import files
    files.become(program.path(), ["--version"])


def completed(words: list[str], is_of_kubectl: bool) -> int:
    """Writes what the last argument may become; the status."""
    from replay_tools.cli import completion
    sys.stdout.write(completion.answer(words, is_of_kubectl))
    return Status.DONE


def work(name: str, found: Namespace | list[str]) -> int:
    """The status of a command's own module with the values of its arguments. Its faults are printed under its name."""
    return entry.answered(name, lambda: module_of(name).main(found))


def is_tool(name: str) -> bool:
    """Whether it is a command of the tools, and not of the program."""
    return name in COMMANDS and not COMMANDS[name].is_of_program


def module_of(name: str) -> Any:
    return importlib.import_module(f"replay_tools.commands.{COMMANDS[name].module}")
