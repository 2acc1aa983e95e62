"""Reads the arguments of a command, by a parser that is made from the specification."""

from __future__ import annotations

import argparse
import functools
from argparse import Namespace
from collections.abc import Sequence
from typing import Any

from replay_tools import entry
from replay_tools.cli import options
from replay_tools.cli.specification import Command, Option

SHORT = {short: long for long, short in (options.SERVER,)}


class KeepForKubectl(argparse.Action):
    """Keeps an option of kubectl with its value as one argument, so that no value is read as an option."""

    def __call__(self, _: argparse.ArgumentParser, found: Namespace, value: Any, name: str | None = None) -> None:
        option = SHORT.get(name or "", name)
        kept = getattr(found, self.dest, None) or []
        setattr(found, self.dest, [*kept, option if self.nargs == 0 else f"{option}={value}"])


def parsed(command: Command, given: Sequence[str], is_of_kubectl: bool) -> Namespace:
    """The values of a command's arguments, in whatever order they are. Raises Fault."""
    subcommand = subcommand_of(command, given)
    own, rest = command.options_of(subcommand), given[1:] if subcommand else given
    try:
        found, left = parser_of(own, command.takes_arguments).parse_known_intermixed_args(rest)
    except argparse.ArgumentError as fault:
        raise entry.Fault(f"{as_given(fault.argument_name, given)} {said_of(fault.message)}") from None
    if left:
        raise entry.Fault(unknown(left[0], own))
    if any(line.needs_kubectl for line in command.lines) and found.kubectl and not is_of_kubectl:
        option = found.kubectl[0].partition("=")[0]
        raise entry.Fault(f"{option} is no known argument: kubectl replay takes kubectl's options (see --help)")
    found.subcommand = subcommand
    return found


def typed(command: Command, given: Sequence[str]) -> Namespace:
    """The values of arguments that are still typed: what is unknown or wrong is left out."""
    subcommand = subcommand_of(command, given)
    rest = given[1:] if subcommand else given
    try:
        return parser_of(command.options_of(subcommand), True, is_typed=True).parse_known_intermixed_args(rest)[0]
    except argparse.ArgumentError as fault:
        raise entry.Fault(str(fault)) from None


def subcommand_of(command: Command, given: Sequence[str]) -> str | None:
    """The subcommand that the arguments begin with; None of a command that has none. Raises Fault."""
    if not command.subcommands:
        return None
    known = " or ".join(command.subcommands)
    if not given:
        raise entry.Fault(f"it needs a command: {known} (see --help)")
    if given[0] not in command.subcommands:
        raise entry.Fault(no_command(given[0], command.subcommands))
    return given[0]


def no_command(given: str, known: Sequence[str]) -> str:
    """What is printed of a command that isn't one: the nearest, or all that there are."""
    from replay_tools import nearest
    near = nearest.of(given, known)
    return f"{given} is no known command; {f'the nearest is {near}' if near else 'there are ' + ', '.join(known)} " \
        "(see --help)"


def parser_of(own: Sequence[Option], takes_arguments: bool, is_typed: bool = False) -> argparse.ArgumentParser:
    """The parser of some options, and of arguments that are none; of what is still typed no value is checked."""
    # nothing of it is shown, so nothing is asked of the terminal
    parser = argparse.ArgumentParser(usage="", add_help=False, allow_abbrev=False, exit_on_error=False,
                                     formatter_class=functools.partial(argparse.HelpFormatter, width=120))
    for option in own:
        parser.add_argument(*option.names, dest=option.destination, **of_option(option, is_typed))
    if takes_arguments:
        parser.add_argument("named", nargs="*")
    return parser


def of_option(option: Option, is_typed: bool) -> dict[str, Any]:
    """How argparse takes an option."""
    if option.is_of_kubectl:
        return {"action": KeepForKubectl, "default": [], **({} if option.value else {"nargs": 0})}
    if option.value is None:
        return {"action": "store_true"}
    kind = {} if is_typed or option.kind is None else {"type": option.kind}
    if option.may_repeat:
        return {"action": "append", "default": [], **kind}
    return {"default": option.default if option.is_applied else None, **kind}


def as_given(name: str | None, given: Sequence[str]) -> str | None:
    """The option at fault as it was given, where it has two names."""
    names = (name or "").split("/")
    return next((each for each in names for word in given if word.startswith(each)), name)


def said_of(message: str) -> str:
    """What is printed of an argument that argparse rejects; what a kind of value shows of a wrong one stays."""
    if message.startswith("expected one argument"):
        return "needs a value (see --help)"
    if message.startswith("ignored explicit argument"):
        return "takes no value (see --help)"
    return message


def unknown(given: str, own: Sequence[Option]) -> str:
    """What is printed of an argument that a command doesn't take: the nearest option is named."""
    from replay_tools import nearest
    names = [name for option in own for name in option.names]
    return f"{given} is no known argument{nearest.option_words(given, names)} (see --help)"


def changed(found: Namespace, **values: Any) -> Namespace:
    """The same values, with others for some."""
    return Namespace(**{**vars(found), **values})
