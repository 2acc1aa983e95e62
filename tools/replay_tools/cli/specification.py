"""The parts that the specification of the commands is made of."""

from __future__ import annotations

from collections.abc import Callable, Iterator, Mapping
from dataclasses import dataclass
from enum import Enum
from typing import Any

from replay_tools.cli.statuses import Status


class Group(Enum):
    """The parts of the list of commands, in their order."""

    RECORD = "Record"
    ASK = "Ask"
    CHECK = "Check"
    MANY = "Many nodes"


@dataclass(frozen=True)
class Option:
    """An option, with what its line in the help has."""

    names: tuple[str, ...]
    value: str | None = None
    """what the help calls its value; a switch has none"""
    says: str = ""
    default: str | None = None
    """as the help shows it, and as the parser reads it"""
    is_applied: bool = True
    """whether the parser fills the default in; else the command does, since it has to see what was given"""
    kind: Callable[[str], Any] | None = None
    """makes the value of its text; raises ArgumentTypeError"""
    choices: tuple[str, ...] = ()
    """what completion offers for the value"""
    is_list: bool = False
    """the value is some of the choices, with a comma between them"""
    may_repeat: bool = False
    is_of_file: bool = False
    is_hidden: bool = False
    """help and completion leave it out, as an older form of another option"""
    is_of_kubectl: bool = False
    """kubectl takes it, and each call of kubectl gets it"""
    stored: str = ""
    """the name under which the parser stores it; else it is the option's last name"""
    subcommands: tuple[str, ...] = ()
    """the subcommands that take it; else all do"""

    @property
    def destination(self) -> str:
        return self.stored or self.names[-1].lstrip("-").replace("-", "_")

    @property
    def options(self) -> tuple[Option, ...]:
        """Itself, as the only option of its line."""
        return (self,)

    @property
    def needs_kubectl(self) -> bool:
        return False

    @property
    def head(self) -> str:
        """The option as its line in the help begins."""
        return ", ".join(self.names) + (f" {self.value}" if self.value else "")

    @property
    def text(self) -> str:
        return self.says + (f" ({self.default})" if self.default else "")


@dataclass(frozen=True)
class Together:
    """Options that share a line in the help. The line names the default of an option as {option}."""

    options: tuple[Option, ...]
    says: str
    shown: str = ""
    """how the line begins; else it has all the options"""
    needs_kubectl: bool = False
    """kubectl replay alone takes them"""

    @property
    def is_hidden(self) -> bool:
        return not self.shown and all(option.is_hidden for option in self.options)

    @property
    def head(self) -> str:
        return self.shown or ", ".join(option.head for option in self.options)

    @property
    def text(self) -> str:
        return self.says.format_map({option.destination: option.default for option in self.options})


@dataclass(frozen=True)
class Example:
    """A line of the shell, and what it does. In it {kubelet_replay} is the command as it is typed; a line that asks a
    cluster has kubectl replay."""

    does: str
    line: str


@dataclass(frozen=True)
class Entry:
    """What has all commands, or helps with their arguments."""

    name: str
    module: str
    sentence: str
    usage: tuple[str, ...]
    """lines of the shell, in which {kubelet_replay} is the command as it is typed"""
    exits: Mapping[Status, str]
    examples: tuple[Example, ...] = ()
    notes: tuple[str, ...] = ()
    about: str = ""
    """what its manual page is of; without it there is none"""
    typed: str = "kubelet-replay"
    is_of_kubectl: bool = False
    lists_commands: bool = False


@dataclass(frozen=True)
class Command:
    """A command of kubelet-replay and kubectl replay."""

    name: str
    module: str
    """of replay_tools.commands, with its work, and of replay_tools.manual, with its details"""
    group: Group
    says: str
    """what it does, as a list of commands has it"""
    usage: tuple[str, ...]
    """what may follow its name"""
    examples: tuple[Example, ...]
    lines: tuple[Option | Together, ...]
    exits: Mapping[Status, str]
    sentence: str = ""
    """what it does, as its help begins; else what the list of commands has"""
    notes: tuple[str, ...] = ()
    """paragraphs that follow the usage, in their lines"""
    needs: str = ""
    """what it needs besides python3"""
    more: str = ""
    """where there is more than in its manual page"""
    takes_arguments: bool = True
    """arguments that are no option"""
    pods: str = "none"
    """how many pods it takes: none, one or any"""
    takes_file: bool = False
    names_files: bool = False
    """its arguments that are no option are files"""
    lists_pods: bool = False
    """without a pod it lists the pods of a namespace"""
    takes_several: bool = False
    """it takes several traces, and what a cluster has"""
    is_of_program: bool = False
    """the proved program does it"""
    parses_itself: bool = False
    """its module takes its arguments as they are"""
    subcommands: tuple[str, ...] = ()

    @property
    def options(self) -> Iterator[Option]:
        """All its options, also those that its help leaves out."""
        return (option for line in self.lines for option in line.options)

    def options_of(self, subcommand: str | None) -> list[Option]:
        """The options of one of its subcommands, or of itself."""
        return [option for option in self.options
                if subcommand is None or not option.subcommands or subcommand in option.subcommands]
