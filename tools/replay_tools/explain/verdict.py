"""What the program answers to a trace: the verdict that is explained."""

from __future__ import annotations

import re
import subprocess
from dataclasses import dataclass

from replay_tools import entry, program as programs
from replay_tools.cli.statuses import Status

REFUSED = re.compile(r"line (\d+): (\d+) (\w+)(?: (\d+))?")


@dataclass(frozen=True)
class Refusal:
    """The line that the program rejects, the number of its fault, and the number of a manifest's fault."""
    line: int
    number: int
    manifest: int | None


@dataclass
class Verdict:
    status: int
    said: str
    """the first line of its standard output, or of its standard error"""
    line: int | None = None
    number: int | None = None
    manifest: int | None = None
    """the number of a manifest's fault"""

    @property
    def refusal(self) -> Refusal | None:
        """What it rejects; None where it names no line."""
        if self.line is None or self.number is None:
            return None
        return Refusal(self.line, self.number, self.manifest)


def verdict_of(path: str, is_extended: bool) -> Verdict:
    """The program's answer to check."""
    program = programs.path()
    words = [program, "check", path, *(["--extended"] if is_extended else [])]
    try:
        done = subprocess.run(words, stdin=subprocess.DEVNULL, capture_output=True, check=False)
    except OSError as fault:
        raise entry.Fault(programs.missing(program, fault), Status.MISSING) from None
    said = (done.stdout if done.returncode == Status.DONE else done.stderr).decode("utf-8", "replace").split("\n")[0]
    found = REFUSED.fullmatch(said)
    if done.returncode != Status.BAD_INPUT or not found:
        return Verdict(done.returncode, said)
    line, number, _, manifest = found.groups()
    return Verdict(Status.BAD_INPUT, said, int(line), int(number), int(manifest) if manifest else None)


def says_extended(path: str) -> bool:
    """Whether a trace's node line shows the extended format."""
    try:
        with open(path, "rb") as file:
            return bool(programs.format_words(file))
    except OSError:
        return False
