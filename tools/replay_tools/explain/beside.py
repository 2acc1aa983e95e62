"""The one line that the other tools show after a rejection of the program."""

from __future__ import annotations

from replay_tools import entry
from replay_tools.cli.statuses import Status

from . import answer, told
from .verdict import Verdict, says_extended


def meaning(path: str, is_extended: bool) -> str | None:
    """What a rejection of a file means and what to do; None where nothing is known of it, or it is none."""
    try:
        return told.one_line(answer.answer_of(path, is_extended))
    except (OSError, entry.Fault):
        return None


def meaning_of(path: str, line: int | None, number: int, fault: str) -> str | None:
    """The same where the program has reported the line, the number and the fault already."""
    manifest = fault.partition(" ")[2]
    verdict = Verdict(Status.BAD_INPUT, f"line {line}: {number} {fault}", line, number,
                      int(manifest) if manifest.isdigit() else None)
    try:
        return told.one_line(answer.of_verdict(path, verdict, says_extended(path)))
    except OSError:
        return None
