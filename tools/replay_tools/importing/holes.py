"""Holes in a journal, by the numbers that journald gives to lines. It numbers the lines of all programs, so some
of them alone have holes all along: a hole means lost lines only where there was none before for some time, and
lines of other programs too. And where a clock went forward, by the other one that journald has for each line, which
counts the time since the node's start."""

from __future__ import annotations

import re
from collections.abc import Callable
from dataclasses import dataclass
from typing import Any, Optional

from replay_tools import outside

# so long a journal had no hole where one means lost lines
WHOLE_SECONDS = 60
# a clock that goes forward by less shows nothing
FORWARD_SECONDS = 60
# what a line follows
HOLE, FORWARD = "hole", "forward"
# programs whose lines journalctl prints where it is asked for the kubelet and its runtime
OURS = ("kubelet", "systemd", "containerd", "crio", "cri-o", "dockerd")
MOST_SEQUENCES = 1000
CURSOR = r"s=([0-9a-f]+);i=([0-9a-f]{1,16});(?:b=([0-9a-f]*);)?(?:m=([0-9a-f]{1,16});)?t=([0-9a-f]{1,16})"
PLAIN_CURSOR = re.compile(CURSOR)
# the same members in a record of JSON that is not read yet
JSON_CURSOR = re.compile(rb'"__CURSOR" ?: ?"' + CURSOR.encode())
JSON_NUMBER = re.compile(rb'"__SEQNUM" ?: ?"(\d+)"')
JSON_STAMP = re.compile(rb'"__REALTIME_TIMESTAMP" ?: ?"(\d+)"')
JSON_SINCE_START = re.compile(rb'"__MONOTONIC_TIMESTAMP" ?: ?"(\d+)"')
JSON_BOOT = re.compile(rb'"_BOOT_ID" ?: ?"([0-9a-f]{1,64})"')
JSON_PROGRAM = re.compile(rb'"SYSLOG_IDENTIFIER" ?: ?"([^"\\]*)"')


@dataclass
class Run:
    """Lines whose numbers rise by one: the last number, the microseconds of the first one and of the last one, and
    whether other programs than the kubelet and its runtime have some after the first."""
    number: int
    begun: int
    until: int
    has_others: bool = False

    def is_whole(self) -> bool:
        return self.has_others and self.until - self.begun >= WHOLE_SECONDS * 10 ** 6


class Numbers:
    """The numbers of a journal's lines so far, by their sequences: there is another one where journald began again. And
    by how much the clock is ahead of the time since the node's start, by the starts."""

    def __init__(self) -> None:
        self.runs: dict[Any, Run] = {}
        self.ahead: dict[Any, int] = {}

    def before_json(self, text: bytes) -> Optional[str]:
        """Takes a record of JSON; the hole that it follows, if it does."""
        found = JSON_CURSOR.search(text)
        if found is not None:
            return self.before(found, lambda: program_in(text))
        number, since_start, stamp = (digits(form.search(text)) for form in (JSON_NUMBER, JSON_SINCE_START, JSON_STAMP))
        boot = JSON_BOOT.search(text)
        return self.before_numbers(b"", None if boot is None else boot[1], number, since_start, stamp,
                                   lambda: program_in(text))

    def before_record(self, record: dict[str, Any]) -> Optional[str]:
        """Takes a record; the hole that it follows, if it does."""
        def program() -> str:
            return str(record.get("SYSLOG_IDENTIFIER") or "")

        found = PLAIN_CURSOR.match(str(record.get("__CURSOR")))
        if found is not None:
            return self.before(found, program)
        number, since_start, stamp = (outside.number_of(str(record.get(name))) for name in (
            "__SEQNUM", "__MONOTONIC_TIMESTAMP", "__REALTIME_TIMESTAMP"))
        return self.before_numbers("", record.get("_BOOT_ID"), number, since_start, stamp, program)

    def before(self, found: re.Match, program: Callable[[], str]) -> Optional[str]:
        """Takes a line of a cursor and, where it has to be known, a program."""
        sequence, number, boot, since_start, stamp = found.groups()
        return self.before_numbers(sequence, boot, int(number, 16), int(since_start, 16) if since_start else None,
                                   int(stamp, 16), program)

    def before_numbers(self, sequence: Any, boot: Any, number: Optional[int], since_start: Optional[int],
                       stamp: Optional[int], program: Callable[[], str]) -> Optional[str]:
        if stamp is None:
            return None
        has_hole = number is not None and self.lack_before(sequence, number, stamp, program)
        if boot and since_start is not None and self.goes_forward(boot, stamp - since_start):
            return FORWARD
        return HOLE if has_hole else None

    def goes_forward(self, boot: Any, ahead: int) -> bool:
        """Whether the clock went forward since the line before, of the same start of the node."""
        before = self.ahead.get(boot)
        if before is not None or len(self.ahead) < MOST_SEQUENCES:
            self.ahead[boot] = ahead
        return before is not None and ahead - before > FORWARD_SECONDS * 10 ** 6

    def lack_before(self, sequence: Any, number: int, stamp: int, program: Callable[[], str]) -> bool:
        """Whether lines are missing before one."""
        run = self.runs.get(sequence)
        if run is not None and number == run.number + 1:
            run.number, run.until, run.has_others = number, stamp, run.has_others or is_other(program())
            return False
        is_first_run = not self.runs
        if run is not None or len(self.runs) < MOST_SEQUENCES:
            self.runs[sequence] = Run(number, stamp, stamp)
        if run is None:
            return not is_first_run
        return number > run.number and run.is_whole()


def is_other(program: str) -> bool:
    return bool(program) and program not in OURS


def program_in(text: bytes) -> str:
    """The program that a record of JSON is of."""
    found = JSON_PROGRAM.search(text)
    return "" if found is None else found[1].decode("utf-8", "replace")


def digits(found: Optional[re.Match[bytes]]) -> Optional[int]:
    return None if found is None else outside.number_of(found[1].decode("ascii"))
