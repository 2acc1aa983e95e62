"""Writes what a rejection of the program means, of a trace that may be packed, or be read but once."""

from __future__ import annotations

import os
import sys
import tempfile
from collections.abc import Iterator
from contextlib import contextmanager

from replay_tools import entry, outside, packed, program as programs
from replay_tools.cli.statuses import Status
from replay_tools.traces import LONGEST_TRACE

from . import answer, told, verdict


def explained(path: str, name: str, is_extended: bool, is_line: bool) -> int:
    """Writes what is printed of a trace, which has this name for the operator; the status."""
    check_readable(path, name)
    if not os.environ.get("KUBELET_REPLAY"):
        # in a checkout this builds the program where that is due, and what it shows is not held back
        programs.checked_path()
    try:
        with readable(path) as known:
            status = write(known, name, is_extended, is_line)
        return status or (Status.DONE if os.path.exists(path) else Status.BAD_INPUT)
    except packed.Damaged as fault:
        show(answer.of_damaged(str(fault)), name, is_line)
    return Status.DONE


def check_readable(path: str, name: str) -> None:
    """Raises Fault where a file can't be opened; of a folder, and of a file that is not there, the answer has more."""
    if os.path.isdir(path) or not os.path.exists(path):
        return
    try:
        with open(path, "rb"):
            pass
    except OSError as fault:
        raise entry.Fault(f"{outside.visible(name)}: {fault.strerror}") from None


@contextmanager
def readable(path: str) -> Iterator[str]:
    """The path of a file as the program takes it. It is the path of a copy, which goes again, if the file can be read
    only once, is packed, or has a name that the program does not take. Raises Damaged."""
    text = bytes_to_copy(path)
    if text is None:
        yield path
        return
    with tempfile.NamedTemporaryFile(prefix="explain-") as copy:
        copy.write(text)
        copy.flush()
        yield copy.name


def bytes_to_copy(path: str) -> bytes | None:
    """The bytes of a file that can't be passed to the program as it is; None where it can, or can't be read."""
    if not os.path.exists(path) or os.path.isdir(path):
        return None
    is_file = os.path.isfile(path) and not path.startswith("/dev/")
    try:
        if is_file and not packed.is_packed_file(path) and outside.is_utf8(path):
            return None
        return packed.read(path, LONGEST_TRACE)
    except OSError:
        return None


def show(given: answer.Answer, name: str, is_line: bool) -> None:
    sys.stdout.write((told.one_line(given) or given.said) + "\n" if is_line else told.whole_text(given, name))


def write(path: str, name: str, is_extended: bool, is_line: bool) -> int:
    """Writes what a trace's rejection means, and of one of the extended format what it comes to as such; the status."""
    given = [answer.answer_of(path, is_extended)]
    show(given[0], name, is_line)
    if not is_line and not is_extended and given[0].is_fault and verdict.says_extended(path):
        given.append(answer.answer_of(path, True))
        sys.stdout.write("\n" + told.whole_text(given[-1], f"{name} with --extended"))
    return Status.FAILED if any(each.has_no_verdict for each in given) else Status.DONE
