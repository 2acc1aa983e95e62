"""What all commands have in common: reading standard input, one line of a fault, writing an answer."""

from __future__ import annotations

import io
import os
import signal
import sys
from collections.abc import Callable
from typing import Any, BinaryIO, IO, TextIO, TYPE_CHECKING

from replay_tools.cli.statuses import Status

if TYPE_CHECKING:
    from replay_tools import report as reports

# the longest trace of the formats
LONGEST_INPUT = 64 << 20
# an interrupt that Python drops comes again after so long
AGAIN_SECONDS = 0.01
# the part of CHANGELOG.md that a checkout has between two releases, and what the version then shows
NOT_RELEASED, UNRELEASED = "## Not released yet", ", and what is not released yet"


class Fault(Exception):
    """What is printed in one line on standard error, in one more what it means where that is known, and the status."""

    def __init__(self, said: str, status: int = Status.BAD_INPUT, means: str | None = None) -> None:
        super().__init__(said)
        self.status, self.means = status, means


def visible(text: str) -> str:
    """The text as a terminal only shows it."""
    from replay_tools import outside
    return outside.visible(text)


def say(text: str) -> None:
    """A line on standard error that is no fault, under the name of the tool that runs."""
    print(f"{sys.argv[0]}: {visible(text)}", file=sys.stderr)


def standard_input() -> BinaryIO:
    """Standard input as bytes, where the shell has not closed it."""
    if sys.stdin is None:
        raise Fault("standard input is closed")
    return sys.stdin.buffer


def read_report() -> reports.Report:
    """The report of standard input."""
    from replay_tools import first_bytes, report as reports
    given = standard_input()
    if given.isatty():
        raise Fault("it needs -f FILE, a trace or a report, or a report on standard input (see --help)")
    text = read_bounded(given, "standard input")
    try:
        return reports.read_report(text.decode("utf-8", "replace"))
    except reports.ReportFault as fault:
        raise Fault(first_bytes.instead_of_report(text) or str(fault)) from None


def read_bounded(given: IO[bytes], what: str) -> bytes:
    """The bytes of what may have no end, as a device or a pipe. Raises Fault where they are more than a trace has."""
    try:
        text = given.read(LONGEST_INPUT + 1)
    except OSError as fault:
        raise Fault(f"{what} can't be read: {fault.strerror}") from None
    if len(text) > LONGEST_INPUT:
        raise Fault(f"{what} has more than 64 MiB, which is the most that is read")
    return text


class OutputFault(OSError):
    """Standard output takes no more."""


class Output(io.FileIO):
    """Standard output, with faults that can be distinguished from the faults of other files."""

    def write(self, data: Any) -> int:
        try:
            return super().write(data)
        except BrokenPipeError:
            raise
        except OSError as fault:
            raise OutputFault(fault.errno, fault.strerror) from None


def standard_output() -> TextIO:
    """Standard output with a buffer also where PYTHONUNBUFFERED takes it away: without one a write that is cut short,
    as on a full disk, would be no fault."""
    plain = sys.stdout
    buffer = io.BufferedWriter(Output(plain.fileno(), "wb", closefd=False))
    return io.TextIOWrapper(buffer, plain.encoding, plain.errors, line_buffering=plain.isatty())


def again_if_interrupt(dropped: Any) -> None:
    """Raises again an interrupt that Python drops since it came within a callback of its own, as of an import. Python
    reports other dropped exceptions as usual."""
    if dropped.exc_type is not KeyboardInterrupt:
        sys.__unraisablehook__(dropped)
        return
    signal.signal(signal.SIGALRM, signal.default_int_handler)
    signal.setitimer(signal.ITIMER_REAL, AGAIN_SECONDS)


def run(tool: str, main: Callable[[], int]) -> int:
    """The status of a process that runs a tool: the status of main, or FAILED if standard output is closed."""
    sys.unraisablehook = again_if_interrupt
    if sys.stderr is None:
        sys.stderr = open(os.devnull, "w", encoding="utf-8")
    if sys.stdout is None:
        print(f"{tool}: standard output is closed", file=sys.stderr)
        return Status.FAILED
    sys.stdout = standard_output()
    try:
        try:
            # start holds an interrupt back until it is heard here
            signal.pthread_sigmask(signal.SIG_UNBLOCK, [signal.SIGINT])
            return main()
        finally:
            # after the tool's end Python would report one
            signal.pthread_sigmask(signal.SIG_BLOCK, [signal.SIGINT])
    except KeyboardInterrupt:
        return Status.INTERRUPTED
    except RuntimeError as fault:
        if is_interrupt(fault):
            return Status.INTERRUPTED
        raise


def is_interrupt(fault: BaseException) -> bool:
    """Whether a fault counts as an interrupt: Python before 3.12 makes one of it that comes as a class is made, whose
    cause it is."""
    return isinstance(fault, KeyboardInterrupt) or (fault.__cause__ is not None and is_interrupt(fault.__cause__))


def answered(tool: str, main: Callable[[], int]) -> int:
    """The status of a tool, whose answer or fault is written: the status of main or of a fault, or FAILED if standard
    output takes no more or the system rejects something that no tool expects."""
    sys.argv = [tool]
    try:
        status = main()
        sys.stdout.flush()
        return status
    except Fault as fault:
        for said in filter(None, (str(fault), fault.means)):
            print(f"{tool}: {visible(said)}", file=sys.stderr)
        return fault.status
    except BrokenPipeError:
        # what is still held must not be written once more as the interpreter ends
        os.dup2(os.open(os.devnull, os.O_WRONLY), sys.stdout.fileno())
        return Status.FAILED
    except OSError as fault:
        output = "standard output takes no more: " if isinstance(fault, OutputFault) else ""
        os.dup2(os.open(os.devnull, os.O_WRONLY), sys.stdout.fileno())
        print(f"{tool}: {output}{visible(str(fault.strerror or fault))}", file=sys.stderr)
        return Status.FAILED


def version(tool: str) -> int:
    """Writes the version of the release that the tool is of, or that the checkout goes on from; the status."""
    package = os.path.dirname(os.path.realpath(__file__))
    with open(os.path.join(package, "VERSION"), encoding="utf-8") as file:
        number = file.read().strip()
    more = UNRELEASED if has_more(os.path.dirname(os.path.dirname(package))) else ""
    sys.stdout.write(f"{tool} {number}{more}\n")
    return Status.DONE


def has_more(top: str) -> bool:
    """Whether the changes name some that no release has."""
    try:
        with open(os.path.join(top, "CHANGELOG.md"), encoding="utf-8") as file:
            return any(line.startswith(NOT_RELEASED) for line in file)
    except OSError:
        return False


def counted(count: int, what: str) -> str:
    """A number of things, in words: 1 pod, 2 pods, 2 copies."""
    several = f"{what[:-1]}ies" if what.endswith("y") else f"{what}s"
    return f"{count} {what if count == 1 else several}"
