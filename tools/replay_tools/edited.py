"""Replays a trace as it is and with an edit, and shows which lines of the reports differ."""

from __future__ import annotations

import json
import os
import resource
import shutil
import subprocess
import tempfile
from collections.abc import Iterable
from typing import Any

from replay_tools import entry, nearest, packed, program as programs
from replay_tools.cli.statuses import Status
from replay_tools.traces import LONGEST_TRACE

# a line that the edit leaves as it is stays, byte for byte; others are written again
EDIT = r"""include "edits";
    inputs as $text
    | $text
    | if test("\\A[ \t\r]*\\z") then $text
      else fromjson as $line | $line | (EDIT
      ) | if . == $line then $text else tojson end
      end"""
# how jq writes what an edit asks for, by edits.jq
ASKS = '["DEBUG:",{"what-if":'
WORDS_OF_EDITS = os.path.dirname(os.path.realpath(__file__))
OTHER_FOLDER = "(TMPDIR names another folder)"


def difference(edit: str, seconds: float) -> str:
    """The lines in which the report of the trace of standard input and that with an edit differ, each with - or +;
    what is printed where there is none goes to standard error. The edit may take so many seconds."""
    program = os.environ.get("KUBELET_REPLAY") or programs.path()
    for command in ("jq", "diff", program):
        if shutil.which(command) is None:
            raise entry.Fault(f"{command} is missing", Status.MISSING)
    if entry.standard_input().isatty():
        entry.say("it reads a trace from standard input, which is this terminal (it is meant as: what-if EDIT < TRACE)")
    try:
        folder = tempfile.TemporaryDirectory(dir=folder_of_copies())
    except OSError:
        raise entry.Fault(f"no folder can be made in {folder_of_copies()} (TMPDIR names another)",
                          Status.FAILED) from None
    with folder as path:
        return Comparison(path, program, seconds).difference(edit)


def folder_of_copies() -> str:
    return os.environ.get("TMPDIR") or "/tmp"


class Comparison:
    """Two traces and their reports, in a folder of their own."""

    def __init__(self, folder: str, program: str, seconds: float) -> None:
        self.folder, self.program, self.seconds = folder, program, seconds

    def path(self, name: str) -> str:
        return os.path.join(self.folder, name)

    def difference(self, edit: str) -> str:
        self.keep_trace()
        self.replay("trace", "report", "trace")
        self.apply(edit)
        self.replay("edited", "edited_report", "edited trace")
        if self.are_same("trace", "edited"):
            entry.say("the edit changes no line of the trace")
        elif self.are_same("report", "edited_report"):
            entry.say("no line of the reports differs")
        return self.different_lines()

    def keep_trace(self) -> None:
        """Keeps the trace of standard input, unpacked where it is packed."""
        text = entry.read_bounded(entry.standard_input(), "standard input")
        try:
            text = packed.unpacked(text, LONGEST_TRACE)
        except packed.Damaged as fault:
            raise entry.Fault(f"standard input {str(fault).removeprefix('it ')}") from None
        if len(text) > LONGEST_TRACE:
            raise too_long("unpacked, standard input has")
        try:
            with open(self.path("trace"), "wb") as file:
                file.write(text)
        except OSError as fault:
            raise entry.Fault(f"the trace can't be kept in {folder_of_copies()}: {fault.strerror} {OTHER_FOLDER}",
                              1) from None

    def replay(self, trace: str, report: str, named: str) -> None:
        """Replays a file into another. Raises Fault where there is no report."""
        with open(self.path(trace), "rb") as lines:
            option = programs.format_words(lines)
        words = ["run", self.path(trace), *option] if option else []
        with open(self.path(trace), "rb") as given, open(self.path(report), "wb") as output:
            done = subprocess.run([self.program, *words], stdin=given, stdout=output, stderr=subprocess.PIPE,
                                  check=False)
        if done.returncode != 0:
            said = done.stderr.decode("utf-8", "replace").partition("\n")[0]
            raise self.fault_of(trace, named, done.returncode, said, bool(option))

    def fault_of(self, trace: str, named: str, status: int, said: str, is_extended: bool) -> entry.Fault:
        """What is printed of a trace without a report."""
        if status == Status.BAD_INPUT:
            return entry.Fault(f"the {named} is rejected: {said}", means=meaning(self.path(trace), is_extended))
        if status == Status.MISSING:
            return entry.Fault(f"the {named} can't be replayed: {said}", Status.MISSING)
        if status == Status.FAILED and said == "write failed":
            return entry.Fault(f"the {named}'s report can't be kept: {folder_of_copies()} takes no more "
                               f"{OTHER_FOLDER}", Status.FAILED)
        status = status if status >= 0 else 128 - status
        return entry.Fault(f"the {named} can't be replayed (status {status}): {said}", Status.FAILED)

    def apply(self, edit: str) -> None:
        """Applies the edit to each line, and looks whether what it asks for is there. Raises Fault if that takes longer
        than the limit of time."""
        with open(self.path("trace"), "rb") as given, open(self.path("edited"), "wb") as output, \
                open(self.path("error"), "wb") as error:
            try:
                done = subprocess.run(["jq", "-n", "-R", "-r", "-L", WORDS_OF_EDITS, EDIT.replace("EDIT", edit)],
                                      stdin=given, stdout=output, stderr=error, check=False, preexec_fn=bound,
                                      timeout=self.seconds)
            except subprocess.TimeoutExpired:
                raise entry.Fault(f"the edit took longer than {self.seconds:g} s: --timeout SECONDS sets another limit"
                                  ) from None
        if done.returncode < 0:
            for name, what in (("edited", "the edit makes"), ("error", "the edit reports")):
                if os.path.getsize(self.path(name)) > LONGEST_TRACE:
                    raise too_long(what)
        with open(self.path("error"), encoding="utf-8", errors="replace") as file:
            said = file.read().split("\n")
        if done.returncode != 0:
            failed = next((line for line in said if not line.startswith(ASKS)), "")
            raise entry.Fault(f"the edit fails: {failed}")
        check_there([json.loads(line)[1]["what-if"] for line in said if line.startswith(ASKS)])

    def are_same(self, one: str, other: str) -> bool:
        with open(self.path(one), "rb") as first, open(self.path(other), "rb") as second:
            return first.read() == second.read()

    def different_lines(self) -> str:
        """The lines of one report alone."""
        done = subprocess.run(["diff", "-U", "0", self.path("report"), self.path("edited_report")],
                              stdin=subprocess.DEVNULL, stdout=subprocess.PIPE, check=False)
        if done.returncode > 1:
            raise entry.Fault(f"there is no room in {folder_of_copies()} for the lines that differ {OTHER_FOLDER}",
                              Status.FAILED)
        lines = done.stdout.decode("utf-8", "replace").split("\n")[2:]
        return "".join(f"{line[0]} {line[1:]}\n" for line in lines if line.startswith(("+", "-")))


def bound() -> None:
    """Ends a process that writes more into a file than a trace has: an edit may go on for ever, and a write that fails
    does not end it."""
    resource.setrlimit(resource.RLIMIT_CORE, (0, 0))
    resource.setrlimit(resource.RLIMIT_FSIZE, (LONGEST_TRACE + 1, LONGEST_TRACE + 1))


def too_long(what: str) -> entry.Fault:
    return entry.Fault(f"{what} more than 64 MiB, which is the most that a trace has")


def meaning(path: str, is_extended: bool) -> str | None:
    """What a rejection of a file means, in one line."""
    from replay_tools.explain import answer, told
    given = answer.answer_of(path, is_extended)
    return None if given.has_no_verdict else told.one_line(given) or given.said


def check_there(asked: list[dict[str, Any]]) -> None:
    """Raises Fault where an edit asks for a pod or a container that the trace has not. Each line shows what it was
    asked for, and what it is of that kind."""
    of_pods = [each for each in asked if "container" not in each]
    for pod in sorted({each["pod"] for each in of_pods}, key=str):
        there = [each["is"] for each in of_pods if each["pod"] == pod and "is" in each]
        if pod not in there:
            raise entry.Fault(f"the trace has no pod {pod}; {nearest.words(pod, there)}")
    of_containers = [each for each in asked if "container" in each]
    for pod, name in sorted({(each["pod"], each["container"]) for each in of_containers}, key=str):
        lists = [each["has"] for each in of_containers if (each["pod"], each["container"]) == (pod, name)]
        if not any(name in has for has in lists):
            raise entry.Fault(f"{pod} has no container {name}; {nearest.words(name, names_in(lists))}")


def names_in(lists: Iterable[list[str]]) -> list[str]:
    return sorted({name for has in lists for name in has}, key=str)
