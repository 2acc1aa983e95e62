"""The cases of bench/cases, and what a run of one is to answer."""
import collections
import lzma
import os
from typing import NamedTuple

from differences import first_difference


class Case(NamedTuple):
    """A trace, and what is answered: a report, a refusal, or that it is accepted, whatever the report."""
    folder: str
    name: str
    trace: bytes
    report: bytes | None   # none if it is rejected, or accepted
    refusal: str           # its status and its line; '' where there is none
    words: tuple = ()      # of the program, next to the arguments of a run

    def fault(self, command, status, written, said):
        """What is wrong with a run, if anything is."""
        if self.refusal:
            found = f"status {status}: {said.rstrip()}"
            return found if found != self.refusal else "something is written" if written else ""
        if status or said:
            return f"status {status}: {said.rstrip()}"
        wanted = answer_of_check(self.report) if command == "check" else self.report
        return first_difference(wanted.splitlines(True), written.splitlines(True))


def answer_of_check(report):
    """The numbers of pods and ticks in the report's first line."""
    _, _, numbers = report.partition(b"\n")[0].split(b" ", 2)
    return b"ok " + numbers + b"\n"


EXTENDED = ("extended", "stretches")
"""The families whose traces are read in the extended format"""


def bytes_of(*path):
    """The bytes of a file, or those that are packed in the one whose name has .xz after it."""
    file = os.path.join(*path)
    with open(file, "rb") if os.path.exists(file) else lzma.open(f"{file}.xz") as opened:
        return opened.read()


def is_there(*path):
    file = os.path.join(*path)
    return os.path.exists(file) or os.path.exists(f"{file}.xz")


def names_in(folder, ending):
    """The files that end so, packed or not, in order and without that ending."""
    names = (name.removesuffix(".xz") for name in os.listdir(folder))
    return sorted(name.removesuffix(ending) for name in names if name.endswith(ending))


def traces_in(data, family):
    folder = os.path.join(data, "traces", family)
    words = ("--extended",) if family in EXTENDED else ()
    for name in names_in(folder, ".trace"):
        report, refusal = None, ""
        if is_there(folder, f"{name}.report"):
            report = bytes_of(folder, f"{name}.report")
        else:
            refusal = bytes_of(folder, f"{name}.refusal").decode().rstrip()
        yield Case(f"traces/{family}", f"traces/{family}/{name}", bytes_of(folder, f"{name}.trace"), report, refusal,
                   words)


def lines_in(data, name):
    """The rows of a table; a line that begins with '# ' shows what the rows below it show."""
    before = bytes_of(data, "lines", f"{name}.before")
    rows = bytes_of(data, "lines", f"{name}.table").removesuffix(b"\n").split(b"\n")
    for number, row in enumerate(rows, 1):
        if not row.startswith(b"# "):
            line, answer = row.rsplit(b"\t", 1)
            refusal = "" if answer == b"accepted" else answer.decode()
            yield Case(f"lines/{name}", f"lines/{name}.table, line {number}", before + line + b"\n", None, refusal)


def cases_of(data):
    """All of them."""
    cases = []
    for family in names_in(os.path.join(data, "traces"), ""):
        cases.extend(traces_in(data, family))
    for name in names_in(os.path.join(data, "lines"), ".table"):
        cases.extend(lines_in(data, name))
    return cases


def counts_of(cases):
    """How many there are, by folder and table."""
    counts = collections.Counter(case.folder for case in cases)
    return "".join(f"{folder}: {count} {folder.partition('/')[0]}\n" for folder, count in counts.items())
