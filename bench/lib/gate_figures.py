"""The figures of the gate, by whole commands: of `rt ci NAME` for each crate, without its edits and for them, and of
`./test`. How bench/gate.tsv keeps them, and what follows from them."""
import csv
import functools
import os
import re
import subprocess
from typing import NamedTuple

import script
from crates import standing_below
from edits import paths_of

WHOLE = "./test"
COLUMNS = ("crate", "seconds", "processor seconds", "peak bytes", "of edits", "last line", "commit", "kit", "machine",
           "again")
FIGURES = "bench/gate.tsv"


class Figure(NamedTuple):
    """Of a command that has ended, or of two."""
    seconds: float
    spent: float    # processor seconds, of the command and of all below it that was waited for
    peak: float     # bytes of the largest process
    edits: float | None     # those processor seconds that its edits took; None where they were not timed apart
    last: str       # its last line
    commit: str
    kit: str
    machine: str
    again: float | None = None      # processor seconds of the same command where all is kept; None: not measured

    def on(self):
        """What it was measured on."""
        return self.commit, self.kit, self.machine

    def with_edits(self, tried):
        """Together with the command that tried the edits."""
        return tried._replace(seconds=self.seconds + tried.seconds, spent=self.spent + tried.spent,
                              peak=max(self.peak, tried.peak), edits=tried.spent)

    def ran_again(self):
        """The processor seconds that its commands, two if it has edits, took for what had passed before."""
        return (self.again or 0) * (2 if self.edits else 1)

    def waited_for(self):
        """The processor seconds for which the crates above wait."""
        return self.spent - (self.edits or 0) - (self.again or 0)


def last_line(log):
    return log.rstrip("\n").rpartition("\n")[2]


def proved_in(log):
    """By the log of a run of the gate: the crates of which it proved something, and which of them it proved
    whole. What it kept is the kit's, from runs that passed on this machine."""
    proofs = set(re.findall(r"(?m)^rt: (\w+) proved$", log))
    tests = set(re.findall(r"(?m)^rt: (\w+): its tests are proved$", log))
    tried = set(re.findall(r"(?m)^rt: must-fail (\w+)/", log))
    kept = set(re.findall(r"(?m)^rt: (\w+): \d+ of its \d+ must-fail edits were tried by an earlier run", log))
    return proofs | tests | tried - kept, proofs - kept


def edits_of(top, name):
    """How many edits the gate tries of a crate."""
    return len(paths_of(top, name, "must-fail"))


def read_figures(top):
    """The figures of each crate by the run that proved it last, and the figures of ./test."""
    path = os.path.join(top, FIGURES)
    if not os.path.isfile(path):
        return {}
    with open(path, newline="", encoding="utf-8") as file:
        return _figures_in(file)


def figures_at(top, commit):
    """The figures that a commit has of them; none if it has no table, or git does not know it."""
    done = subprocess.run(["git", "show", f"{commit}:./{FIGURES}"], cwd=top, stdin=subprocess.DEVNULL,
                          capture_output=True, text=True, check=False)
    return _figures_in(done.stdout.splitlines(keepends=True)) if done.returncode == 0 else {}


def _figures_in(lines):
    rows = list(csv.DictReader(lines, delimiter="\t"))
    # a table of before 30 November 2026 has no column "again"
    return {row["crate"]: Figure(*(float(row[column]) for column in COLUMNS[1:4]), _number(row[COLUMNS[4]]),
                                 *(row[column] for column in COLUMNS[5:9]), _number(row.get(COLUMNS[9])))
            for row in rows}


# what the gate reads of a crate; a README and wrong-bodies/ are no part of it
READ = re.compile(r"crates/(\w+)/(src|specs|proofs|must-fail|data|stdin|stdout|args|status)\b")


@functools.cache
def changed_since(top, *commits):
    """Of which crates the gate reads something else at a second commit, or now, than at a first one, each with what of
    it; none where git does not know one of them."""
    done = subprocess.run(["git", "diff", "--name-only", *commits, "--", "crates"], cwd=top, stdin=subprocess.DEVNULL,
                          capture_output=True, text=True, check=False)
    return {(found[1], found[2]) for found in READ.finditer(done.stdout)} if done.returncode == 0 else None


def since(top, below, name, commit):
    """What has changed since a crate was measured: the crate itself, one below it, or nothing."""
    changed = changed_since(top, commit)
    if changed is None:
        return "?"
    if name in {crate for crate, _ in changed}:
        return "itself"
    # no crate depends on the mutants of another
    read = {crate for crate, part in changed if part != "must-fail"}
    return "below" if read & standing_below(below, name) else "no"


def unchanged_between(top, before, found):
    """The crates of two tables whose own files were the same when both were measured."""
    both = [name for name in found if name in before and name != WHOLE]
    changed = {name: changed_since(top, before[name].commit, found[name].commit) for name in both}
    return [name for name in both if changed[name] is not None and name not in {crate for crate, _ in changed[name]}]


def _number(text):
    return None if text in (None, "-") else float(text)


def _text(number):
    return "-" if number is None else f"{number:.1f}"


def keep(top, crates, name, figure):
    """Puts a figure in the place of the one before; drops the figures of crates that no longer exist."""
    found = {**read_figures(top), name: figure}
    rows = [COLUMNS]
    for it in (*crates, WHOLE):
        if it in found:
            seconds, spent, peak, edits, *words, again = found[it]
            rows.append((it, f"{seconds:.1f}", f"{spent:.1f}", f"{peak:.0f}", _text(edits), *words, _text(again)))
    script.write(os.path.join(top, FIGURES), "".join("\t".join(row) + "\n" for row in rows))


def gate_seconds(found, below):
    """The processor seconds of ./test from nothing, by the seconds of all commands without what each of them ran
    again, which ./test after them ran once; None where something of it was not measured."""
    rows = [found[name] for name in below if name in found]
    if WHOLE not in found or len(rows) < len(below) or any(it.again is None for it in rows):
        return None
    return found[WHOLE].spent + sum(it.spent - it.ran_again() for it in rows)


def longest_chain(found, below):
    """The crates that wait for one another longest, by the processor seconds of each without its edits and without what
    ran again. The crates are in the order of crates.txt."""
    chains = {}
    for name in below:
        spent, names = max((chains[it] for it in below[name]), default=(0, []))
        chains[name] = spent + (found[name].waited_for() if name in found else 0), [*names, name]
    return max(chains.values())
