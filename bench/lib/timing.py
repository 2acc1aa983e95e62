"""The seconds of whole commands, by hyperfine."""
import json
import shlex
import signal
import sys
import tempfile
from typing import NamedTuple

import processes
import script

RUNS = 3
MISSING = "hyperfine is missing: apt-get install hyperfine; it measures the seconds"
# hyperfine would take the time of its own shell off, which on a busy machine may leave nothing of a short run
HYPERFINE = ["hyperfine", "--style", "none", "--shell", "none"]


class Timed(NamedTuple):
    """Of a run."""
    status: int     # negative by a signal
    seconds: float
    peak: int       # bytes; never below what this process or hyperfine had
    late: bool      # it was ended after the seconds that it might take


def measured(options, command, longest=None):
    """What hyperfine found of a command, if it was not late, and what both cost."""
    with tempfile.NamedTemporaryFile("r", encoding="utf-8") as found, tempfile.TemporaryFile("w+") as said:
        words = [*HYPERFINE, *options, "--export-json", found.name, shlex.join(command)]
        cost = processes.run(words, said=said, longest=longest)
        if cost.late:
            return None, cost
        if cost.status != 0:
            said.seek(0)
            raise script.Fault(f"hyperfine failed: {' '.join(said.read().split())}")
        return json.load(found)["results"][0], cost


def seconds_of(words, given):
    """The least seconds of some runs of a command with this file as its standard input."""
    found, _ = measured(["--runs", str(RUNS)], ["sh", "-c", 'exec "$@" <"$0"', given, *words])
    return min(found["times"])


def run(words, output, longest):
    """A run of a command that writes into a file. Its output is shown if it fails; hyperfine would drop it."""
    with tempfile.NamedTemporaryFile("r", encoding="utf-8", errors="replace") as said:
        found, cost = measured(["--runs", "1", "--ignore-failure", "--output", output],
                               ["sh", "-c", 'exec "$@" 2>"$0"', said.name, *words], longest)
        if found is None:
            return Timed(-signal.SIGKILL, longest, cost.peak, True)
        [code] = found["exit_codes"]
        if code != 0:
            print(said.read(), end="", file=sys.stderr)
        return Timed(code if code <= 128 else 128 - code, found["times"][0], cost.peak, False)
