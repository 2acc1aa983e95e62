"""The ways in which bench/cases runs a case, and what it prints of them."""
import os
import subprocess
import tempfile

import script

STEPS = {
    "none": (1, ""),
    # the second of two workers takes a pod of the first and sees to it, and leaves another in its hand
    "stolen": (2, "steal 1 0\nupdate 1\nenter 1\nsteal 1 0\n"),
    # three workers, steps out of turn, and workers that there are none of
    "mistaken": (3, "update 0\npop 2\npop 2\npop 63\nsteal 9 2\nsteal 0 9\nenter 2\nupdate 2\nsteal 1 1\npop 0\n"),
    # the last of 64 workers are the first that take a pod
    "last_first": (64, "steal 62 1\npop 63\npop 3\nupdate 62\nupdate 3\nenter 3\nenter 62\nsteal 61 0\nupdate 61\n"),
}
"""By the name of a file, how many workers play its steps, and the steps"""
LONGEST = 60
"""seconds that a run may take: one that waits for ever is otherwise than expected"""


def write_steps(folder):
    for name, (_, text) in STEPS.items():
        script.write(os.path.join(folder, name), text)


def ways(trace, steps):
    """The words of each way to replay a trace; the last one reads it alone."""
    for workers in (1, 2, 3, 4, 64):
        yield "run", trace, "--workers", str(workers)
    for name, (workers, _) in STEPS.items():
        yield "play", trace, os.path.join(steps, name), "--workers", str(workers)
    yield "check", trace


class Runs:
    """What runs the program over a case in each way, with the steps in this folder."""

    def __init__(self, program, steps, longest=LONGEST):
        self.program, self.steps, self.longest = program, steps, longest

    def ran(self, words):
        """The status of a run, what it writes, and what it prints on standard error; none if it has no end."""
        try:
            done = subprocess.run([self.program, *words], stdin=subprocess.DEVNULL, capture_output=True,
                                  timeout=self.longest, check=False)
        except subprocess.TimeoutExpired:
            return None
        return done.returncode, done.stdout, done.stderr.decode(errors="replace")

    def fault(self, case, words):
        """What is wrong with a run of the case, if anything is, and what it wrote."""
        done = self.ran((*words, *case.words))
        if done is None:
            return "no end", b""
        status, written, said = done
        if case.report is None and not case.refusal and status == 0:
            # what the first way writes of an accepted trace is needed of the others
            return "", written
        return case.fault(words[0], status, written, said), written

    def __call__(self, case):
        """How many runs it has, and what is printed of those that are otherwise than expected."""
        told, runs = [], 0
        with tempfile.NamedTemporaryFile() as file:
            file.write(case.trace)
            file.flush()
            for words in ways(file.name, self.steps):
                runs += 1
                fault, written = self.fault(case, words)
                if fault:
                    told.append(f"{case.name}: {words[0]} {' '.join(map(os.path.basename, words[2:]))}: {fault}")
                elif case.report is None and not case.refusal:
                    case = case._replace(report=written)
        return runs, told
