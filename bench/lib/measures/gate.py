"""Times the gate by whole commands, and writes docs/gate.md. In new clones of the commit it runs `rt ci NAME` for each
crate, one after the other in the order of crates.txt, and then ./test. A crate with edits runs without them first, and
then with them, which tries only the edits. The kit keeps what has passed on this machine. If it proves a crate again,
the crate's figures go into bench/gate.tsv as its commands end; of all else the page has the figures of the run that
proved it last. So a run that is ended keeps what it measured, and the next one at this commit goes on after it. If a
command fails, the page stays as it was. The logs are out/gate/NAME.log, out/gate/NAME.edits.log and out/gate.log, the
log of ./test. Nothing else should run on the machine meanwhile. The checkout may have no changes but in what this
script writes (status 2).
"""
import contextlib
import os
import shutil
import signal
import subprocess
import sys
import tempfile
from typing import NamedTuple

import gate_page
import processes
import script
from script import TOP
import timing
from crates import below_of, standing_below
from gate_figures import (FIGURES, WHOLE, Figure, edits_of, figures_at, keep, last_line, proved_in,
                          read_figures, since)

PAGE = os.path.join(TOP, gate_page.PAGE)
PROGRAM = "crates/replay_program/out/replay_program"


def ticks(*program):
    """What bench/ticks prints."""
    done = subprocess.run([f"{TOP}/bench/ticks", *program], stdin=subprocess.DEVNULL, stdout=subprocess.PIPE, text=True,
                          check=False)
    if done.returncode != 0:
        raise script.Fault("bench/ticks failed, so docs/gate.md stays as it was")
    return done.stdout


def page():
    """The page as it is."""
    if not os.path.isfile(PAGE):
        return ""
    with open(PAGE, encoding="utf-8") as file:
        return file.read()


def write_page(text):
    script.write(PAGE, text)
    print("docs/gate.md is written")


class Step(NamedTuple):
    """A command of the gate, of a crate or of all."""
    name: str
    edits: bool     # edits are tried; else the crate is proved without them
    again: bool = False     # all is kept

    def log(self):
        part = ".again" if self.again else ".edits" if self.edits else ""
        return "out/gate.log" if self.name == WHOLE else f"out/gate/{self.name}{part}.log"

    def words(self):
        return [WHOLE] if self.name == WHOLE else ["rt", "ci", self.name]

    def waits_for(self, below):
        """A proof waits for the proofs of the crates below, and edits for the crate's proof and for the edits of those
        below: its command would prove and try them too."""
        if self.name == WHOLE or self.again:
            return set()
        others = {Step(name, self.edits) for name in standing_below(below, self.name) - {self.name}}
        return others | {Step(self.name, False)} if self.edits else others


class Gate:
    """Clones of the commit in which the commands of the gate are timed, and on what."""

    def __init__(self, room, below, jobs):
        self.below = below
        # next to each clone one that has no edits: what runs in the one does not see what runs in the other
        self.free = [f"{room}/{job}" for job in range(jobs)]
        for folder in self.free:
            self.clone(f"{folder}/all")
            self.clone(f"{folder}/bare")
            for name in below:
                shutil.rmtree(f"{folder}/bare/crates/{name}/must-fail", ignore_errors=True)
        self.whole = f"{self.free[0]}/all"
        beside = f", {jobs} commands at once" if jobs > 1 else ""
        self.on = (script.output_of(["git", "-C", self.whole, "rev-parse", "--short=10", "HEAD"]).strip(),
                   script.output_of(["rt", "version"]).strip(), processes.machine() + beside)

    @staticmethod
    def clone(folder):
        if subprocess.run(["git", "clone", "--quiet", TOP, folder], stdin=subprocess.DEVNULL, check=False).returncode:
            raise script.Fault("git does not clone the checkout")

    def figure(self, step, ran):
        """What a command printed, and its figures. Nothing is kept of a command that failed."""
        with open(f"{TOP}/{step.log()}", encoding="utf-8", errors="replace") as said:
            text = said.read()
        if ran.status != 0:
            raise script.Fault(f"{' '.join(step.words())} ended with {ran.status}, so docs/gate.md stays as it was: "
                               f"{step.log()} has the reason")
        return text, Figure(ran.seconds, ran.spent, ran.peak, 0.0, last_line(text), *self.on)

    def time(self, steps):
        """Runs commands, none before those that it waits for: each as it has ended, with what it printed and its
        figures. Of those that may begin the first does."""
        left, running, free = list(steps), {}, list(self.free)
        with processes.Commands() as commands:
            while left or running:
                while free and (step := self.next(left, [*left, *running])):
                    left.remove(step)
                    running[step] = folder = free.pop(0)
                    path = f"{TOP}/{step.log()}"
                    os.makedirs(os.path.dirname(path), exist_ok=True)
                    with open(path, "w", encoding="utf-8") as said:
                        commands.begin(step, step.words(), f"{folder}/{'all' if step.edits else 'bare'}", said)
                step, ran = commands.wait_for_one()
                free.insert(0, running.pop(step))
                yield step, *self.figure(step, ran)

    def next(self, left, not_yet):
        return next((step for step in left if not step.waits_for(self.below) & set(not_yet)), None)

    def is_measured(self, name):
        return name in (found := read_figures(TOP)) and found[name].on() == self.on

    def time_crates(self, names):
        """Runs the gate of crates, the edits of each apart from the rest, and prints of each what comes of it."""
        steps = []
        for name in names:
            if self.is_measured(name):
                print(f"{name}: measured at this commit", flush=True)
            else:
                steps.append(Step(name, False))
                steps += [Step(name, True)] * bool(edits_of(self.whole, name))
        proofs = {}
        with contextlib.closing(self.time(steps)) as ended:
            for step, said, figure in ended:
                if step.edits:
                    proof_said, proof = proofs.pop(step.name)
                    said, figure = proof_said + said, proof.with_edits(figure)
                elif Step(step.name, True) in steps:
                    proofs[step.name] = said, figure
                    continue
                print(f"{step.name}: {self.keep_crate(step.name, said, figure)}", flush=True)

    def keep_crate(self, name, said, figure):
        """Keeps the figures of a crate where its commands proved and tried this crate again and no other."""
        worked, anew = proved_in(said)
        if worked - {name}:
            return f"not measured, since others were proved with it: {', '.join(sorted(worked - {name}))}"
        if name not in anew:
            return "not measured, since the kit had kept it, or parts of it"
        keep(TOP, self.below, name, figure)
        return told(figure)

    def time_again(self, names):
        """Runs the commands of crates once more, with all kept."""
        for step, said, figure in self.time([Step(name, True, True) for name in names]):
            if worked := proved_in(said)[0]:
                print(f"{step.name}: not measured, since this was proved: {', '.join(sorted(worked))}", flush=True)
                continue
            keep(TOP, self.below, step.name, read_figures(TOP)[step.name]._replace(again=figure.spent))
            print(f"{step.name}: {figure.spent:.1f} processor s again", flush=True)

    def time_whole(self):
        for _, _, figure in self.time([Step(WHOLE, True)]):
            keep(TOP, self.below, WHOLE, figure)
            print(f"{WHOLE}: {told(figure)}: {figure.last}", flush=True)


def told(figure):
    apart = f" ({figure.edits:.1f} of its edits)" if figure.edits else ""
    return f"{figure.seconds:.1f} s, {figure.spent:.1f} processor s{apart}, {figure.peak / 1e9:.1f} GB"


def refuse_changes():
    """Rejects a checkout whose files differ from its commit's, except for what this script writes."""
    names = ["--", ".", f":!{FIGURES}", f":!{gate_page.PAGE}"]
    done = subprocess.run(["git", "status", "--porcelain", *names], cwd=TOP, stdin=subprocess.DEVNULL,
                          stdout=subprocess.PIPE, check=False)
    if done.returncode != 0:
        raise script.Fault("this is no checkout of git", 2)
    if done.stdout:
        raise script.Fault("the checkout has changes that are not committed, which a clone would not have", 2)


def end(number, _):
    """A signal that ends the script ends its command and takes the clone away too."""
    sys.exit(128 + number)


def crates_of(words):
    """The crates below each, if the arguments name some of them and the checkout is at a commit."""
    below = below_of(TOP)
    for word in words:
        if word not in below:
            raise script.Fault(f"there is no crate {word}", 2)
    refuse_changes()
    signal.signal(signal.SIGTERM, end)
    return below


def run_again(words):
    """Times once more the crates that the words name, or all, whose figures are of these sources and this machine."""
    below, found = crates_of(words), read_figures(TOP)
    # how many commands ran at once is after it
    kit, machine, names = script.output_of(["rt", "version"]).strip(), f"{processes.machine()}, ", []
    for name in words or below:
        if name in found and found[name].kit == kit and f"{found[name].machine}, ".startswith(machine) \
                and since(TOP, below, name, found[name].commit) == "no":
            names.append(name)
        else:
            print(f"{name}: not measured, since its figures are of other sources or of another machine", flush=True)
    with tempfile.TemporaryDirectory(prefix="gate-", ignore_cleanup_errors=True) as room:
        Gate(room, below, 1).time_again(names)


def run_gate(words, jobs):
    """Times the crates that the words name and those below them, or all and then ./test."""
    below = crates_of(words)
    names = set().union(*(standing_below(below, word) for word in words or below))
    with tempfile.TemporaryDirectory(prefix="gate-", ignore_cleanup_errors=True) as room:
        gate = Gate(room, below, jobs)
        gate.time_crates([name for name in below if name in names])
        if not words:
            gate.time_whole()
            costs = gate_page.replays(ticks(f"{gate.whole}/{PROGRAM}"))
            write_page(gate_page.text_of(TOP, below, read_figures(TOP), costs))


def add_to(arguments):
    ways = arguments.add_mutually_exclusive_group()
    ways.add_argument("--jobs", type=script.whole_number(1, 9), default=1, metavar="N",
                      help="run so many commands at once where none waits for another, as in the gate; ./test runs "
                      "alone. The page shows how many (1)")
    ways.add_argument("--again", action="store_true",
                      help="run `rt ci NAME` once more for these crates, or for all, one after the other, if their "
                      "figures are of the sources as they are and of this machine, which has kept the proofs. Each "
                      "command of the crate took that too, and the gate takes it once. It goes into bench/gate.tsv, "
                      "unless something of the crate is proved")
    ways.add_argument("--page", action="store_true", help="run nothing, and write docs/gate.md from bench/gate.tsv; what "
                      "it has on a replay's costs stays as it was")
    ways.add_argument("--costs", action="store_true", help="run no gate, and write again what docs/gate.md has on mutants "
                      "outside of it and on a replay's costs")
    ways.add_argument("--beside", metavar="COMMIT", help="run nothing, and compare bench/gate.tsv with the table of "
                      "COMMIT: by the crates that are as they were then, how much slower the processors are, and what "
                      "the gate would take on the processors of that table")
    arguments.add_argument("names", nargs="*", default=[], metavar="NAME", help="time only these crates and the crates "
                           "below them, and write only bench/gate.tsv")


def main(given):
    if given.names and (given.page or given.costs or given.beside):
        raise script.Fault("--page, --costs and --beside take no NAME", 2)
    if given.page:
        found = read_figures(TOP)
        if not found:
            raise script.Fault(f"{FIGURES} has no figures yet: bench/gate measures them")
        write_page(gate_page.text_of(TOP, below_of(TOP), found, gate_page.replays_in(page())))
        return
    if given.beside:
        print(gate_page.beside_text(TOP, below_of(TOP), figures_at(TOP, given.beside), read_figures(TOP)))
        return
    script.need(rt="the Rattle kit is missing: put its command rt on the PATH",
                cc="a C compiler (cc) is missing; the gate needs it", git="git is missing; it makes the clone")
    if not given.again and not given.names:
        # bench/ticks would miss it after the whole gate
        script.need(hyperfine=timing.MISSING)
    if given.again:
        run_again(given.names)
    elif given.costs:
        write_page(gate_page.with_costs(page(), TOP, ticks()))
    else:
        run_gate(given.names, given.jobs)
