"""What came of a run of bench/real_node --api that is kept: what each recorder's report and what is made of the
kubelet's log have of what the kubelet did, as tables."""

import json
import os
import subprocess
import time

from beside import text_of
from chained import show_chain
from counted import (added, counts_of_facts, false_codes, read_run, real_facts, said_facts, side_by_side,
                     table_of, with_turns)
from from_log import MARKED, at_level, compared, import_log, unknown_places
from kit import read, write
from restarts import restarts_of
from scenario import RUNS

# each of these has to be in the report of the extended format within two seconds
WANTED = ("starts", "exits with their codes", "evictions shown as a fact")
# each of these is in no report that is none of the kubelet's
UNWANTED = ("pods ended as evicted",)
# from the verbosity of managed clusters to the run's
LEVELS = (2, 3, 4)


def is_ready(replay):
    """Whether there is a program that replays."""
    try:
        return subprocess.run([replay, "--version"], stdin=subprocess.DEVNULL, capture_output=True,
                              check=False).returncode == 0
    except OSError:
        return False


def keep_about(folder, name, costs):
    """What a kept run is, next to what it has."""
    write(f"{folder}/about.json", json.dumps({"run": name, "costs": costs}, indent=1) + "\n")


def facts_of(folder):
    """What the kubelet of a run did, which is kept as text too."""
    real = real_facts(*(read(f"{folder}/{each}") for each in ("shown.jsonl", "kubelet.log", "exits.log")))
    write(f"{folder}/shown", text_of(real))
    return real


def show_recording(real, folder, name, replay, show):
    """Replays a recording and shows its counts; its rows, and whether all that is needed was found."""
    trace = f"{folder}/{name}.trace"
    words = [] if name == "standard" else ["--extended"]
    with open(f"{folder}/{name}.report", "wb") as file:
        subprocess.run([replay, "run", trace, *words], stdout=file, check=True)
    report, recorded = read_run(trace, read(f"{folder}/{name}.report"))
    said = with_turns(said_facts(report, recorded), trace)
    rows = counts_of_facts(real, said, recorded.ticks[0].at, recorded.ticks[-1].at)
    codes, restarts = list(false_codes(real, said)), restarts_of(real, report, recorded)
    show_table(f"{os.path.basename(folder)}, {name}", rows, [
        f"exits with a false code: {len(codes)}", *codes, restarts.text(), *restarts.never], show)
    write_differences(f"{folder}/{name}", rows)
    works = (not codes and not restarts.never
             and all(row.near == row.real and not row.false for row in rows if row.name in WANTED)
             and all(not row.false for row in rows if row.name in UNWANTED))
    return rows, works or name == "standard"


def show_import(real, folder, level, replay, show):
    """Imports the log of a run, cut to a verbosity, and shows its counts; its rows, and whether it shows nothing that
    is false."""
    log, path = read(f"{folder}/kubelet.log"), f"{folder}/imported-{level}"
    year = time.gmtime(json.loads(read(f"{folder}/shown.jsonl").partition("\n")[0])["at"]).tm_year
    import_log(at_level(log, level), read(f"{folder}/pods.json"), year, path, replay)
    found = compared(real, path)
    show_table(f"{os.path.basename(folder)}, imported at -v={level}", found.rows, [
        f"{MARKED}: {len(found.unmarked)}", *(f"{fact.pod} {fact.container} {fact.what}" for fact in found.unmarked),
        *(f"the level of {place} is not known, and counts as 0" for place in unknown_places(log))], show)
    write_differences(path, found.rows)
    works = not found.unmarked and not any(row.false for row in found.rows if row.name == "evictions by the rules")
    return found.rows, works


def show_table(title, rows, more, show):
    show(f"\n{title}")
    for line in [*table_of(rows), *more]:
        show(f"  {line}")


def write_differences(path, rows):
    write(f"{path}.differences", "".join(f"{row.name}: {line}\n" for row in rows for line in row.differences))


class Outcome:
    """The rows of all runs that were shown, by what they were counted in, and whether all that is needed was found."""

    def __init__(self, replay, show):
        self.replay, self.show = replay, show
        self.rows, self.works, self.runs = {}, True, 0

    def add(self, folder):
        """Shows all of a kept run."""
        about = json.loads(read(f"{folder}/about.json"))
        scenario, real = RUNS[about["run"]], facts_of(folder)
        if scenario.is_deployed:
            self.works = show_chain(real, folder, self.replay, self.show) and self.works
        for recorder in scenario.recorders:
            self.take(recorder, show_recording(real, folder, recorder, self.replay, self.show))
        for level in LEVELS if scenario.recorders else ():
            self.take(f"-v={level}", show_import(real, folder, level, self.replay, self.show))
        for recorder, seconds in about["costs"].items():
            self.show(f"  {about['run']}: recording {recorder} took {seconds:.2f} s of a processor in a minute")
        self.runs += 1

    def take(self, source, found):
        rows, works = found
        self.rows.setdefault(source, []).append(rows)
        self.works = self.works and works

    def end(self):
        """Shows the sources next to each other; whether all that is needed was found."""
        if self.rows:
            self.show(f"\n{self.runs} run{'s' if self.runs > 1 else ''}: within 2 s, of how many; in the report alone")
            for line in side_by_side({source: added(row for rows in of_runs for row in rows)
                                      for source, of_runs in self.rows.items()}):
                self.show(f"  {line}")
        return self.works


def show_runs(folders, replay, show):
    """Shows kept runs; whether all was found that is needed of the extended format and of their logs."""
    outcome = Outcome(replay, show)
    for folder in folders:
        outcome.add(folder)
    return outcome.end()
