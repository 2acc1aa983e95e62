"""What tools/import makes of a kubelet's log, cut to a verbosity, next to what that kubelet did."""

import json
import re
import subprocess
from dataclasses import dataclass

from beside import Fact
from counted import END, counts_of_facts, read_run, said_facts
from kit import PARTS, read, write

IMPORT = f"{PARTS}/../../../tools/import"
HEADER = re.compile(r"[IWEF]\d{4} [\d:.]+ +\d+ (\S+?:\d+)\] ")
# what a kubelet writes at level 1 where it ends a failure, and else at 4
ENDS_A_FAILURE = {"kubelet.go:1256": "Container garbage collection failed",
                  "kubelet.go:1284": "Image garbage collection failed"}
ANY_CODE = "exits, whatever their codes"
CODES = "exits with their codes"
MARKED = "codes that are wrong and not marked"
# what no journal shows at its moment, or has at all
LEFT_OUT = ("pods that went",)
# the end of a log has no more of what happened then
TAIL_SECONDS = 2


@dataclass
class Imported:
    """The rows of a log, the exits with a wrong code that is not marked, and what the importer printed at its end."""
    rows: list
    unmarked: list
    said: str


def levels():
    """The level of each place that writes a message, as the sources of Debian's kubelet 1.20.2 have it."""
    rows = [line.split("\t") for line in read(f"{PARTS}/levels.tsv").splitlines()[1:]]
    return {place: int(level) for place, level in rows}


def at_level(log, level):
    """What a kubelet would have written at a verbosity, with the lines that continue a message."""
    known, kept, is_shown, failed = levels(), [], True, set()
    for line in log.splitlines(keepends=True):
        header = HEADER.match(line)
        if header:
            failed |= {place for place, words in ENDS_A_FAILURE.items() if line.startswith(words, header.end())}
            needed = known.get(header[1], 0)
            if header[1] in ENDS_A_FAILURE:
                needed = 1 if header[1] in failed else 4
                failed.discard(header[1])
            is_shown = needed <= level
        if is_shown:
            kept.append(line)
    return "".join(kept)


def unknown_places(log):
    """The places of a log whose level is not known, whose lines count as of level 0."""
    return sorted(set(HEADER.findall(log)) - levels().keys() - ENDS_A_FAILURE.keys())


def import_log(log, pods, year, path, replay):
    """Imports a log with the pods' manifests, as texts, and replays it: PATH.trace, PATH.report, PATH.said."""
    write(f"{path}.log", log)
    write(f"{path}.pods", pods)
    with open(f"{path}.trace", "wb") as trace, open(f"{path}.said", "wb") as said:
        subprocess.run([IMPORT, "--journal", f"{path}.log", "--pods", f"{path}.pods", "--year", str(year)],
                       stdout=trace, stderr=said, check=True)
    with open(f"{path}.report", "wb") as report:
        subprocess.run([replay, "run", f"{path}.trace", "--extended"], stdout=report, check=True)


def compared(real, path):
    """What the kubelet did next to what was made of its log."""
    report, trace = read_run(f"{path}.trace", read(f"{path}.report"))
    begun, ended = trace.ticks[0].at, trace.ticks[-1].at - TAIL_SECONDS
    said = [fact for fact in said_facts(report, trace) if fact.moment <= ended]
    rows = [row for row in counts_of_facts(real, said, begun, ended) if row.name not in LEFT_OUT]
    any_code = counts_of_facts(without_codes(real), without_codes(said), begun, ended, {ANY_CODE: "died"})
    place = [row.name for row in rows].index(CODES)
    return Imported(rows[:place] + any_code + rows[place:], unmarked(said, real, read(f"{path}.trace")),
                    read(f"{path}.said"))


def without_codes(facts):
    """Exits without their codes."""
    return [Fact(fact.pod, fact.container, " ".join(fact.what.split()[:2]), fact.moment)
            if fact.what.startswith(("died", END)) else fact for fact in facts]


def guessed_codes(trace):
    """The exits of which a trace shows that their code is guessed: (pod, container, attempt)."""
    found = set()
    for line in trace.splitlines():
        for entry in json.loads(line).get("pods") or []:
            for each in entry.get("containers") or []:
                for ended in (each, each.get("ended") or {}):
                    if "exitCode" in ended.get("guessed", ()):
                        found.add((entry["pod"], each["name"], ended["attempt"]))
    return found


def unmarked(said, real, trace):
    """The exits with another code than the kubelet's that are not marked as guessed."""
    marks = guessed_codes(trace)
    right = {(fact.pod, fact.container, fact.what.replace(END, "died")) for fact in real}
    return [fact for fact in said if fact.what.startswith("died")
            and (fact.pod, fact.container, int(fact.what.split()[1])) not in marks
            and (fact.pod, fact.container, fact.what) not in right]
