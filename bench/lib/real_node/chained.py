"""What a kubelet did next to what several traces of its node show, one after the other: each alone, from the ticks
after its begin, and all of them as the tools join them."""

import glob
import gzip
import json
import os
import subprocess
from dataclasses import dataclass

from beside import NEAR, at
from counted import KINDS, false_codes, read_run, row_of, said_facts, table_of
from kit import read
from replay_tools.joined import asked, join

# each of these has to be in a trace within two seconds, once
WANTED = ("starts", "exits with their codes", "kills by a liveness probe", "ready", "unready")
LEFT_OUT = ("evictions by the rules", "evictions shown as a fact", "pods ended as evicted")


@dataclass
class Part:
    """One of the traces: up to `begun` its ticks show what was known before, and `ended` is its last one."""
    name: str
    follows: bool
    begun: int
    ended: int
    said: list


def part_of(path, folder, replay):
    """Replays one trace, unpacked into a folder; what is new in it."""
    with (gzip.open if path.endswith(".gz") else open)(path, "rb") as file:
        data = file.read()
    # of a trace that is still written the last line may be there in part
    data = data[:data.rindex(b"\n") + 1]
    trace = f"{folder}/{os.path.basename(path).rpartition('.')[0]}"
    with open(trace, "wb") as file:
        file.write(data)
    with open(f"{trace}.report", "wb") as report:
        subprocess.run([replay, "run", trace, "--extended"], stdout=report, check=True)
    report, recorded = read_run(trace, read(f"{trace}.report"))
    follows = json.loads(data[:data.index(b"\n")]).get("follows")
    begun = follows["at"] if follows else first_look(recorded)
    said = [fact for fact in said_facts(report, recorded) if fact.moment > begun]
    return Part(os.path.basename(trace), bool(follows), begun, recorded.ticks[-1].at, said)


def first_look(trace):
    """The moment of the first look of all: ticks before it show what came before, and have no signals."""
    return next((tick.at for tick in trace.ticks if tick.signals), trace.ticks[0].at)


def gaps_of(parts):
    """The seconds of which no trace shows anything: (from, to)."""
    return [(before.ended, after.begun) for before, after in zip(parts, parts[1:]) if not after.follows]


def lost_of(real, said, gaps):
    """What happened in a gap, and is in no trace."""
    return [fact for fact in real if any(begun <= fact.moment <= ended for begun, ended in gaps)
            and not is_among(fact, said)]


def is_among(fact, others):
    """Whether the same is among others, at about the same moment."""
    return any((each.pod, each.container, each.what) == (fact.pod, fact.container, fact.what)
               and abs(each.moment - fact.moment) <= NEAR for each in others)


def joined_said(folder, parts):
    """What all traces together show, as the tools join them. What is known at the end of a gap is no news."""
    whole = join.joined(asked.Asked([folder]))
    known = {ended for _, ended in gaps_of(parts)}
    return [fact for fact in said_facts(whole.report, whole.trace)
            if fact.moment > parts[0].begun and fact.moment not in known]


def counts_of(real, parts, said=None, until=float("inf")):
    """The rows of each trace alone or of all of them together, what is lost in gaps, and the exits with a false code;
    up to what the kubelet showed last, which shows a little later what the runtime knows at once."""
    said = [fact for part in parts for fact in part.said] if said is None else said
    until = min(until, parts[-1].ended)
    real = [fact for fact in real if parts[0].begun < fact.moment <= until]
    said = [fact for fact in said if fact.moment <= until - NEAR or is_among(fact, real)]
    lost = lost_of(real, said, gaps_of(parts))
    rows = [row_of(name, kind, [fact for fact in real if fact not in lost], said)
            for name, kind in KINDS.items() if name not in LEFT_OUT]
    return rows, lost, list(false_codes(real, said))


def show_chain(real, folder, replay, show):
    """Replays each trace of a folder and shows their counts; whether each thing that is needed was found once."""
    paths = sorted(glob.glob(f"{folder}/traces/*.trace.*"))
    os.makedirs(f"{folder}/parts", exist_ok=True)
    parts = [part_of(path, f"{folder}/parts", replay) for path in paths]
    show(f"\n{os.path.basename(folder)}, {len(parts)} traces")
    for part in parts:
        show(f"  {part.name}: {at(part.begun)} to {at(part.ended)}{'' if part.follows else ', follows none'}")
    for begun, ended in gaps_of(parts):
        show(f"  no trace from {at(begun)} to {at(ended)}")
    failed = [line for line in read(f"{folder}/statuses").splitlines() if not line.startswith("0 ")]
    untold = [f"no story says that nothing was recorded from {at(begun)} to {at(ended)}" for begun, ended in
              gaps_of(parts) if f"{at(begun)}Z to " not in read(f"{folder}/story.said")]
    for line in failed + untold:
        show(f"  {line}")
    until = json.loads(read(f"{folder}/shown.jsonl").splitlines()[-1])["at"]
    works = [show_counts(counts_of(real, parts, said, until), f"{folder}/{name}", show) for name, said in (
        ("alone", None), ("joined", joined_said(f"{folder}/traces", parts)))]
    return all(works) and not failed and not untold


def show_counts(counts, path, show):
    """Shows rows, what was lost in gaps and false codes; whether each thing that is needed was found once."""
    rows, lost, codes = counts
    show(f"\n  {os.path.basename(path)}")
    for line in [*table_of(rows), f"exits with a false code: {len(codes)}", *codes]:
        show(f"  {line}")
    for fact in sorted(lost, key=lambda fact: fact.moment):
        show(f"  in a gap: {at(fact.moment)} {fact.pod} {fact.container} {fact.what}")
    with open(f"{path}.differences", "w", encoding="utf-8") as file:
        file.writelines(f"{row.name}: {line}\n" for row in rows for line in row.differences)
    # a pod that exits and starts within a second, or is deleted, need not be shown unready by the kubelet
    return not codes and all(row.near == row.real and (not row.false or row.name == "unready")
                             for row in rows if row.name in WANTED)
