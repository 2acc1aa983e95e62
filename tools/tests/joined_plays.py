"""Scripted nodes that are recorded as several traces, and handwritten traces, for the tests of joined traces."""

import gzip
import json
import time

from chance import BEGIN
from checks import TOOLS, run
from into_plays import Into, series, unpacked


def restarting_play():
    """A pod whose container exits six times, at last after a kill, and one that is not ready for a while."""
    made, at = [], 5
    for attempt, (runs, waits) in enumerate([(8, 2), (8, 3), (12, 5), (14, 2), (10, 12), (60, 0)]):
        made.append({"id": f"w{attempt}", "pod": "shop/web", "name": "app", "attempt": attempt, "created": at,
                     "started": at + 0.2, "exited": at + runs, "code": 1})
        at += runs + waits
    made.append({"id": "q", "pod": "shop/quiet", "name": "app", "attempt": 0, "created": 2, "started": 3})
    specs = {"web": {"livenessProbe": {"periodSeconds": 5}},
             "quiet": {"readinessProbe": {"periodSeconds": 4, "successThreshold": 2}}}
    return {"begin": BEGIN, "containers": made, "samples": {"-1": {"memory": 4294967296}},
            "pods": {f"shop/{name}": {"from": 1, "spec": {"containers": [{"name": "app", **probe}]}}
                     for name, probe in specs.items()},
            "probes": [*series("shop/quiet", "app", "readiness", range(4, 90, 4), (24, 28, 32, 36)),
                       *series("shop/web", "app", "liveness", (), range(40, 56, 5))]}


class Folder:
    """A folder with the traces of the restarting node, one each 20 s."""

    def __init__(self):
        into = Into(restarting_play())
        into.into("--for", "90", "--each", "20s")
        self.path = f"{into.run}/traces"
        self.into = into

    def __enter__(self):
        return self

    def __exit__(self, *_):
        self.into.clean()

    def place(self, second, kind="gz"):
        return f"{self.path}/n1.2026-01-01T00-0{second // 60}-{second % 60:02}Z.trace.{kind}"

    def text(self, second):
        return unpacked(self.place(second))

    def write(self, name, text):
        with open(f"{self.path}/{name}", "w", encoding="utf-8") as file:
            file.write(text)
        return f"{self.path}/{name}"

    def tell(self, tool, *words, traces=None):
        return run([f"{TOOLS}/{tool}", "--traces", traces or self.path, *words])


def records(answer):
    return [json.loads(line) for line in answer[1].splitlines()]


def stamp(at):
    return time.strftime("%Y-%m-%dT%H-%M-%SZ", time.gmtime(at))


# starts and exits of one container, in seconds after 00:00:00Z
LIVES = [(0, 3700), (3705, 11000), (11010, 11420), (11430, None)]


def listing_at(second):
    """What an hourly trace lists of the container at a second."""
    attempt = max(place for place, (start, _) in enumerate(LIVES) if start <= second)
    end = LIVES[attempt][1]
    if end is None or second < end:
        return {"name": "app", "attempt": attempt, "state": "CONTAINER_RUNNING"}
    return {"name": "app", "attempt": attempt, "state": "CONTAINER_EXITED", "exitCode": 3}


def hourly(folder):
    """Writes four traces of an hour each into a folder."""
    moments = {0, *range(0, 14400, 600), *(at for life in LIVES for at in life if at is not None)}
    for hour in range(4):
        begin = hour * 3600
        node = {"kind": "node", "version": 3, "name": "n1"}
        if hour:
            before = f"n1.{stamp(BEGIN + begin - 3600)}.trace.gz"
            node["follows"] = {"trace": before, "until": BEGIN + begin, "at": BEGIN + begin}
        pod = {"metadata": {"name": "web", "namespace": "shop"}, "spec": {"containers": [{"name": "app"}]}}
        lines = [node, {"kind": "pod", "pod": pod}]
        lines += [{"kind": "tick", "at": BEGIN + at, "pods": [{"pod": "shop/web", "containers": [listing_at(at)]}]}
                  for at in sorted(moments) if begin <= at < begin + 3600]
        with gzip.open(f"{folder}/n1.{stamp(BEGIN + begin)}.trace.gz", "wt") as file:
            file.write("".join(f"{json.dumps(line, separators=(',', ':'))}\n" for line in lines))


def restarted_play(shift):
    """A script that the recorder meets a little later: a container that is ready, one that exits while nobody records,
    and one that begins to fail then."""
    probes = {"startupProbe": {"periodSeconds": 1}, "readinessProbe": {"periodSeconds": 3, "successThreshold": 3}}
    ready = {"told": 10 ** 6, "shown": {"restartCount": 0, "started": True, "ready": True}}
    made = [{"id": "a", "pod": "shop/a", "attempt": 0, "created": 2, "started": 3, **ready},
            {"id": "b0", "pod": "shop/b", "attempt": 0, "created": 2, "started": 3, "exited": 31, "code": 2},
            {"id": "b1", "pod": "shop/b", "attempt": 1, "created": 33, "started": 34, **ready},
            {"id": "c", "pod": "shop/c", "attempt": 0, "created": 2, "started": 3, **ready}]
    containers = [{name: value - shift if name in ("created", "started", "exited") else value
                   for name, value in {"name": "app", **each}.items()} for each in made]
    specs = {"a": probes, "b": {}, "c": {"readinessProbe": {"periodSeconds": 2}}}
    return {"begin": BEGIN + shift, "containers": containers, "samples": {"-1": {"memory": 4294967296}},
            "pods": {f"shop/{name}": {"from": 1 - shift, "spec": {"containers": [{"name": "app", **specs[name]}]}}
                     for name in specs},
            "probes": [*series("shop/a", "app", "startup", [5 - shift]),
                       *series("shop/a", "app", "readiness", [at - shift for at in range(6, 90, 3) if at > shift]),
                       *series("shop/c", "app", "readiness", [at - shift for at in range(4, 30, 2) if at > shift],
                               [at - shift for at in range(28, 90, 2) if at > shift])]}
