"""A story over the traces of a day and more takes little of a processor."""

import contextlib
import cProfile
import gzip
import io
import json
import os
import pstats
import tempfile

import cases
from chance import BEGIN
from checks import REPLAY, expect
from joined_plays import stamp

from replay_tools import tree

load_tests = cases.loaded(__name__)

TRACES, PODS, HOUR = 28, 100, 3600
EVERY = 60
# of one pod 6.2 million before that pod's entries were read alone
MOST_CALLS = 5_500_000
# one pod in so many crashes, and runs again after a quarter of an hour
CRASHES, PERIOD, RUNS_FOR = 20, 900, 300


def listing_at(number, second):
    if number % CRASHES:
        return {"name": "app", "attempt": 0, "state": "CONTAINER_RUNNING"}
    attempt, age = divmod(second, PERIOD)
    if age < RUNS_FOR:
        return {"name": "app", "attempt": attempt, "state": "CONTAINER_RUNNING"}
    return {"name": "app", "attempt": attempt, "state": "CONTAINER_EXITED", "exitCode": 1, "reason": "Error"}


def entry_at(number, second, is_first):
    """What a tick has of a pod; the first of a trace shows what was known before."""
    listing = listing_at(number, second)
    usage = {"memory": 50000000 + second % 1000 * number, "volumes": 1000, "logs": 4096, "writable": 8192, "inodes": 20,
             "pids": 5}
    entry = {"pod": f"shop/web-{number:03}", "containers": [listing], "usage": usage}
    if is_first:
        entry["readyTurns"] = [{"status": "True", "at": BEGIN + second}]
    if listing["state"] == "CONTAINER_EXITED":
        entry["waiting"] = [{"container": "app", "reason": "CrashLoopBackOff"}]
    return entry


def lines_of(hour):
    begin = hour * HOUR
    node = {"kind": "node", "version": 3, "name": "n1", "capacity": {"nodefs.available": "100Gi"},
            "evictionHard": {"memory.available": "100Mi"}, "recordsKubelet": True, "evictionsRecorded": True}
    if hour:
        before = f"n1.{stamp(BEGIN + begin - HOUR)}.trace.gz"
        node["follows"] = {"trace": before, "until": BEGIN + begin, "at": BEGIN + begin}
    yield node
    probe = {"periodSeconds": 10, "failureThreshold": 3}
    for number in range(PODS):
        container = {"name": "app", "resources": {"requests": {"memory": "64Mi"}, "limits": {"memory": "128Mi"}},
                     "livenessProbe": probe}
        yield {"kind": "pod", "uid": f"uid-{number}", "pod": {
            "metadata": {"name": f"web-{number:03}", "namespace": "shop"}, "spec": {"containers": [container]}}}
    for second in range(begin, begin + HOUR, EVERY):
        signals = {"memory.available": 4 << 30, "nodefs.available": 60 << 30}
        yield {"kind": "tick", "at": BEGIN + second, "signals": signals,
               "pods": [entry_at(number, second, second == begin) for number in range(PODS)]}


def write(folder):
    for hour in range(TRACES):
        with gzip.open(f"{folder}/n1.{stamp(BEGIN + hour * HOUR)}.trace.gz", "wt", compresslevel=1) as file:
            file.write("".join(f"{json.dumps(line, separators=(',', ':'))}\n" for line in lines_of(hour)))


def calls_of(words):
    """How many calls of functions a story takes, with what it printed."""
    profile, printed = cProfile.Profile(), io.StringIO()
    with contextlib.redirect_stdout(printed):
        profile.runcall(tree.run, "story", words)
    return pstats.Stats(profile).total_calls, printed.getvalue()


def test_work_of_a_story():
    """A story over 28 traces of 100 pods takes no more calls than a good machine makes in 2 s, of all pods and of one.
    Calls are counted, since seconds differ with what else a machine does."""
    with tempfile.TemporaryDirectory() as folder:
        write(folder)
        os.environ["KUBELET_REPLAY"] = REPLAY
        for name, words, line in (("all pods", [], "100 pods"), ("one pod", ["shop/web-020"], "died with code 1")):
            calls, told = calls_of(["--traces", folder, *words])
            expect(f"{name}: the story", line in told, True)
            expect(f"{name}: {calls} calls", calls < MOST_CALLS, True)
