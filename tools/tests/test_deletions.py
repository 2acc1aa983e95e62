"""The tests of pods that are being deleted: when a trace has that, over a rotation, and what the tools show of it."""

import json

import cases
from checks import HERE, TOOLS, expect, read, run
from into_plays import Clock, Into

from player import Play
from replay_tools import traces
from replay_tools.record.output import Output
from replay_tools.record.pods import deleted_at
from replay_tools.record.program import Recording
from replay_tools.record.sources import Sources
from replay_tools.record.standing import Standing
from replay_tools.record.words import words_of

load_tests = cases.loaded(__name__)

RECORDED = f"{HERE}/recordings/deleted_extended"
BEGIN = 1767225600
# what an object has of its deletion, and since when it is asked for, in seconds after the begin of that year
MOMENTS = (
    ({"deletionTimestamp": "2026-01-01T00:00:30Z", "deletionGracePeriodSeconds": 30}, 0),
    ({"deletionTimestamp": "2026-01-01T00:00:30Z", "deletionGracePeriodSeconds": 0}, 30),
    ({"deletionTimestamp": "2026-01-01T00:00:30Z"}, 30),
    ({"deletionTimestamp": "2026-01-01T00:00:30Z", "deletionGracePeriodSeconds": "30"}, 30),
    ({"deletionTimestamp": "2026-01-01T00:00:30Z", "deletionGracePeriodSeconds": -1}, 30),
    ({"deletionGracePeriodSeconds": 30}, None), ({}, None))


def test_moment_of_a_deletion():
    for metadata, behind in MOMENTS:
        expect(f"deleted since: {json.dumps(metadata)}", deleted_at(metadata),
               None if behind is None else BEGIN + behind)


def test_deletion_over_a_border():
    """A trace that follows has once more which pods are being deleted, in each of its first ticks, and no other
    pods."""
    standing = Standing()
    for line in read(f"{RECORDED}/trace").splitlines():
        standing.take(json.loads(line))
        if '"deleting":true' in line:
            break
    carried = [json.loads(line) for line in standing.beginning(BEGIN + 60, None)]
    said = [(entry["pod"], entry.get("deleting")) for line in carried if line["kind"] == "tick"
            for entry in line["pods"]]
    expect("deleted, over a border", said, [("shop/stays", None), ("shop/web", True)])


def test_deletion_is_told():
    trace = traces.trace_of(read(f"{RECORDED}/trace").encode(), "it")
    names = {trace.pods[number].key: at - BEGIN for number, at in trace.deleted.items()}
    expect("deleted: what a trace says", names, {"shop/web": 4})
    status, told, said = run([f"{TOOLS}/story", "shop/web", "--seconds", "--trace", f"{RECORDED}/trace"],
                             read(f"{RECORDED}/report"))
    [line] = [line for line in told.splitlines() if "being deleted" in line]
    expect("deleted: the story", (status, said, line.split()),
           (0, "", f"{BEGIN + 4} - - being deleted from here on: nothing of it is restarted".split()))
    came_again = " restart " in read(f"{RECORDED}/report"), "backoff" in told
    expect("deleted: no restart behind it", came_again, (False, False))


def test_version_2_says_none():
    text = read(f"{RECORDED}/trace").replace('"version":3', '"version":2')
    text = "".join(f"{line}\n" for line in text.splitlines() if '"kind":"gone"' not in line)
    expect("deleted: version 2", traces.trace_of(text.encode(), "it").deleted, {})


def goes(deleted, exited, **more):
    """A script of a pod that is asked to go at a moment, whose container exited at one."""
    spec = {"containers": [{"name": "app"}], "restartPolicy": "Always"}
    return {"begin": BEGIN, "pods": {"shop/web": {"spec": spec, "deleted": deleted, "grace": 30, "until": 60, **more}},
            "containers": [{"id": "a0", "pod": "shop/web", "name": "app", "attempt": 0, "created": -9, "started": -9,
                            "exited": exited, "code": 1, "told": exited}],
            "samples": {str(at): {"memory": 2 ** 32 - at, "pods": {"uid-web": 9}} for at in range(-1, 60, 5)}}


def test_when_it_goes():
    """A pod of which nothing ran when it was asked to go has gone then, though a list of pods shows that later; one
    that ran goes with its exit."""
    for name, play, wanted in (
        ("nothing ran", goes(21, 12.5), (21, 21)),
        ("it ran on", goes(21, 26.5), (26, 27)),
        ("it exited as it was told", goes(21, 21), (21, 21)),
        ("not yet told", {**goes(21, 12.5), "pods": {"shop/web": {
            **goes(21, 12.5)["pods"]["shop/web"], "deleted": 51}}}, (None, None)),
    ):
        place = Into(play)
        status, trace, said = place.record("--extended", "--for", "45")
        place.clean()
        lines, at, gone, deleting = map(json.loads, trace.splitlines()), None, None, None
        for line in lines:
            at = line.get("at", at)
            gone = at - BEGIN if line["kind"] == "gone" else gone
            if any(entry.get("deleting") for entry in line.get("pods", [])):
                deleting = at - BEGIN
        expect(f"it goes, {name}", (status, said, deleting, gone), (0, "", *wanted))


class Unwritten(Output):
    """Lines that go nowhere."""

    def write(self, lines):
        pass


def test_nothing_behind_it():
    """What was seen of a pod after the moment at which it had gone is not kept."""
    play = goes(21, 12.5, waits=[{"container": "app", "from": 22, "reason": "CrashLoopBackOff"}])
    play["samples"] = {str(at): {"memory": 2 ** 32 - at, "pods": {"uid-web": at + 9}, "containers": {
        "uid-web": {"app": [at + 9, 9, 9, at]}}} for at in range(-1, 60, 2)}
    place = Into(play)
    clock, given = Clock(BEGIN), Play(f"{place.run}/play.json")
    words = words_of(["--node", "n1", "--extended", "--for", "60"])
    recording = Recording(words, Sources("n1", run=lambda asked, _: given.answer(asked, clock.now())), clock,
                          Unwritten(words.ticks), lambda *_: None)
    recording.run()
    place.clean()
    asides = recording.recorder.timeline.asides
    expect("what is kept of a pod that has gone", (asides.waits, asides.used.newest, asides.beside), ({}, {}, {}))
