"""The tests of pods that the node has ended: what a status has, at which moment, of `ended_extended`, over a rotation,
and what waits for a list of pods."""

import json

import cases
from checks import HERE, expect, read
from into_plays import Into

from replay_tools.record.decisions import end_of
from replay_tools.record.standing import Standing

load_tests = cases.loaded(__name__)

RECORDED = f"{HERE}/recordings/ended_extended"
BEGIN = 1767225600
SHUTDOWN = "Pod was terminated in response to imminent node shutdown."
DEADLINE = "Pod was active on the node longer than the specified deadline"
# what a status has: the kind of what was done, the word for it, its reason and what is kept of its message
STATUSES = (
    ({"phase": "Failed", "reason": "DeadlineExceeded", "message": DEADLINE},
     ("ended", "DeadlineExceeded", "DeadlineExceeded", DEADLINE)),
    ({"phase": "Failed", "reason": "Terminated", "message": SHUTDOWN}, ("ended", "Terminated", "Terminated", SHUTDOWN)),
    ({"phase": "Failed", "reason": "UnexpectedAdmissionError", "message": "TOKEN=1"},
     ("refused", "UnexpectedAdmissionError", "UnexpectedAdmissionError", "")),
    ({"phase": "Failed", "reason": "OutOfephemeral-storage"},
     ("refused", "OutOfephemeral-storage", "OutOfephemeral-storage", "")),
    ({"phase": "Failed", "reason": "x" * 63}, ("ended", "x" * 63, "x" * 63, "")),
    ({"phase": "Failed", "reason": "x" * 64}, ("ended", "Other", "x" * 64, "")),
    ({"phase": "Failed", "reason": "its\x1bown"}, ("ended", "Other", "its\\x1bown", "")),
    ({"phase": "Failed", "reason": "1st"}, ("ended", "Other", "1st", "")),
    ({"phase": "Failed", "reason": "Evicted", "message": "The node had condition: [MemoryPressure]. "},
     ("refused", "Evicted", "Evicted", "The node had condition: [MemoryPressure].")),
    ({"phase": "Failed", "reason": "Evicted", "message": ""}, ("evicted", "Evicted", "Evicted", "")),
    ({"phase": "Failed"}, None), ({"phase": "Failed", "reason": " "}, None), ({"phase": "Failed", "reason": 5}, None),
    ({"phase": "Running", "reason": "NodeLost"}, None))


def test_statuses():
    for status, wanted in STATUSES:
        end = end_of(status)
        expect(f"ended: {json.dumps(status)[:90]}",
               end and (end.kind, end.word, end.reason, end.message), wanted)


def words_of(trace, word):
    """Since when each pod has a word in its entry, in seconds after the begin, and the word."""
    ticks = [json.loads(line) for line in trace.splitlines() if '"kind":"tick"' in line]
    entries = [(entry, tick["at"] - BEGIN) for tick in ticks for entry in tick["pods"]]
    return [(entry["pod"], at, entry[word]) for entry, at in entries if word in entry]


def test_moments_of_ends():
    """It is with the first exit that no start followed, though it was seen seconds later. Where a status had a
    container as waiting after its exit, or it runs, it is with the poll that saw it. Where no exit needs a start, it is
    with the last one."""
    expect("ended: when, by a play", words_of(read(f"{RECORDED}/trace"), "failed"), [
        ("shop/deadline", 5, "DeadlineExceeded"), ("shop/shut", 26, "Shutdown"), ("shop/once", 33, "DeadlineExceeded"),
        ("shop/loop", 34, "Other")])


def test_end_over_a_border():
    """A trace that follows has it once more, in each of its first ticks, and what the kubelet reported of it."""
    standing = Standing()
    for line in read(f"{RECORDED}/trace").splitlines():
        standing.take(json.loads(line))
    [tick] = [json.loads(line) for line in standing.beginning(BEGIN + 60, {"at": BEGIN + 60})
              if '"kind":"tick"' in line]
    expect("ended, over a border", {entry["pod"]: entry.get("failed") for entry in tick["pods"]},
           {"shop/calm": None, "shop/deadline": "DeadlineExceeded", "shop/loop": "Other",
            "shop/once": "DeadlineExceeded", "shop/shut": "Shutdown"})
    expect("ended, over a border: what was said", [(each["pod"], each["reason"]) for each in tick["kubelet"]["ended"]],
           [("shop/deadline", "DeadlineExceeded"), ("shop/loop", "Node, shut down"),
            ("shop/once", "DeadlineExceeded"), ("shop/shut", "Shutdown")])


def calm_play(**life):
    """A pod of one container that goes on, with more of what becomes of it."""
    return {"begin": BEGIN, "pods": {"shop/web": {**life, "spec": {"containers": [{"name": "app"}]}}},
            "containers": [{"id": "a0", "pod": "shop/web", "name": "app", "attempt": 0, "created": -3, "started": -2}],
            "samples": {"0": {"memory": 2 ** 32}}}


def test_ticks_wait_for_a_list():
    """A pod is deleted from the first tick at its moment on, though the list shows that only seconds later."""
    place = Into(calm_play(deleted=11, grace=30))
    status, trace, said = place.record("--extended", "--every", "2", "--for", "40")
    place.clean()
    expect("deleted: seen later", (status, said, words_of(trace, "deleting")), (0, "", [("shop/web", 12, True)]))
    place = Into({**calm_play(deleted=11, grace=30),
                  "fails": [{"kind": "pods", "from": 5, "until": 60, "text": "failed with status 1: no answer"}]})
    status, trace, said = place.record("--extended", "--every", "2", "--for", "80")
    place.clean()
    expect("deleted: the list is silent for too long", (status, words_of(trace, "deleting")),
           (0, [("shop/web", 30, True)]))
