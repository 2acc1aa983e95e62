"""The tests of the rounds of a kubelet's eviction manager: which samples are rounds, and what a recording has of
them."""

import json
from dataclasses import replace

import cases
from checks import HERE, expect, read
from into_plays import Into

from replay_tools.record.node import node_line_of
from replay_tools.record import lines, node
from replay_tools.record.rounds import Rounds
from replay_tools.record.runtime import EXITED, RUNNING, Container, Instance
from replay_tools.record.samples import Sampling
from replay_tools.record.seen import Recorded
from replay_tools.record.standing import Standing
from replay_tools.record.summary import Sample, Summary

load_tests = cases.loaded(__name__)

BEGIN = 1767225600
MEMORY, DISK, IMAGES, PIDS = "memory.available", "nodefs.available", "imagefs.available", "pid.available"


def sampled(**moments):
    names = {"memory": MEMORY, "disk": DISK, "images": IMAGES, "pids": PIDS}
    return {names[name]: Sample(1, moment) for name, moment in moments.items()}


def rounds_of(*answers, evicted_at=None):
    """The rounds that answers show, one after the other, each with the signals that are below a threshold."""
    found = Rounds()
    return [list(found.of(samples, frozenset(below), evicted_at)) for below, samples in answers]


def test_rounds():
    """A new moment of the memory, but where a signal is below its threshold, and has a moment: then of that."""
    for name, answers, wanted in (
        ("of the memory", (((), sampled(memory=10, disk=10, images=4)), ((), sampled(memory=10, disk=10, images=14)),
                           ((), sampled(memory=20, disk=20, images=14))), [[10], [], [20]]),
        ("of what is below", (((IMAGES,), sampled(memory=10, images=4)), ((IMAGES,), sampled(memory=20, images=4)),
                              ((IMAGES,), sampled(memory=20, images=14))), [[4], [], [14]]),
        ("of two that are below", (((MEMORY, IMAGES), sampled(memory=10, images=4)),
                                   ((MEMORY, IMAGES), sampled(memory=20, images=14))), [[4, 10], [14, 20]]),
        ("of what has no moment", (((PIDS,), sampled(memory=10, pids=None)), ((PIDS,), sampled(memory=10, pids=None)),
                                   ((PIDS,), sampled(memory=20, pids=None))), [[10], [], [20]]),
        ("without any moment", (((), sampled(memory=None)), ((), {})), [[], []]),
    ):
        expect(f"rounds {name}", rounds_of(*answers), wanted)


def test_rounds_behind_an_eviction():
    """For as long as the kubelet waits for the pod a sample is a round if the next one follows soon."""
    answers = [((), sampled(memory=moment)) for moment in (100, 103, 110, 120, 131, 135)]
    expect("rounds behind an eviction", rounds_of(*answers, evicted_at=101), [[100], [], [103], [], [], [131, 135]])
    waits = Rounds()
    list(waits.of(sampled(memory=103), frozenset(), 101))
    expect("rounds: what waits for the next sample", [waits.open_since(moment) for moment in (104, 115, 116)],
           [103, 103, 116])


def test_rounds_that_evictions_show():
    """A sample that waits is a round where the kubelet has evicted a pod since, whatever follows."""
    for evicted, wanted in ((102, (None, 103)), (103, (103, 103)), (106, (103, 106))):
        waits = Rounds()
        list(waits.of(sampled(memory=103), frozenset(), 101))
        expect(f"rounds: an eviction at {evicted} after a sample at 103",
               (waits.confirm(evicted), waits.open_since(106)), (wanted[0], 103 if wanted[0] is None else 106))


def test_last_eviction_of_a_series():
    """The round of the last eviction is in a sync tick, though the next sample is long after it, and so is the round of
    a pod that takes long to end; the eviction has the moment of its sample, whichever poll shows it."""
    hard = {"evictionHard": {"memory.available": "100Mi"}}
    samples = {-1: 4096, 20: 90, 25: 80, 45: 4096}
    play = low_play(samples={str(at): {"memory": value * 2 ** 20, "pods": {}} for at, value in samples.items()},
                    configz=hard)
    for name, evicted, exited in (("hog", 20.4, 22), ("last", 25.6, 40)):
        play["pods"][f"shop/{name}"] = {"evicted": evicted, "spec": {"containers": [{"name": "app"}]}}
        play["containers"].append({"id": f"b{name}", "pod": f"shop/{name}", "name": "app", "attempt": 0, "created": -3,
                                   "started": -2, "exited": exited, "code": 137})
    for look in ("1", "5"):
        place = Into(play)
        status, trace, _ = place.record("--extended", "--for", "70", "--kubelet", "http://127.0.0.1:10250",
                                        "--look", look)
        place.clean()
        expect(f"the last eviction of a series, --look {look}", (status, judged_in(trace)[0]), (0, [0, 20, 25, 45]))
        told = [each["at"] - BEGIN for line in trace.splitlines() if '"evicted":[' in line
                for each in json.loads(line)["kubelet"]["evicted"]]
        expect(f"the last eviction of a series, --look {look}: when they are told", told, [20, 25])


def test_usage_of_what_was_killed():
    """A sample of no memory of a pod that has used some is not what it used, where it was killed as it was taken; where
    an instance has started since it is."""
    before, none = {"memory": Sample(5, 10)}, {"memory": Sample(0, 20)}
    running = Instance("a", "u", "app", 0, RUNNING, 1, started=5)
    for name, newest, kept in (("it runs", running, True), ("it has exited", replace(running, state=EXITED), True),
                               ("it has started since", replace(running, started=15), False)):
        container = Container("shop/web app", lambda *_: None)
        container.newest = newest
        recorded = Recorded(None, 0, 0, containers={"app": container}, usage=before)
        expect(f"no memory of what was killed: {name}", Sampling.known_usage(recorded, none),
               before if kept else none)
    expect("no memory from the first on", Sampling.known_usage(Recorded(None, 0, 0), none), none)


def judged_in(trace):
    ticks = [json.loads(line) for line in trace.splitlines() if '"kind":"tick"' in line]
    return [tick["at"] - BEGIN for tick in ticks if tick.get("judged") is not False], len(ticks)


def test_rounds_of_a_play():
    """Of a script in which the kubelet evicts two pods, each by a sample of its own: the first tick, and each
    sample."""
    trace = read(f"{HERE}/recordings/kubelet_evicts_extended/trace")
    expect("judged ticks of a play", judged_in(trace)[0], [0, 7, 10, 13, 15])
    expect("judged: none is said in the standard format",
           "judged" in read(f"{HERE}/recordings/kubelet_evicts/trace"), False)


def test_rounds_over_a_border():
    """The first ticks of a trace that follows are none of its rounds."""
    standing = Standing()
    for line in read(f"{HERE}/recordings/kubelet_evicts_extended/trace").splitlines()[:-1]:
        standing.take(json.loads(line))
    for follows, wanted in (({"at": BEGIN + 60}, [False]), (None, [standing.judged])):
        ticks = [json.loads(line) for line in standing.beginning(BEGIN + 60, follows) if '"kind":"tick"' in line]
        expect(f"judged, over a border: {follows}", [tick.get("judged") for tick in ticks], wanted)


def judged_behind_an_eviction(samples, **configz):
    """The sync ticks of a script whose kubelet evicts a pod at 21, by samples of the memory."""
    play = low_play(samples={str(at): {"memory": value * 2 ** 20, "pods": {}} for at, value in samples.items()},
                    configz=configz)
    play["pods"]["shop/hog"] = {"evicted": 21, "spec": {"containers": [{"name": "app"}]}}
    play["containers"].append({"id": "b0", "pod": "shop/hog", "name": "app", "attempt": 0, "created": -3,
                               "started": -2, "exited": 22, "code": 137})
    place = Into(play)
    status, trace, _ = place.record("--extended", "--for", "70")
    place.clean()
    return status, judged_in(trace)[0]


def test_samples_in_a_wait():
    """After an eviction a sample that is low enough for one is a round only if another follows soon; one that is not is
    a round in any case, a reclaim included while that goes on."""
    hard = {"evictionHard": {"memory.available": "100Mi"}}
    reclaim = {**hard, "evictionMinimumReclaim": {"memory.available": "60Mi"}}
    samples = {-1: 4096, 20: 90, 29: 150, 38: 90, 50: 4096}
    expect("rounds within the wait", judged_behind_an_eviction(samples, **hard), (0, [0, 20, 29, 50]))
    expect("rounds within the wait, reclaim", judged_behind_an_eviction(samples, **reclaim), (0, [0, 20, 50]))
    samples = {-1: 4096, 20: 90, 29: 170, 38: 150, 50: 4096}
    expect("rounds within the wait, reclaimed", judged_behind_an_eviction(samples, **reclaim),
           (0, [0, 20, 29, 38, 50]))


def test_grace_within_a_wait():
    """After an eviction no pod is evicted while a grace period runs, so that a low sample is a round then."""
    soft = {"evictionHard": {"memory.available": "10Mi"}, "evictionSoft": {"memory.available": "100Mi"},
            "evictionSoftGracePeriod": {"memory.available": "15s"}}
    expect("rounds within a grace period",
           judged_behind_an_eviction({-1: 4096, 5: 90, 20: 90, 25: 150, 35: 90, 45: 90, 55: 90}, **soft),
           (0, [0, 5, 20, 25, 35, 45, 55]))
    expect("rounds behind a grace period",
           judged_behind_an_eviction({-1: 4096, 5: 90, 20: 90, 24: 90, 34: 90, 45: 90, 55: 90}, **soft),
           (0, [0, 5, 20, 55]))


def low_play(**more):
    """A node whose memory is below a threshold from 20 s on, with a sample each second that has one."""
    samples = {str(at): {"memory": 2 ** 32 if at < 20 else 90 * 2 ** 20, "pods": {"uid-web": 2 ** 20}}
               for at in (-1, 9, 20, 23, 26, 29, 33)}
    return {"begin": BEGIN, "pods": {"shop/web": {"spec": {"containers": [{"name": "app"}]}}},
            "containers": [{"id": "a0", "pod": "shop/web", "name": "app", "attempt": 0, "created": -3, "started": -2}],
            "samples": samples, "configz": {"evictionHard": {"memory.available": "100Mi"}}, **more}


def test_summary_between_looks():
    """Near a threshold the summary is asked each second, though a poll comes each ten."""
    for look, wanted in (("10", [0, 9, 20, 23, 26, 29, 33]), ("1", [0, 9, 20, 23, 26, 29, 33])):
        place = Into(low_play())
        status, trace, said = place.record("--extended", "--look", look, "--for", "50")
        place.clean()
        expect(f"rounds where a look comes each {look} s", (status, said, judged_in(trace)[0]), (0, "", wanted))


def test_pause_and_rounds():
    """No pause is written where the ticks show which of them are rounds."""
    summary = Summary({}, False, sampled(memory=10), {})
    answer = json.dumps({"kubeletconfig": {}})
    without = Summary({}, False, sampled(memory=None), {})
    for of, wanted in ((summary, None), (without, 30)):
        made = node_line_of(answer, "n1", of, lines.extended()).fields
        expect("a pause, or rounds", made.get("evictionPauseSeconds"), wanted)


def test_evictions_recorded():
    """The node line of the extended format shows that the ticks end whom the kubelet evicted, but with --simulate; one
    that is given has its own members."""
    for words, wanted in (((), None), (("--extended",), True), (("--extended", "--simulate"), None),
                          (("--extended", "--eviction-pause", "5", "--simulate"), None)):
        place = Into(low_play())
        status, trace, said = place.record(*words, "--for", "2")
        place.clean()
        line = json.loads(trace.split("\n", 1)[0])
        expect(f"evictions are recorded: {' '.join(words)}", (status, line.get("evictionsRecorded")), (0, wanted))
    for given, wanted in (({"name": "n1"}, True), ({"name": "n1", "evictionsRecorded": False}, False)):
        made = node.own_node_line(given, lines.extended(), Summary({}, False, sampled(memory=10), {})).fields
        expect(f"evictions are recorded: {given}", made["evictionsRecorded"], wanted)
