"""The tests of a kubelet that restarts: which of its lists are no answer, what is shown of its start, which pods are
deleted that it lists no more, and how the condition Ready of a pod's status has turned."""

import gzip
import json
import os

import cases
from checks import HERE, expect, run
from into_plays import Into

import beside

from replay_tools.record.kubelet_start import started_in
from replay_tools.record.statuses import ReadyTurn, turns_between

load_tests = cases.loaded(__name__)

BEGIN = 1767225600
KEYS = ("shop/busy", "shop/done", "shop/loop", "shop/file")
FILE = {"kubernetes.io/config.source": "file"}
POLLS = (1, 5)
# 95 s of a real kubelet that was started twice
REAL = f"{HERE}/recordings/real_restart"
REAL_STARTS = [1796076734, 1796076784]
NEAR = 2


def ticks_of(trace):
    return [json.loads(line) for line in trace.splitlines() if '"kind":"tick"' in line]


def words_of(trace, word):
    """The moments at which each pod's entry has a member, and what it is."""
    return [(entry["pod"], tick["at"] - BEGIN, entry[word]) for tick in ticks_of(trace) for entry in tick["pods"]
            if word in entry]


def gone_of(trace):
    return [json.loads(line)["pod"] for line in trace.splitlines() if '"kind":"gone"' in line]


def started_of(trace):
    """Each start of the kubelet, and the tick that has it."""
    return [(tick["kubeletStartedAt"] - BEGIN, tick["at"] - BEGIN) for tick in ticks_of(trace)
            if "kubeletStartedAt" in tick]


def container(pod, identity, **more):
    return {"id": identity, "pod": pod, "name": "app", "attempt": 0, "created": -30, "started": -30, **more}


def play(**more):
    """Four pods: one runs, one has ended, one waits for its next start, and one is of a file; the kubelet restarts at
    20.5, answers from 24 on, and lists its pods from 25 on, the pod of a file before all others."""
    spec = {"containers": [{"name": "app", "readinessProbe": {"periodSeconds": 5}}]}
    silent = [{"kind": kind, "from": 20, "until": 24, "text": "gave no answer: Connection refused"}
              for kind in ("pods", "probes", "summary", "metrics")]
    return {"begin": BEGIN, "started": [-3600, 20.5], "fails": silent,
            "lists": [{"from": 24, "until": 25, "pods": []}, {"from": 25, "until": 26.5, "pods": ["shop/file"]}],
            "pods": {key: {"spec": {**spec, **({"restartPolicy": "Never"} if key == "shop/done" else {})},
                           **({"annotations": FILE} if key == "shop/file" else {})} for key in KEYS},
            "containers": [container("shop/busy", "a0"), container("shop/file", "d0"),
                           container("shop/done", "b0", exited=-20, code=0),
                           container("shop/loop", "c0", exited=15, code=1),
                           container("shop/loop", "c1", attempt=1, created=45, started=45)],
            "probes": [{"pod": "shop/busy", "container": "app", "probe": "readiness", "result": "success",
                        "at": [at for at in range(-30, 80, 5) if not 20 < at < 27]}],
            "samples": {"0": {"memory": 2 ** 32}}, **more}


BY_ADDRESS = "--kubelet", "http://127.0.0.1:10250"
BY_KUBECTL = ()


def recorded(script, look, *words, asks=BY_ADDRESS, lasts=60):
    """The status of a recording of a script, its trace and its messages."""
    into = Into(script)
    answer = into.record("--for", str(lasts), "--extended", *asks, "--look", str(look), *words)
    into.clean()
    return answer


def test_start():
    """No pod is deleted or gone that a kubelet does not list yet, the start is shown, and what happens after it too,
    whichever poll falls into the seconds in which its lists lack pods."""
    for look in POLLS:
        for shift in (0, 0.4, 0.9, 1.5, 2.5):
            script = play(clock=[shift])
            status, trace, said = recorded(script, look)
            place = f"a kubelet starts, --look {look}, from {shift} on"
            expect(place, (status, words_of(trace, "deleting"), gone_of(trace)), (0, [], []))
            expect(f"{place}: it is told", started_of(trace), [(20, 20)])
            expect(f"{place}: it is said", said.count("the kubelet restarted"), 1)
            expect(f"{place}: the next start of a pod", (trace.count('"attempt":1,"state":"CONTAINER_RUNNING"') > 0,
                                                        "Traceback" in said), (True, False))


def test_start_without_its_moment():
    """A kubelet that does not report when it was started: no pod is deleted for its lists, and the start is shown where
    counts of probes fell."""
    fails = [*play()["fails"], {"kind": "metrics", "from": 0, "until": 99, "text": "failed: 403"}]
    for look in POLLS:
        status, trace, said = recorded(play(fails=fails), look)
        expect(f"a start without its moment, --look {look}", (status, words_of(trace, "deleting"), gone_of(trace)),
               (0, [], []))
        expect(f"a start without its moment, --look {look}: it is said once", said.count("failed: 403"), 1)


def silent(**until):
    """Answers that do not come from 20 on, each up to a moment."""
    return [{"kind": kind, "from": 20, "until": end, "text": "gave no answer"} for kind, end in until.items()]


# a restart that is over before the next look, and one after which only the pods of a file are listed for long
QUICK = [{"from": 20.6, "until": 21.5, "pods": []}, {"from": 21.5, "until": 23.2, "pods": ["shop/file"]}]
LONG = [{"from": 20.6, "until": 22.9, "pods": []}, {"from": 22.9, "until": 30.2, "pods": ["shop/file"]}]
# which answers are silent for how long: all but the list of pods, the one that has the start, or the list itself
SILENT = (silent(), silent(metrics=23), silent(metrics=32), silent(metrics=99), silent(summary=32), silent(pods=21),
          silent(metrics=32, summary=32), silent(probes=32, metrics=32, summary=32),
          [{"kind": "metrics", "from": 21.7, "until": 26, "text": "gave no answer"}])


def test_lists_beside_silent_answers():
    """A list decides nothing about a pod while the kubelet does not report that it is the same process: none is deleted
    or gone, whichever of its answers are silent, for however long, and whoever gives its list."""
    by_address, by_kubectl = ((1, 0.9, LONG), (1, 1.5, QUICK), (5, 2.5, LONG)), ((1, 0, QUICK),)
    for asks, looks in ((BY_ADDRESS, by_address), (BY_KUBECTL, by_kubectl)):
        for number, fails in enumerate(SILENT):
            for look, shift, lists in looks:
                script = play(clock=[shift], started=[-3600, 20.6], fails=fails, lists=lists)
                status, trace, said = recorded(script, look, asks=asks)
                place = f"silent answers {number}, --look {look}, from {shift} on, by {asks or 'kubectl'}"
                expect(place, (status, words_of(trace, "deleting"), gone_of(trace)), (0, [], []))
                # that it restarted is known as soon as it reports when it was started
                wanted = [] if silent(metrics=99) == fails else [20]
                expect(f"{place}: it is told", [at for at, _ in started_of(trace)], wanted)
                expect(f"{place}: it is said", said.count("the kubelet restarted"), len(wanted))


def test_api_server_is_away():
    """A kubelet that was started while the API server is away lists the pods of files alone. Pods of which the runtime
    has containers are there all the same, however long that lasts."""
    for look in POLLS:
        script = play(lists=[{"from": 24, "until": 25, "pods": []}, {"from": 25, "until": 110, "pods": ["shop/file"]}])
        status, trace, _ = recorded(script, look, lasts=130)
        expect(f"the API server is away, --look {look}", (status, words_of(trace, "deleting"), gone_of(trace)),
               (0, [], []))


def test_ended_before_a_start():
    """A pod that the node has ended is there yet when the kubelet restarts."""
    for look in POLLS:
        script = play()
        script["pods"]["shop/done"].update(failed=-10, reason="DeadlineExceeded")
        _, trace, _ = recorded(script, look)
        expect(f"a pod that was ended, --look {look}", (words_of(trace, "deleting"), gone_of(trace)), ([], []))


def test_deleted_beside_a_start():
    """A pod that is deleted while the kubelet restarts goes once its lists are whole, and one that is deleted later is
    shown at once, also by a kubelet that won't report when it was started."""
    for asks in (BY_ADDRESS, BY_KUBECTL):
        for look in POLLS:
            script = play()
            script["pods"]["shop/done"]["until"] = 21
            _, trace, _ = recorded(script, look, asks=asks)
            deleted = words_of(trace, "deleting")
            expect(f"deleted beside a start, --look {look}", ([each[0] for each in deleted], gone_of(trace)),
                   (["shop/done"], ["shop/done"]))
            expect(f"deleted beside a start, --look {look}: when", [26 <= at <= 40 for _, at, _ in deleted], [True])
        for fails in ([], [{"kind": "metrics", "from": -9, "until": 99, "text": "failed: 403"}]):
            script = play(started=[-3600], fails=fails, lists=[])
            script["pods"]["shop/done"]["until"] = 21
            _, trace, _ = recorded(script, 1, asks=asks)
            expect("deleted without a start", [(pod, 21 <= at <= 31) for pod, at, _ in words_of(trace, "deleting")],
                   [("shop/done", True)])


def test_removed_file():
    """A pod whose file is removed is deleted before its container is stopped for that, though the list that lacks it
    comes later: so its exit is none of its own. With --look 5 what was written by the second list stays."""
    for look in POLLS:
        script = play(started=[-3600], fails=[], lists=[{"from": 20.3, "until": 99, "pods": list(KEYS[:-1])}])
        script["containers"][1].update(exited=20.6, code=5)
        script["pods"]["shop/file"]["says"] = [{"from": -30, "status": {"conditions": [{
            "type": "Ready", "status": "True", "lastTransitionTime": "2025-12-31T23:59:30Z"}]}}]
        _, trace, _ = recorded(script, look)
        deleted = [(pod, at) for pod, at, _ in words_of(trace, "deleting")][:1]
        expect(f"a file that is removed, --look {look}", deleted, [("shop/file", 20 if look == 1 else 26)])
        expect(f"a file that is removed, --look {look}: it goes", gone_of(trace), ["shop/file"])


def test_lists_without_a_start():
    """A kubelet that was up all the time: a pod that two lists lack is deleted once its containers stop, from the first
    of these lists on; one that shows again is not."""
    for look in POLLS:
        script = play(started=[-3600], fails=[], lists=[{"from": 20, "until": 99, "pods": ["shop/loop", "shop/file"]}])
        script["containers"][0].update(exited=33, code=0)
        _, trace, _ = recorded(script, look)
        deleted = dict((pod, at) for pod, at, _ in words_of(trace, "deleting"))
        expect(f"a pod that is listed no more, --look {look}", sorted(deleted), ["shop/busy", "shop/done"])
        expect(f"a pod that is listed no more, --look {look}: it goes", sorted(gone_of(trace)),
               ["shop/busy", "shop/done"])
        script = play(started=[-3600], fails=[], lists=[{"from": 20, "until": 20.9, "pods": ["shop/file"]}])
        _, trace, _ = recorded(script, look)
        expect(f"a pod that one list lacks, --look {look}", (words_of(trace, "deleting"), gone_of(trace)), ([], []))
        script = play(started=[-3600], fails=[], lists=[{"from": 20, "until": 40, "pods": ["shop/file", "shop/done"]}])
        del script["pods"]["shop/loop"]
        _, trace, _ = recorded(script, look)
        expect(f"a pod that runs on, --look {look}", (words_of(trace, "deleting"), gone_of(trace)), ([], []))


def test_taken_back():
    """A pod that was taken for deleted shows again under its uid: it is there, in a line of its own, and nothing shows
    it as being deleted."""
    script = play(started=[-3600], fails=[], lists=[{"from": 5, "until": 40, "pods": ["shop/busy", "shop/file"]}])
    _, trace, _ = recorded(script, 1)
    lines = [json.loads(line) for line in trace.splitlines()]
    keys = [each["pod"]["metadata"]["name"] for each in lines if each["kind"] == "pod"]
    expect("taken back: it comes again", (keys.count("loop"), keys.count("done"), keys.count("busy")), (2, 2, 1))
    uids = {each["uid"] for each in lines if each["kind"] == "pod" and each["pod"]["metadata"]["name"] == "loop"}
    expect("taken back: under its uid", uids, {"uid-loop"})
    expect("taken back: its next start", trace.count('"attempt":1,"state":"CONTAINER_RUNNING"') > 0, True)


def test_ready_turns():
    """The turns of a pod's condition Ready have the moments of its status; one that no list showed is there where the
    next list has a later moment, and marked."""
    at = "2026-01-01T00:00:{:02}Z".format
    ready = [(0, "True", 0), (26.6, "False", 25), (28.2, "True", 28), (50, "True", 49)]
    says = [{"from": since, "status": {"conditions": [{"type": "Ready", "status": status,
                                                       "lastTransitionTime": at(turned)}]}}
            for since, status, turned in ready]
    for look in POLLS:
        script = play()
        script["pods"]["shop/busy"]["says"] = says
        _, trace, _ = recorded(script, look)
        turns = [(each["status"], each["at"] - BEGIN, each.get("guessed")) for _, _, of_pod in
                 words_of(trace, "readyTurns") for each in of_pod]
        guessed = [each for each in turns if each[2]]
        expect(f"turns of Ready, --look {look}", [each for each in turns if not each[2]],
               [("True", 0, None), ("False", 25, None), ("True", 28, None), ("True", 49, None)])
        expect(f"turns of Ready, --look {look}: one that was not seen", [(each[0], each[2]) for each in guessed],
               [("False", ["moment"])])


def test_turns_between():
    before, now = ReadyTurn("True", 10), ReadyTurn("True", 30)
    expect("turns: none before", turns_between(None, now, 0), [now])
    expect("turns: another value", turns_between(ReadyTurn("False", 10), now, 20), [now])
    expect("turns: the same value later", turns_between(before, now, 20), [ReadyTurn("False", 20, True), now])
    expect("turns: seen late", turns_between(before, now, 40), [ReadyTurn("False", 30, True), now])


def test_moments_of_starts():
    """What a kubelet's metrics have, and what is no moment."""
    for text, wanted in (("process_start_time_seconds 1.79607673395e+09\n", 1796076733),
                         ("a 1\nprocess_start_time_seconds 1796076733\n", 1796076733), ("", None),
                         ("process_start_time_seconds NaN\n", None), ("process_start_time_seconds -1\n", None),
                         ("process_start_time_seconds 9e+99\n", None),
                         ("xprocess_start_time_seconds 5\n", None)):
        expect(f"when a kubelet was started: {text!r}", started_in(text), wanted)


# --- a real kubelet ---


def played_real(look, phase):
    """The recording of a real kubelet's answers, looked at each so many seconds from a moment on."""
    words = ["--node", "node-b", "--kubelet", "https://10.99.0.1:10250", "--extended", "--for", "90"]
    return run([f"{HERE}/commands/played_record", *words, "--look", str(look)], RECORDING=REAL, PHASE=str(phase),
               RUN="/nonexistent", PATH=f"{HERE}/commands:{os.environ['PATH']}")


def facts_of(trace):
    """Starts and exits by the listings, and the turns of Ready: {(pod, what): [moments]}."""
    found, listed = {}, {}
    for tick in ticks_of(trace):
        for entry in tick["pods"]:
            for each in entry["containers"]:
                ended, place = each.get("ended"), (entry["pod"], each["name"])
                if ended and listed.get(place) != (ended["attempt"], "CONTAINER_EXITED"):
                    what = f"died {ended['attempt']} {ended['exitCode']}"
                    found.setdefault((entry["pod"], what), []).append(tick["at"])
                now = each["attempt"], each["state"]
                if place in listed and listed[place] != now:
                    what = f"started {now[0]}" if now[1] == "CONTAINER_RUNNING" else f"died {now[0]} {each['exitCode']}"
                    found.setdefault((entry["pod"], what), []).append(tick["at"])
                listed[place] = now
            for turn in entry.get("readyTurns", []):
                what = "ready" if turn["status"] == "True" else "unready"
                found.setdefault((entry["pod"], what), []).append(turn["at"])
    return found


def test_real_start():
    """Of a real kubelet that was started twice no pod is deleted or gone, each start of it is there, and each start,
    exit, and change of Ready that it showed is in the trace within 2 s, at both polls."""
    with gzip.open(f"{REAL}/shown.gz", "rt", encoding="utf-8") as file:
        shown = [fact for fact in beside.facts_from(file.read()) if fact.what.split()[0] != "kill"]
    for look, phase in ((1, 0), (1, 0.5), (5, 0), (5, 2), (5, 4.5)):
        status, trace, _ = played_real(look, phase)
        place = f"a real kubelet starts, --look {look} from {phase} on"
        expect(place, (status, words_of(trace, "deleting"), gone_of(trace)), (0, [], []))
        expect(f"{place}: its starts", [at + BEGIN for at, _ in started_of(trace)], REAL_STARTS)
        found, ticks = facts_of(trace), ticks_of(trace)
        wanted = [fact for fact in shown if ticks[0]["at"] + NEAR < fact.moment < ticks[-1]["at"] - 10]
        expect(f"{place}: what it showed", [fact for fact in wanted if not any(
            abs(at - fact.moment) <= NEAR for at in found.get((fact.pod, fact.what), []))], [])
        unready = [fact for fact in wanted if fact.what == "unready"]
        expect(f"{place}: what happened", (len(wanted) > 50, len(unready) > 25), (True, True))
