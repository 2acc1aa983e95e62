"""The tests of how a recording shows pods that failed without a reason, that were not admitted, and that wait or end
for a reason that a kubelet writes with its message; of samples of 0; and of readiness that the kubelet does not
count."""

import json

import cases
from checks import expect
from into_plays import Into
from test_kubelet_start import BEGIN, container, gone_of, ticks_of, words_of

from replay_tools.record.alone import RuntimeAlone
from replay_tools.record.decisions import end_of
from replay_tools.record.lines import pod_line
from replay_tools.record.pods import pod_of, pods_of
from replay_tools.record.reasons import reason_of
from replay_tools.record.standing import Standing
from replay_tools.record.summary import used_in

load_tests = cases.loaded(__name__)

URL = ("--kubelet", "http://127.0.0.1:10250")
AT = "2026-01-01T00:00:{:02}Z".format
HOOK = "PostStartHookError: command 'sh -c s3cret' exited with 7: s3cret"


def recorded(script, *words):
    into = Into(script)
    answer = into.record("--for", "40", "--extended", *words)
    into.clean()
    return answer


def told_of(trace, kind):
    """What ticks show that the kubelet did: the pod, when, and its reason, with what is guessed."""
    return [(each["pod"], each["at"] - BEGIN, each["reason"], each.get("guessed")) for tick in ticks_of(trace)
            for each in (tick.get("kubelet") or {}).get(kind, [])]


def play(**life):
    """A pod that runs from before the recording until 20."""
    return {"begin": BEGIN, "pods": {"shop/web": {"spec": {"containers": [{"name": "app"}]}, **life}},
            "containers": [container("shop/web", "a0", exited=20.2, code=137)], "samples": {"0": {"memory": 2 ** 32}}}


def event(at, reason, message):
    return {"at": at, "metadata": {"uid": "e1"}, "reason": reason, "message": message, "count": 1,
            "involvedObject": {"uid": "uid-web"}}


# --- a pod that has failed without a reason ---


def test_failed_without_reason():
    """A pod that is always restarted and has failed was ended by the node; one of another policy, or one that is being
    deleted, may have failed by itself."""
    failed = {"status": {"phase": "Failed"}}
    for spec, metadata, wanted in (({}, {}, "Other"), ({"restartPolicy": "Always"}, {}, "Other"),
                                   ({"restartPolicy": "Never"}, {}, None), ({"restartPolicy": "OnFailure"}, {}, None),
                                   ({}, {"deletionTimestamp": AT(9)}, None)):
        pod = pod_of({**failed, "metadata": {"name": "web", "uid": "u", **metadata},
                      "spec": {"containers": [{"name": "app"}], **spec}})
        expect(f"failed without a reason: {spec} {metadata}", pod.ended and (pod.ended.word, pod.ended.is_guessed),
               wanted and (wanted, True))
    for look in ("1", "5"):
        # shown as evicted for less than a poll, and then without a reason
        script = play(says=[{"from": 21, "status": {"phase": "Failed", "reason": None, "containerStatuses": []}}])
        status, trace, _ = recorded(script, *URL, "--look", look)
        expect(f"failed without a reason, --look {look}", (status, words_of(trace, "failed")),
               (0, [("shop/web", 20, "Other")]))
        expect(f"failed without a reason, --look {look}: it is told so", told_of(trace, "ended"),
               [("shop/web", 20, "Other", ["reason"])])


def test_reason_by_an_event():
    """Where Events are asked for the one that shows why comes before the end is written."""
    for reason, message, kind, at in (("Evicted", "The node was low on resource: memory. ", "evicted", 19),
                                      ("Preempting", "Preempted in order to admit critical pod", "ended", 20)):
        script = play(says=[{"from": 21, "status": {"phase": "Failed", "reason": None, "containerStatuses": []}}])
        script["events"] = [event(19, reason, message)]
        _, trace, _ = recorded(script, "--events", "kubectl")
        expect(f"the reason by an Event: {reason}", [each[::2] for each in words_of(trace, "failed")],
               [("shop/web", reason)])
        expect(f"the reason by an Event: {reason}, told", told_of(trace, kind), [("shop/web", at, reason, None)])


# --- a pod that was not admitted ---


def test_not_admitted():
    """A kubelet that does not admit a pod rejects it at the moment at which it took it."""
    lack = "Pod Node didn't have enough resource: cpu, requested: 100000, used: 3400, capacity: 4000"
    for reason, message, kind in (("OutOfcpu", lack, "refused"), ("OutOfpods", "", "refused"),
                                  ("NodeAffinity", "Predicate NodeAffinity failed", "refused"),
                                  ("UnexpectedAdmissionError", "", "refused"),
                                  ("Terminated", "Pod was rejected as the node is shutting down.", "refused"),
                                  ("Terminated", "Pod was terminated in response to imminent node shutdown.", "ended"),
                                  ("Evicted", "Pod The node had condition: [MemoryPressure]. ", "refused"),
                                  ("Evicted", "The node was low on resource: memory. ", "evicted"),
                                  ("DeadlineExceeded", "", "ended")):
        status = {"phase": "Failed", "reason": reason, "message": message, "startTime": AT(5)}
        end = end_of(status, True)
        expect(f"not admitted: {reason} {message[:30]}", (end.kind, end.moment),
               (kind, BEGIN + 5 if kind == "refused" else None))
        end = end_of({**status, "containerStatuses": [{"name": "app"}]}, True, BEGIN + 9)
        expect(f"not admitted again: {reason} {message[:30]}", (end.kind, end.moment),
               (kind, BEGIN + 9 if kind == "refused" else None))
    # it is listed before its status has that
    says = [{"from": 16, "status": {"phase": "Failed", "reason": "OutOfcpu", "message": lack, "startTime": AT(10)}}]
    script = {**play(), "containers": [container("shop/other", "b0")]}
    script["pods"]["shop/web"].update({"from": 9.5, "says": says})
    script["pods"]["shop/other"] = {"spec": {"containers": [{"name": "app"}]}}
    _, trace, _ = recorded(script, *URL)
    expect("not admitted: it is told at its moment", told_of(trace, "refused"), [("shop/web", 10, "OutOfcpu", None)])
    expect("not admitted: its end", (words_of(trace, "failed"), told_of(trace, "ended")),
           ([("shop/web", 10, "OutOfcpu")], []))


# --- why a container waits ---


def test_reason_with_its_message():
    """A kubelet 1.20 writes the reason of a hook that failed with its message after it."""
    for word, message, wanted in (
            (HOOK, "Exec lifecycle hook", ("PostStartHookError", "exited with 7", False)),
            ("PostStartHookError", "s3cret", ("PostStartHookError", None, True)),
            ("CreateContainerConfigError", 'secret "web" not found',
             ("CreateContainerConfigError", 'secret "web" not found', False)),
            ("its own: s3cret", "", ("Other", None, False)), ("password: s3cret", "s3cret", ("Other", None, True))):
        said = reason_of({"reason": word, "message": message})
        expect(f"a reason with its message: {word[:40]}", (said.word, said.message, said.is_left_out), wanted)


def test_wait_for_a_second():
    """What a status shows for a second after an exit is recorded, also where the recorder polls each 5 s."""
    for look in ("1", "5"):
        script = play(waits=[{"container": "app", "from": 20.5, "until": 21.4, "count": 0, "reason": HOOK},
                             {"container": "app", "from": 21.4, "count": 0, "reason": "CrashLoopBackOff"}])
        script["containers"][0]["exited"] = 19.9
        _, trace, _ = recorded(script, *URL, "--look", look)
        words = [each["reason"] for _, _, waiting in words_of(trace, "waiting") for each in waiting]
        expect(f"a wait for a second, --look {look}", list(dict.fromkeys(words)),
               ["PostStartHookError", "CrashLoopBackOff"])


def test_first_wait():
    """The wait for the first start is none after an exit: what comes after that exit is still looked for."""
    script = play(waits=[{"container": "app", "from": 0, "count": 0, "reason": "ContainerCreating"}],
                  says=[{"from": 28, "status": {"phase": "Failed", "reason": "DeadlineExceeded",
                                                "containerStatuses": []}}])
    _, trace, _ = recorded(script, *URL)
    expect("the first wait", words_of(trace, "failed"), [("shop/web", 20, "DeadlineExceeded")])


# --- samples ---


def test_samples_of_nothing():
    """A sample of 0 of what a container uses is none: its cgroup is gone, or not there yet."""
    def stats(**memory):
        return {"containers": [{"name": "app", "cpu": {}, "memory": {"time": AT(9), **memory}}]}

    for memory, wanted in (({"workingSetBytes": 4096, "usageBytes": 8192}, [4096]), ({"workingSetBytes": 0}, []),
                           ({"workingSetBytes": 0, "usageBytes": 0}, []), ({"usageBytes": 0}, []),
                           ({"usageBytes": 4096}, [None])):
        found = used_in(stats(**memory)).values()
        expect(f"samples of nothing: {memory}", [each.working_set for each in found], wanted)


# --- readiness that is not counted ---


def test_ready_by_status():
    """A container that the status shows as ready, of whose probe the kubelet counts nothing, is ready in the trace; and
    unready, once the status shows that."""
    def says(since, status, turned, is_ready):
        return {"from": since, "status": {"conditions": [{"type": "Ready", "status": status,
                                                          "lastTransitionTime": AT(turned)}],
                                          "containerStatuses": [{"name": "app", "restartCount": 0, "ready": is_ready,
                                                                 "started": True, "state": {"running": {}}}]}}

    script = play(says=[says(0, "False", 0, False), says(5, "True", 4, True), says(22, "False", 21, False)])
    script["pods"]["shop/web"]["spec"]["containers"][0]["readinessProbe"] = {"failureThreshold": 2}
    script["containers"][0].pop("exited")
    _, trace, _ = recorded(script, *URL)
    found = [(each["result"], at) for _, at, probes in words_of(trace, "probes") for each in probes]
    expect("ready by its status", [result for result, _ in found], ["success", "failure", "failure"])
    expect("ready by its status: near its moments", [abs(at - wanted) <= 8 for (_, at), wanted in
                                                     zip(found, (4, 21, 22))], [True] * 3)
    counted = {**script, "probes": [{"pod": "shop/web", "container": "app", "probe": "readiness", "result": "success",
                                     "at": [-1]}]}
    _, trace, _ = recorded(counted, *URL)
    expect("ready by its status: where it is counted", words_of(trace, "probes"), [])
    expect("ready by its status: nothing goes", gone_of(trace), [])


# --- the runtime alone ---


def test_runtime_alone():
    """Of the runtime alone no manifest is known, and each pod line has that."""
    listed = json.dumps({"containers": [{
        "id": "a0", "metadata": {"name": "app"}, "state": "CONTAINER_RUNNING", "createdAt": "1",
        "labels": {f"io.kubernetes.{name}": value for name, value in (
            ("pod.uid", "uid-web"), ("pod.namespace", "shop"), ("pod.name", "web"), ("container.name", "app"))}}]})
    [pod] = pods_of(RuntimeAlone().pods(listed), "crictl ps")
    expect("the runtime alone: its pod line", json.loads(pod_line(pod)), {
        "kind": "pod", "uid": "uid-web", "guessed": ["manifest"], "pod": pod.manifest})
    standing = Standing()
    for line in ('{"kind":"node","name":"n","version":3}', pod_line(pod), '{"kind":"tick","at":9,"pods":[]}'):
        standing.take(json.loads(line))
    expect("the runtime alone: over a border", [json.loads(line).get("guessed") for line in
                                                standing.beginning(10, {"at": 10}) if '"kind":"pod"' in line],
           [["manifest"]])
    _, trace, _ = recorded(play(), *URL)
    expect("a kubelet: its pod lines", [json.loads(line).get("guessed") for line in trace.splitlines()
                                        if '"kind":"pod"' in line], [None])


# --- an init container that is removed at once ---


def test_code_that_is_shown_briefly():
    """The code of an instance that the runtime removed at once is its status's, which has it for seconds: it is looked
    for each second, also where the recorder looks each 5 s."""
    def status(attempt, since):
        ended = {"containerID": f"containerd://a{attempt}", "exitCode": 6 + attempt, "reason": "Error",
                 "startedAt": AT(12), "finishedAt": AT(16)}
        return {"from": since, "status": {"initContainerStatuses": [{
            "name": "setup", "restartCount": attempt + 1, "state": {"waiting": {"reason": "PodInitializing"}},
            "lastState": {"terminated": ended}}]}}

    first = {"from": 0, "status": {"initContainerStatuses": [{"name": "setup", "restartCount": 0, "state": {}}]}}
    script = play(says=[first, status(0, 21), status(1, 24)])
    script["pods"]["shop/web"]["spec"] = {"initContainers": [{"name": "setup"}], "containers": [{"name": "app"}]}
    script["containers"] = [
        {**container("shop/web", "a0"), "name": "setup", "created": 12, "started": 12, "exited": 16.4, "code": 6,
         "removed": 16.8},
        {**container("shop/web", "a1", attempt=1), "name": "setup", "created": 17, "started": 17, "exited": 22.5,
         "code": 7, "removed": 39}]
    for look in ("1", "5"):
        _, trace, said = recorded(script, *URL, "--look", look)
        listed = [each for tick in ticks_of(trace) for entry in tick["pods"] for each in entry["containers"]]
        codes = {each["attempt"]: each["exitCode"] for listing in listed
                 for each in (listing, listing.get("ended", {})) if "exitCode" in each}
        expect(f"a code that is shown briefly, --look {look}", (codes, "137" in said), ({0: 6, 1: 7}, False))
