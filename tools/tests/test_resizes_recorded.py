"""The tests of resizes in place in a recording: when they are written, what is left out, and what a trace that follows
another has of them."""

import json

import cases
from checks import expect
from into_plays import Into, laid
from test_members import begun_after, play_of, recorded, said_of

from replay_tools.record import resizes
from replay_tools.record.standing import Standing

load_tests = cases.loaded(__name__)

BEGIN = 1767225600
SMALL = {"requests": {"memory": "32Mi"}, "limits": {"memory": "64Mi", "cpu": "500m"}}
# the same amounts
SPELLED = {"requests": {"memory": "33554432"}, "limits": {"memory": "64Mi", "cpu": "0.5"}}
GROWN = {"requests": {"memory": "32Mi"}, "limits": {"memory": "128Mi", "cpu": "500m"}}


def resized_in(lines, key="shop/web"):
    """The resizes of a pod, with the seconds of their ticks after the begin."""
    return [(tick["at"] - BEGIN, entry["resized"]) for tick in lines["tick"] for entry in tick["pods"]
            if entry["pod"] == key and "resized" in entry]


def resized_play(*resizes_of, app=None, **spec):
    """A script of a pod whose containers have other resources from some moments on."""
    containers = [{"name": "app", "resources": SMALL if app is None else app}, {"name": "other"}]
    return play_of(web={"spec": {"containers": containers, **spec},
                        "resized": [{"from": at, "resources": each} for at, each in resizes_of]})


# --- the recorder ---


def test_recorded_resizes():
    """A resize is in the tick of the poll whose list has it, once. Amounts that are spelled otherwise are the same."""
    play = resized_play((0, {"app": SPELLED}), (12, {"app": GROWN}), (22, {"app": GROWN | {"limits": SPELLED["limits"]},
                                                                           "other": {"limits": {"cpu": 1}}}),
                        (32, {"app": {}}))
    wanted = [(20, {"app": GROWN}), (30, {"app": {"requests": {"memory": "32Mi"}, "limits": SPELLED["limits"]},
                                          "other": {"limits": {"cpu": 1}}}), (40, {"app": {}})]
    lines, answer = recorded(play, "--extended", "--every", "5", "--for", "60")
    expect("recorded resizes", (answer, resized_in(lines)), ((0, ""), wanted))
    expect("recorded resizes: the pod's line", [line["pod"]["spec"]["containers"] for line in lines["pod"]],
           [[{"name": "app", "resources": SPELLED}, {"name": "other"}]])
    expect("recorded resizes: no member of the listing", said_of(lines, "resources"), [(0, None)])
    lines, _ = recorded(play, "--extended", "--every", "60", "--for", "60")
    expect("recorded resizes make ticks", resized_in(lines), wanted)
    lines, answer = recorded(play, "--standard", "--every", "5", "--for", "60")
    expect("resizes in the standard format", (answer, resized_in(lines), said_of(lines, "resources")),
           ((0, ""), [], [(0, None)]))


def test_resized_init_containers():
    """Init containers and sidecars are resized too."""
    inits = [{"name": "setup", "resources": SMALL}, {"name": "proxy", "restartPolicy": "Always"}]
    play = resized_play((8, {"setup": GROWN, "proxy": SMALL}), initContainers=inits)
    lines, _ = recorded(play, "--extended", "--for", "30")
    expect("resized init containers", resized_in(lines), [(10, {"setup": GROWN, "proxy": SMALL})])


def test_status_is_no_resize():
    """What a status shows of a container's resources is no resize: the rules rank by the spec."""
    says = [{"from": 8, "status": {"containerStatuses": [{"name": "app", "state": {"running": {}},
                                                          "resources": GROWN}]}}]
    play = resized_play()
    play["pods"]["shop/web"]["says"] = says
    lines, answer = recorded(play, "--extended", "--every", "5", "--for", "40")
    expect("a status is no resize", (answer, resized_in(lines), said_of(lines, "resources")),
           ((0, ""), [], [(0, None)]))


def test_resizes_that_are_left_out():
    """Amounts that are no quantities are left out and counted; a resize whose request is above its limit is left out
    and printed, and the one after it counts."""
    odd = {"requests": {"memory": "PLANTED", "cpu": "1", "example.com/gpu": "2"}, "limits": {"memory": -1}}
    above = {"requests": {"memory": "128Mi"}, "limits": {"memory": "64Mi"}}
    lines, answer = recorded(resized_play((8, {"app": odd}), (22, {"app": above}), (32, {"app": SMALL})), "--extended",
                             "--every", "5", "--for", "60")
    expect("resizes that are left out", resized_in(lines), [(10, {"app": {"requests": {"cpu": "1"}}}),
                                                            (40, {"app": SMALL})])
    expect("resizes that are left out: what is printed", answer, (0, (
        "record: shop/web app: its requests and limits after a resize are left out: a request is above its limit\n"
        "record: 2 texts of manifests are left out: Kubernetes' grammar doesn't allow them\n")))
    expect("resizes that are left out: what is planted", "PLANTED" in json.dumps(lines), False)
    for name, found, wanted in (
        ("a limit of 0", {"requests": {"cpu": "2"}, "limits": {"cpu": "0"}},
         ({"requests": {"cpu": "2"}, "limits": {"cpu": "0"}}, 0)),
        ("above another limit", {"requests": {"cpu": "2"}, "limits": {"memory": "1"}},
         ({"requests": {"cpu": "2"}, "limits": {"memory": "1"}}, 0)),
        ("nothing", {}, ({}, 0)), ("empty sides", {"requests": {}, "limits": {}}, ({}, 0)),
        ("no quantity", {"limits": {"cpu": "1 core", "memory": "1Gi"}}, ({"limits": {"memory": "1Gi"}}, 1)),
        ("above its limit", {"requests": {"cpu": "2"}, "limits": {"cpu": "1500m"}}, (None, 0)),
    ):
        expect(f"what is kept of a resize: {name}", resizes.kept_of(found), wanted)


def test_no_resize_of_an_odd_spec():
    """A spec that can't be read shows no resize."""
    for odd in ("much", ["1"], {"limits": ["1"]}, 5):
        lines, answer = recorded(resized_play((8, {"app": odd}), (22, {"app": GROWN})), "--extended", "--every", "5",
                                 "--for", "40")
        expect(f"an odd spec: {odd}", (answer, resized_in(lines)), ((0, ""), [(30, {"app": GROWN})]))


def test_no_resize_after_the_end():
    """A pod that the node has ended is resized no more."""
    play = resized_play((22, {"app": GROWN}))
    play["pods"]["shop/web"] |= {"failed": 12, "reason": "DeadlineExceeded"}
    lines, _ = recorded(play, "--extended", "--every", "5", "--for", "40")
    expect("no resize after the end", resized_in(lines), [])


# --- a trace that follows another ---


def test_resizes_over_a_rotation():
    """A trace that follows another has the pod's line as before, by which the pod has its class, and each resize by
    then, in each of its first ticks. A container that has the line's amounts again needs none."""
    play = resized_play((8, {"app": GROWN, "other": SMALL}), (22, {"other": {}}))
    lines, _ = recorded(play, "--extended", "--every", "5", "--for", "40")
    begun = begun_after(lines)
    expect("resizes over a rotation: the pod's line", [line["pod"] for line in begun if line["kind"] == "pod"],
           [line["pod"] for line in lines["pod"]])
    expect("resizes over a rotation", [line["pods"][0].get("resized") for line in begun if line["kind"] == "tick"],
           [{"app": GROWN}])
    probe = {"failureThreshold": 5}
    standing = Standing()
    manifest = {"metadata": {"name": "web", "namespace": "shop"},
                "spec": {"containers": [{"name": "app", "livenessProbe": probe}]}}
    runs = {"pod": "shop/web", "containers": [{"name": "app", "attempt": 0, "state": "CONTAINER_RUNNING"}]}
    failed = {"probes": [{"container": "app", "probe": "liveness", "result": "failure"}]}
    for line in ({"kind": "node", "name": "n1", "version": 3}, {"kind": "pod", "pod": manifest}, *(
            {"kind": "tick", "at": at, "pods": [{**runs, **failed, **more}]}
            for at, more in ((1, {}), (2, {"resized": {"app": SMALL, "strange": SMALL}}),
                             (3, {"resized": {"app": None}})))):
        standing.take(line)
    begun = [json.loads(line) for line in standing.beginning(9, None)]
    expect("resizes in each of several first ticks", [(line["at"], line["pods"][0]["resized"]) for line in begun
                                                      if line["kind"] == "tick"],
           [(at, {"app": SMALL}) for at in (7, 8, 9)])


def test_resizes_of_a_pod_that_comes_again():
    """Another pod of its name has the values of its own manifest."""
    play = resized_play((8, {"app": GROWN}))
    first = play["pods"]["shop/web"] | {"until": 20, "deleted": 14, "grace": 1}
    play["pods"]["shop/web"] = [first, {"from": 30, "uid": "uid-2", "spec": first["spec"]}]
    play["containers"][0] |= {"exited": 15, "code": 0, "removed": 17}
    play["containers"].append({"id": "b0", "pod": "shop/web", "uid": "uid-2", "name": "app", "attempt": 0,
                               "created": 31, "started": 32})
    lines, answer = recorded(play, "--extended", "--every", "5", "--for", "60")
    own = [line["pod"]["spec"]["containers"][0]["resources"] for line in lines["pod"]]
    expect("a pod that comes again", (answer, own, resized_in(lines)),
           ((0, ""), [SMALL, SMALL], [(10, {"app": GROWN})]))
    expect("a pod that comes again, over a rotation", ["resized" in entry for entry in begun_after(ordered(lines))[-1][
        "pods"]], [False])


def ordered(lines):
    """A recording whose first pod is gone, as its last pod has it."""
    return {**lines, "pod": lines["pod"][-1:], "tick": lines["tick"][-1:]}


def test_resizes_into_a_folder():
    """Traces one after the other have the lines of one recording, but for what each begins with."""
    play = resized_play((8, {"app": GROWN}), (32, {"other": SMALL}))
    into = Into(play)
    _, whole, _ = into.record("--extended", "--every", "5", "--for", "50")
    answer = into.into("--every", "5", "--for", "50", "--each", "10s")
    texts = into.texts()
    into.clean()
    expect("resizes into a folder", (answer[0], len(texts) > 3, laid(texts) == whole), (0, True, True))
    heads = [resized_in({"tick": [json.loads(line) for line in text.splitlines() if '"kind":"tick"' in line][:1]})
             for text in texts]
    expect("resizes at the begins of traces", [[each for _, each in head] for head in heads],
           [[], [{"app": GROWN}], [{"app": GROWN}], [{"app": GROWN}], [{"app": GROWN, "other": SMALL}]][:len(heads)])
