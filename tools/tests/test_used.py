"""The tests of what containers use, next to what a recording lists of them: when it is recorded, of which instance, and
how much a recording grows by it."""

import json

import cases
from checks import expect
from into_plays import Into

from replay_tools import fields, traces, why
from replay_tools.record import summary
from replay_tools.record.sources import Failed
from replay_tools.record.standing import Standing

load_tests = cases.loaded(__name__)

BEGIN = 1767225600


def recorded(play, *words):
    """A recording of a script, and its answer."""
    place = Into(play)
    status, trace, said = place.record(*words)
    place.clean()
    return trace, (status, said)


def ticks_of(play, *words):
    """The ticks of a recording of a script, and its answer."""
    trace, answer = recorded(play, *words)
    lines = [json.loads(line) for line in trace.splitlines()]
    return [line for line in lines if line["kind"] == "tick"], answer


def used_in(ticks, name="app"):
    """What the ticks show that a container used, in seconds after the begin, with what its exit of before did."""
    found = []
    for tick in ticks:
        for each in (each for entry in tick["pods"] for each in entry["containers"] if each["name"] == name):
            found += [(tick["at"] - BEGIN, each["attempt"], each["used"])] if "used" in each else []
            if "used" in each.get("ended", {}):
                found.append((tick["at"] - BEGIN, each["ended"]["attempt"], each["ended"]["used"]))
    return found


def play_of(containers, samples):
    """A pod of a container that starts and exits so, and {moment: [working set, usage, nanocores, moment]} of it."""
    made = [{"pod": "shop/web", "name": "app", **each} for each in containers]
    return {"begin": BEGIN, "pods": {"shop/web": {"spec": {"containers": [{"name": "app"}]}}}, "containers": made,
            "samples": {str(at): {"memory": 2 ** 32, "pods": {"uid-web": 2 ** 20},
                                  "containers": {"uid-web": {"app": each}}} for at, each in samples.items()}}


LEAK = play_of(
    [{"id": "a0", "attempt": 0, "created": -3, "started": -2, "exited": 23.4, "code": 137, "reason": "OOMKilled"},
     {"id": "a1", "attempt": 1, "created": 24, "started": 24.4, "exited": 31.2, "code": 137},
     {"id": "a2", "attempt": 2, "created": 31.3, "started": 31.7}],
    {-1: [10, 12, 1500000, -1], 8: [20, 22, 400000, 8], 19: [60, 64, 999999999, 19],
     28: [11, 13, 0, 28], 38: [12, 14, 0, 38]})


def test_used():
    """Each ten seconds, and once more as an instance exits, of it alone: a sample from before its start is not its own.
    Where the tick of a start has an exit too, it is with that."""
    ticks, answer = ticks_of(LEAK, "--extended", "--for", "60")
    expect("used: all is recorded", answer, (0, ""))
    expect("used: when", used_in(ticks), [
        (0, 0, {"workingSet": 10, "usage": 12, "cpu": 2, "age": 1}),
        (8, 0, {"workingSet": 20, "usage": 22, "cpu": 0}),
        (19, 0, {"workingSet": 60, "usage": 64, "cpu": 1000}),
        (23, 0, {"workingSet": 60, "usage": 64, "cpu": 1000, "age": 4}),
        (28, 1, {"workingSet": 11, "usage": 13, "cpu": 0}),
        (31, 1, {"workingSet": 11, "usage": 13, "cpu": 0, "age": 3}),
        (38, 2, {"workingSet": 12, "usage": 14, "cpu": 0})])
    standard, _ = ticks_of(LEAK, "--standard", "--for", "60")
    expect("used: in the standard format none", used_in(standard), [])


def test_used_over_a_border():
    """What a trace begins with has none of it: it is no news there."""
    ticks, _ = ticks_of(LEAK, "--extended", "--for", "27")
    standing = Standing()
    for line in [{"kind": "node", "version": 3, "name": "n1"}, {"kind": "pod", "pod": {
            "metadata": {"name": "web", "namespace": "shop"}, "spec": {"containers": [{"name": "app"}]}}}, *ticks]:
        standing.take(line)
    begun = [json.loads(line) for line in standing.beginning(BEGIN + 60, None)]
    expect("used, over a border", used_in(line for line in begun if line["kind"] == "tick"), [])


def test_use_is_read():
    """The tools read each sample of a recording once, at its own moment."""
    trace = traces.trace_of(recorded(LEAK, "--extended", "--for", "60")[0].encode(), "it")
    ticks = why.Ticks()
    ticks.take_all(trace)
    [used] = ticks.of(trace, trace.pods[0]).used.values()
    expect("used, as it is read", [(use.at - BEGIN, use.attempt, use.memory, use.cpu) for use in used.uses],
           [(-1, 0, 10, 2), (8, 0, 20, 0), (19, 0, 60, 1000), (28, 1, 11, 0), (38, 2, 12, 0)])


def test_use_over_time():
    """What the tools read of it: each sample once, at its own moment, of its own instance; and bounds that were changed
    in place."""
    grown = {"requests": {"memory": "32Mi"}, "limits": {"memory": "128Mi", "cpu": "0.5"}}
    found = why.UseOverTime()
    for at, listed in (
        (10, {"attempt": 0, "used": {"workingSet": 10, "usage": 12, "cpu": 2, "age": 1}}),
        (19, {"attempt": 0, "used": {"workingSet": 60, "cpu": 999}, "resources": grown}),
        (23, {"attempt": 0, "used": {"workingSet": 60, "cpu": 999, "age": 4}, "resources": grown}),
        (24, {"attempt": 1, "ended": {"attempt": 0, "used": {"workingSet": 61, "cpu": 1, "age": 2}}}),
        (33, {"attempt": 1, "used": {"workingSet": 5}}),
    ):
        found.take(at, listed)
    expect("use over time", [(use.at, use.attempt, use.memory, use.cpu) for use in found.uses],
           [(9, 0, 10, 2), (19, 0, 60, 999), (22, 0, 61, 1), (33, 1, 5, None)])
    expect("bounds over time", found.changes,
           [(19, fields.Bounds(32000 << 20, 128000 << 20, 500, 500)), (24, None)])
    odd = why.UseOverTime()
    for value in (None, [], {}, "x", 5, {"workingSet": -1}, {"cpu": True}, {"workingSet": 5, "age": -1},
                  {"workingSet": 5, "age": 99}, {"throttled": 1.5}):
        odd.take(9, {"used": value, "ended": value})
        odd.take(9, {"attempt": value, "ended": {"attempt": -1, "used": {"cpu": 1}}})
        expect(f"odd bounds {value}", fields.bounds_of({"limits": value, "requests": {"cpu": value}}), fields.Bounds(
            None, None, 5000 if value == 5 else None, None))
    expect("odd use", (odd.uses, odd.changes), ([], []))


def test_throttled():
    """For how long the processor of an instance was throttled in the minute before, and since it began."""
    found = why.UseOverTime()
    for at, attempt, throttled in ((0, 0, 0), (30, 0, 9000), (60, 0, 21500), (95, 0, 30000), (100, 1, 100)):
        found.take(at, {"attempt": attempt, "used": {"workingSet": 1, "throttled": throttled}})
    for name, attempt, at, wanted in (
        ("in the minute before", 0, 97, why.Throttled(8500, 60, 95, 30000)),
        ("by then", 0, 60, why.Throttled(21500, 0, 60, 21500)), ("of another instance", 1, 100,
                                                                  why.Throttled(0, 100, 100, 100)),
        ("not at all", 0, 29, None), ("long before", 0, 156, None), ("of none", 2, 100, None),
    ):
        expect(f"throttled {name}", found.throttled(attempt, at), wanted)


def test_odd_samples():
    """Stats of containers of which a part is another value are read, or the answer is none."""
    container = {"name": "app", "memory": {"time": "2026-01-01T00:00:07Z", "workingSetBytes": 5}, "cpu": {
        "usageNanoCores": 3}}
    faults = []
    for odd in (None, [], {}, "x", 5, -1.5, 2 ** 70, True):
        for name in (("name",), ("memory",), ("cpu",), ("memory", "time"), ("memory", "workingSetBytes"),
                     ("cpu", "usageNanoCores")):
            changed = json.loads(json.dumps(container))
            (changed if len(name) == 1 else changed[name[0]])[name[-1]] = odd
            text = json.dumps({"node": {}, "pods": [{"podRef": {"uid": "u"}, "containers": [changed]}]})
            try:
                summary.used_in(summary.summary_of(text).pods["u"])
            except Failed:
                pass
            except Exception as error:  # noqa: BLE001 what a test looks for
                faults.append(f"{name} {odd}: {error!r}")
    expect("used: odd samples", faults, [])


def busy_node(pods, seconds):
    """Pods of one container with two probes, of which the summary has a new sample every ten seconds."""
    names = [f"web-{number}" for number in range(pods)]
    probe = {"periodSeconds": 10}
    spec = {"containers": [{"name": "app", "livenessProbe": probe, "readinessProbe": probe}]}
    return {"begin": BEGIN, "pods": {f"shop/{name}": {"spec": spec} for name in names},
            "containers": [{"id": f"c{number}", "pod": f"shop/{name}", "name": "app", "attempt": 0, "created": -101,
                            "started": -100} for number, name in enumerate(names)],
            "probes": [{"pod": f"shop/{name}", "container": "app", "probe": kind, "result": "success",
                        "at": list(range(number % 10 - 100, seconds, 10))}
                       for number, name in enumerate(names) for kind in ("liveness", "readiness")],
            "samples": {str(at): {"memory": 2 ** 33 - at, "pods": {f"uid-{name}": 10 ** 8 + at for name in names},
                                  "containers": {f"uid-{name}": {"app": [10 ** 8 + at, 11 * 10 ** 7 + at, 12345678, at]}
                                                 for name in names}} for at in range(-5, seconds, 10)}}


def without(value):
    """A value of JSON without what containers used."""
    if isinstance(value, dict):
        return {name: without(each) for name, each in value.items() if name != "used"}
    return [without(each) for each in value] if isinstance(value, list) else value


def test_growth():
    """A recording grows by at most a third."""
    ticks, answer = ticks_of(busy_node(30, 300), "--extended", "--for", "300")
    lean, whole = (len(json.dumps(each, separators=(",", ":"))) for each in (without(ticks), ticks))
    expect("used: each of the ticks of a recording has it", len(used_in(ticks)) > 30 * 25, True)
    expect("used: how much a recording grows", (answer, lean < whole <= lean * 4 / 3), ((0, ""), True))
