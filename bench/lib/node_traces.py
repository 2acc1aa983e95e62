"""Traces of many nodes, each settled by a seed and its number: some pods that do well, some that don't, pressure on
some nodes, and in every twentieth trace a fault that the program rejects."""

import json
import random

EVERY = 10
"""seconds between two ticks"""
MOST_TICKS = 240
"""of a trace, whose ticks are a quarter of them at least"""
REFUSED_EVERY = 20
SIGNALS = {"memory.available": ("4Gi", "50Mi"), "nodefs.available": ("60Gi", "4Gi"), "pid.available": ("20000", "90")}
NODE = {
    "kind": "node", "capacity": {"nodefs.available": "100Gi"},
    "evictionHard": {"memory.available": "100Mi", "nodefs.available": "10%", "pid.available": "100"},
}


def trace(seed, number, most_ticks=MOST_TICKS):
    """The lines of a trace, as one text."""
    chance = random.Random(f"{seed}/{number}")
    pods = [pod(chance, place) for place in range(chance.randint(2, 8))]
    ticks = chance.randint(most_ticks // 4, most_ticks)
    pressed = pressure(chance, ticks)
    lines = [{**NODE, "name": f"worker-{number:05}"}, *({"kind": "pod", "pod": made["manifest"]} for made in pods)]
    lines += [tick(chance, pods, at, pressed) for at in range(ticks)]
    if number % REFUSED_EVERY == REFUSED_EVERY - 1:
        lines = faulty(chance, lines)
    text = "".join(json.dumps(line, separators=(",", ":")) + "\n" for line in lines)
    # of a cut line the end is missing
    return text[:-20] if number % (5 * REFUSED_EVERY) == 5 * REFUSED_EVERY - 1 else text


def pod(chance, place):
    """A pod's manifest, and what it does: each of its ways is a function of its age in ticks."""
    way = chance.choice(("steady", "steady", "crashes", "flaps", "hangs", "completes"))
    name = f"{chance.choice(('web', 'api', 'search', 'batch'))}-{place}"
    container = {"name": "app", "resources": {"requests": {"memory": f"{chance.randint(1, 8) * 64}Mi"}}}
    if way == "flaps":
        container["readinessProbe"] = {"failureThreshold": chance.randint(1, 3)}
    if way == "hangs":
        container["livenessProbe"] = {"failureThreshold": chance.randint(1, 3)}
    spec = {"priority": chance.randint(-2, 2), "containers": [container]}
    if way == "completes":
        spec["restartPolicy"] = "Never"
    return {"way": way, "runs": chance.randint(2, 9), "rests": chance.randint(1, 4), "key": f"shop/{name}",
            "memory": chance.randint(32, 900) << 20,
            "manifest": {"metadata": {"name": name, "namespace": "shop"}, "spec": spec}}


def pressure(chance, ticks):
    """A signal that falls below its threshold, and when; most nodes have none."""
    if chance.random() < 0.7:
        return None
    since = chance.randrange(ticks)
    return chance.choice(list(SIGNALS)), since, since + chance.randint(1, 3)


def tick(chance, pods, at, pressed):
    """A tick line; a signal that is pressed falls below its threshold in it."""
    signals = {signal: calm for signal, (calm, _) in SIGNALS.items()}
    if pressed and pressed[1] <= at < pressed[2]:
        signals[pressed[0]] = SIGNALS[pressed[0]][1]
    return {"kind": "tick", "at": EVERY * at, "signals": signals, "pods": [entry(chance, made, at) for made in pods]}


def entry(chance, made, at):
    """What a tick shows of a pod, by its way and its age."""
    attempt, age = divmod(at, made["runs"] + made["rests"])
    code = 1
    if made["way"] in ("steady", "flaps"):
        attempt, runs = 0, True
    elif made["way"] == "completes":
        attempt, runs, code = 0, at < made["runs"], 0
    else:
        runs = age < made["runs"]
    listing = {"name": "app", "attempt": attempt, "state": "CONTAINER_RUNNING" if runs else "CONTAINER_EXITED"}
    if not runs:
        listing["exitCode"] = code
    found = {"pod": made["key"], "containers": [listing],
             "usage": {"memory": made["memory"] + chance.randrange(1 << 20), "pids": chance.randint(1, 40)}}
    if made["way"] == "flaps":
        found["probes"] = [result("readiness", at % (made["runs"] + made["rests"]) < made["runs"])]
    if made["way"] == "hangs" and runs:
        found["probes"] = [result("liveness", age < made["runs"] - 3)]
    return found


def result(probe, succeeds):
    return {"container": "app", "probe": probe, "result": "success" if succeeds else "failure"}


def faulty(chance, lines):
    """The lines with one fault."""
    last = lines[-1]
    faults = {
        "moment": lambda: lines + [last],
        "stranger": lambda: lines + [{**last, "at": last["at"] + 1, "pods": [{"pod": "shop/stranger"}]}],
        "state": lambda: lines + [{**last, "at": last["at"] + 1, "signals": {"cpu.available": "1"}}],
        "node": lambda: lines[1:],
        "kind": lambda: lines[:2] + [{"kind": "nodes"}] + lines[2:],
        "manifest": lambda: [lines[0], {"kind": "pod", "pod": {"metadata": {"name": "empty"}}}, *lines[1:]],
    }
    return faults[chance.choice(list(faults))]()
