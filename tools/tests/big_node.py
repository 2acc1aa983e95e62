"""Makes a large trace and its report, to measure how fast a page is. This script makes the report too, not the program:
its events are where the trace has them, and its evictions are made up."""

import collections
import json
import math

TICK = 10


def trace_of(pods, ticks, present):
    """A trace of so many pods and ticks, with this many at a tick: crash loops, readiness that comes and goes, and
    dips of memory that evict."""
    yield line(kind="node", name="big-node", version=2, evictionHard={"memory.available": "200Mi"},
               evictionSoft={"memory.available": "500Mi"}, evictionSoftGracePeriod={"memory.available": "2m"})
    stride = max(1, ticks // pods)
    for tick in range(ticks):
        if tick % stride == 0 and tick // stride < pods:
            yield line(kind="pod", pod=manifest(tick // stride))
        low = max(0, tick // stride - present + 1)
        entries = [entry(number, tick - number * stride) for number in range(low, min(tick // stride + 1, pods))]
        yield line(kind="tick", at=TICK * tick, pods=entries, signals=signals(tick))


def line(**fields):
    return json.dumps(fields, separators=(",", ":")) + "\n"


def manifest(number):
    probe = {"readinessProbe": {"periodSeconds": TICK, "failureThreshold": 1}} if number % 5 == 0 else {}
    app = {"name": "app", "resources": {"requests": {"memory": "100Mi"}}} | probe
    return {"metadata": {"name": f"web-{number:03}", "namespace": f"team-{number % 7}"},
            "spec": {"priority": number % 4, "containers": [app]}}


def entry(number, age):
    attempt, phase = divmod(age, 41) if number % 3 == 0 else (0, age)
    listed = {"name": "app", "attempt": attempt, "state": 1}
    if number % 3 == 0 and phase == 40:
        listed = {"name": "app", "attempt": attempt, "state": 2, "exitCode": attempt % 3}
    found = {"pod": f"team-{number % 7}/web-{number:03}", "containers": [listed]}
    if number % 5 == 0 and listed["state"] == 1:
        found["probes"] = [{"container": "app", "probe": "readiness",
                            "result": "failure" if age % 17 in (3, 4) else "success"}]
    if age % 50 == 0:
        found["usage"] = {"memory": f"{90 + number % 60}Mi"}
    return found


def signals(tick):
    wave = 4000 + 2500 * math.sin(tick / 700) + 300 * math.sin(tick / 11)
    if tick % 1999 == 1500:
        wave = 150
    return {"memory.available": f"{int(wave)}Mi", "nodefs.available": 10**11 - 10**6 * tick, "pid.available": 30000}


def report_of(pods, ticks, present):
    """The report: starts, deaths, restarts and readiness as the listings and results of the pods have them."""
    stride = max(1, ticks // pods)
    evicted = {tick // stride - place % 3: TICK * tick for place, tick in enumerate(range(1500, ticks, 1999))}
    events = [(at, 1, f"node evicted {key_of(number)} memory.available hard 0") for number, at in evicted.items()]
    for number in range(pods):
        last = min(number + present, pods) * stride
        ages = (last if number not in evicted else evicted[number] // TICK + 1) - number * stride
        for age in range(min(ages, ticks - number * stride)):
            events += [(TICK * (number * stride + age), 0, words) for words in age_words(number, age)]
    events.sort(key=lambda event: event[:2])
    yield f"node big-node pods={pods} ticks={ticks}\n"
    yield from (f"event {at} {words}\n" for at, _, words in events)
    restarts = collections.Counter(words.split()[0] for _, _, words in events if " restart " in words)
    yield from (status_lines(number, TICK * number * stride, evicted.get(number), restarts) for number in range(pods))
    yield "".join(f"nodecondition {kind}Pressure False 0\n" for kind in ("Memory", "Disk", "PID"))
    yield from (f"eviction {at} {key_of(number)} memory.available hard 0\n" for number, at in evicted.items())
    yield f"totals updates={pods * ticks} events={len(events)} orders=0\n"


def key_of(number):
    return f"team-{number % 7}/web-{number:03}"


def age_words(number, age):
    """What happened to a pod at a tick of its own, as an entry of that tick has it."""
    attempt, phase = divmod(age, 41) if number % 3 == 0 else (0, age)
    app = f"{key_of(number)} app"
    found = []
    if number % 3 == 0 and phase == 40:
        return [f"{app} died {attempt} {attempt % 3}", f"{app} unready", f"{app} restart {attempt}"]
    if phase == 0:
        found = [f"{app} started {attempt}", f"{app} ready"]
    if number % 5 == 0 and age % 17 in (3, 5):
        found.append(f"{app} {'unready' if age % 17 == 3 else 'ready'}")
    return [*found, f"{key_of(number)} - phase Running"] if age == 0 else found


def status_lines(number, first, evicted, restarts):
    """A pod's status, which the page takes no events from."""
    key, since = key_of(number), first if evicted is None else evicted
    phase, ready = ("phase=Running reason=-", "True") if evicted is None else ("phase=Failed reason=Evicted", "False")
    return (f"pod {number} {key} {phase} qos=Burstable\ncondition {number} PodScheduled True {first}\n"
            f"condition {number} Initialized True {first}\ncondition {number} ContainersReady {ready} {since}\n"
            f"condition {number} Ready {ready} {since}\n"
            f"container {number} app state=Running code=- restarts={restarts[key]} ready=true started=true\n")
