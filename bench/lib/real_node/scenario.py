"""What happens in the runs of bench/real_node --api: how the kubelet is configured, and which pods come and go when."""

from dataclasses import dataclass

from pods import COUNT, container, pod, probe

MIB = 2 ** 20
# what a run lets pods take before memory is low
MEMORY_LEFT = 5000 * MIB
SMALL = {"requests": {"memory": "16Mi"}}
TIGHT = {"limits": {"memory": "32Mi"}}
HIGH = "high"
UNTIL_TERM = "trap 'exit {0}' TERM; while :; do sleep 1 & wait $!; done"


@dataclass
class Scenario:
    """A run: its seconds, the recorders next to it, its changes (the second, what is done, the pod, its grace), whether
    its kubelet has a small file system, whether the answers that the recorder was given are kept, which costs, and
    whether the recorder is a pod of the node. `configuration` makes the kubelet's settings of the bytes of memory that
    are available."""
    name: str
    seconds: int
    recorders: tuple
    changes: list
    configuration: object
    has_small_disk: bool = False
    keeps_answers: bool = True
    is_deployed: bool = False


def named(name, command, grace=3, policy="Always", inits=(), has_volume=False, priority=None, **fields):
    """A pod of one container."""
    made = pod(name, [container("app", command, **fields)], inits, policy, has_volume)
    made["spec"] |= {"nodeName": "node-a", "terminationGracePeriodSeconds": grace,
                     "automountServiceAccountToken": False, "enableServiceLinks": False,
                     **({"priorityClassName": priority} if priority else {})}
    return made


def hog(name, mebibytes, request=None, priority=None):
    """A pod that takes so much memory and keeps it."""
    return named(name, f"(head -c {mebibytes}m /dev/zero; sleep 10000) | tail & wait", grace=5, priority=priority,
                 resources={"requests": {"memory": request}} if request else {})


def writer(name, mebibytes, request=None, priority=None):
    """A pod that writes so much to a volume of its own."""
    return named(name, f"dd if=/dev/zero of=/s/f bs=1M count={mebibytes}; sleep 10000", has_volume=True,
                 priority=priority, resources={"requests": {"ephemeral-storage": request}} if request else {})


def basic():
    """Pods that show what becomes of pods, by their names."""
    alive = probe("test ! -f /tmp/bad", periodSeconds=5, failureThreshold=3)
    seen = probe("test -f /tmp/ok", periodSeconds=4, failureThreshold=2, successThreshold=2)
    steady = {"readinessProbe": probe("true", periodSeconds=4), "livenessProbe": probe("true", periodSeconds=5)}
    spoiled = "trap 'exit 5' TERM; sleep 45 & wait $!; touch /tmp/bad; while :; do sleep 1 & wait $!; done"
    every = [
        named("live", "sleep 40; touch /tmp/bad; sleep 1000", livenessProbe=alive, resources=SMALL),
        named("live-trap", spoiled, livenessProbe=alive, readinessProbe=probe("true", periodSeconds=3),
              resources=SMALL),
        named("ready", "while :; do touch /tmp/ok; sleep 25; rm /tmp/ok; sleep 25; done", readinessProbe=seen,
              resources=SMALL),
        named("oom", "sleep 8; exec tail /dev/zero", resources=TIGHT),
        named("oom-once", "sleep 8; exec tail /dev/zero", policy="Never", resources=TIGHT),
        named("job-ok", "sleep 20; exit 0", policy="Never", resources=SMALL),
        named("job-bad", "sleep 15; exit 3", policy="Never", resources=SMALL),
        named("job-retry", COUNT.format("a"), policy="OnFailure", has_volume=True, resources=SMALL),
        named("job-init", "sleep 6; exit 0", policy="OnFailure", resources=SMALL,
              inits=[container("fetch", "sleep 3"), container("setup", "sleep 2")]),
        named("db-0", UNTIL_TERM.format(0), grace=4, **steady),
        named("db-1", "sleep 10000", grace=4, **steady),
        named("leaver", UNTIL_TERM.format(9), grace=4, resources=SMALL),
        named("leaver-late", "sleep 10000", grace=6, resources=SMALL),
        named("crash", "sleep 6; exit 1", resources=SMALL),
    ]
    return {each["metadata"]["name"]: each for each in every}


def life(until):
    """The basic pods come, go, and come again under their names, up to a second: (second, what, pod, grace)."""
    by_name = basic()
    steps = [(6, "create", name, None) for name in by_name]
    steps += [(50, "again", "db-0", None), (54, "again", "db-1", None), (75, "delete", "leaver", None),
              (100, "delete", "crash", None), (130, "again", "db-0", None), (133, "again", "db-1", 0),
              (150, "delete", "leaver-late", None), (170, "delete", "job-ok", None), (172, "again", "job-bad", None),
              (215, "again", "db-0", 0), (222, "again", "db-1", None), (240, "delete", "live", None),
              (255, "again", "ready", None)]
    return [(second, what, by_name[name], grace) for second, what, name, grace in steps if second < until]


def created(*pods_of):
    """Pods that come: (second, pod)."""
    return [(second, "create", each, None) for second, each in pods_of]


def memory_pods():
    return created((60, hog("h-below", 1500, "3Gi")), (60, hog("h-important", 2500, None, HIGH)),
                   (68, hog("h-bulk", 1800)), (68, hog("h-above", 1500, "200Mi")), (110, named("late", "sleep 1000")),
                   (185, hog("w2", 1500, "10Mi")), (230, hog("w3-a", 1400, "10Mi")), (230, hog("w3-b", 1700, "20Mi")))


def disk_pods():
    return created((20, writer("d-small", 300)), (20, writer("d-important", 900, None, HIGH)),
                   (40, writer("d-big", 800)), (40, writer("d-mid", 600, "2Gi")),
                   (150, writer("d-second", 900, "10Mi")))


def limit_of(available):
    return f"{(available - MEMORY_LEFT) // MIB}Mi"


def hard_memory(available):
    return {"evictionHard": {"memory.available": limit_of(available)}}


def soft_memory(available):
    return {"evictionHard": {"memory.available": "100Mi"}, "evictionSoft": {"memory.available": limit_of(available)},
            "evictionSoftGracePeriod": {"memory.available": "25s"},
            "evictionMinimumReclaim": {"memory.available": "300Mi"}}


def small_disk(_):
    return {"evictionHard": {"memory.available": "100Mi", "nodefs.available": "1500Mi"},
            "evictionMinimumReclaim": {"nodefs.available": "200Mi"}, "volumeStatsAggPeriod": "10s"}


def quiet(_):
    return {"evictionHard": {"memory.available": "100Mi"}}


def quiet_pods():
    by_name = basic()
    return created(*((6, by_name[name]) for name in ("db-0", "db-1", "leaver-late")))


def three_pods():
    """One that crashes, one that a probe kills, and one that is deleted and comes again under its name."""
    by_name = basic()
    return [*created(*((40, by_name[name]) for name in ("crash", "live-trap", "db-0"))),
            *((second, "again", by_name["db-0"], grace) for second, grace in ((95, None), (150, 0), (215, None)))]


BOTH = ("standard", "extended", "kubectl")
RUNS = {each.name: each for each in (
    Scenario("hard", 300, BOTH, life(300) + memory_pods(), hard_memory),
    Scenario("soft", 300, BOTH, life(300) + memory_pods(), soft_memory),
    Scenario("nodefs", 300, BOTH, life(200) + disk_pods(), small_disk, True),
    Scenario("quiet", 120, ("extended", "kubectl"), quiet_pods(), quiet, keeps_answers=False),
    Scenario("recorder", 340, (), three_pods(), quiet, is_deployed=True),
)}
