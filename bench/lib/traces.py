"""The traces that the program is measured with, line by line. A trace is the same whenever it is written."""
from typing import NamedTuple

LARGEST, LONGEST = 64 << 20, 1 << 20


class TooLarge(Exception):
    """A trace is larger than one may be."""


class Shape(NamedTuple):
    """How many pods and ticks. Every `calm`-th tick evicts a pod while one is left; each `period`-th has what the
    probes found."""
    pods: int
    ticks: int
    calm: int
    period: int = 1
    names: tuple = ("app",)
    probes: tuple = ("readiness", "liveness")


def few_pods(ticks):
    """Twenty pods, of which six are evicted, however many ticks there are."""
    return Shape(20, ticks, ticks // 5, 5)


def long_lines(ticks):
    """One pod with sixteen containers, which have long names and each kind of probe; it is never evicted."""
    names = tuple(f"container-of-web-{number:02}" for number in range(16))
    return Shape(1, ticks, ticks + 2, 2, names, ("startup", "liveness", "readiness"))


SHAPES = {
    "many_pods": Shape(256, 500, 50),
    "many_ticks": few_pods(20_000),
    "long_lines": long_lines(20_000),
    "pressed_pods": Shape(256, 500, 1),
    "ticks_2000": few_pods(2_000),
    "ticks_6000": few_pods(6_000),
    "small_pods": Shape(256, 60, 20),
    "small_ticks": few_pods(800),
    "small_lines": long_lines(500),
}
NODE = ('{"kind":"node","name":"n1","capacity":{"nodefs.available":"100Gi"},'
        '"evictionHard":{"memory.available":"100Mi","nodefs.available":"10%"},'
        '"evictionSoft":{"memory.available":"1Gi"},"evictionSoftGracePeriod":{"memory.available":"1m"}}')
POD = '{"kind":"pod","pod":{"metadata":{"name":"p%d"},"spec":{"priority":%d,"containers":[%s]}}}'
CONTAINER = '{"name":"%s","resources":{"requests":{"memory":"64Mi"}},%s}'
TICK = '{"kind":"tick","at":%d,"signals":{"memory.available":"%dMi","nodefs.available":"%dGi"},"pods":[%s]}'
ENTRY = '{"pod":"default/p%d","containers":[%s],%s"usage":{"memory":%d}}'
LISTING = '{"name":"%s","attempt":%d,"state":%s}'
RESULT = '{"container":"%s","probe":"%s","result":"%s"}'


def has_log(pod):
    """Whether the pod has one more container, without probes."""
    return pod % 4 == 3


def pod_line(shape, pod):
    probes = ",".join('"%sProbe":{"failureThreshold":1}' % probe for probe in shape.probes)
    containers = [CONTAINER % (name, probes) for name in shape.names] + ['{"name":"log"}'] * has_log(pod)
    return POD % (pod, pod % 7 - 3, ",".join(containers))


def result(shape, probe, pod, turn):
    """Readiness fails twice in nine results, and liveness in some pods, late in an attempt."""
    unready = probe == "readiness" and turn // shape.period % 9 in (3, 4)
    hung = probe == "liveness" and turn % 20 >= 10 and pod % 5 == 0
    return "failure" if unready or hung else "success"


def entry(shape, pod, tick):
    """What a tick shows of a pod: each container runs 15 ticks of 20 and is then restarted."""
    listings, results = [], []
    for number, name in enumerate(shape.names):
        turn = tick + 7 * pod + 3 * number
        attempt, at = divmod(turn, 20)
        state = '"CONTAINER_RUNNING"' if at < 15 else '"CONTAINER_EXITED","exitCode":%d' % (1 + pod % 3)
        listings.append(LISTING % (name, attempt, state))
        if turn % shape.period == 0:
            results += [RESULT % (name, probe, result(shape, probe, pod, turn)) for probe in shape.probes]
    listings += ['{"name":"log","state":1}'] * has_log(pod)
    probes = '"probes":[%s],' % ",".join(results) if results else ""
    return ENTRY % (pod, ",".join(listings), probes, 1000 * (1 + (pod * 7919 + tick * 104729) % 1_000_003))


def tick_line(shape, tick):
    """What the node has left changes in each tick, and is below a threshold now and then."""
    calm = shape.calm - 1 - tick % shape.calm
    memory = (50, 700)[calm] if calm < 2 else 2_000 + tick * 37 % 1_000
    disk = 5 if tick % (3 * shape.calm) == 2 * shape.calm else 60
    return TICK % (10 * tick, memory, disk, ",".join(entry(shape, pod, tick) for pod in range(shape.pods)))


def lines(shape):
    yield NODE
    yield from (pod_line(shape, pod) for pod in range(shape.pods))
    yield from (tick_line(shape, tick) for tick in range(shape.ticks))


def write(shape, path):
    """Writes the trace into a file."""
    size = 0
    with open(path, "w", encoding="ascii") as text:
        for line in lines(shape):
            size += text.write(line + "\n")
            if len(line) > LONGEST or size > LARGEST:
                raise TooLarge
