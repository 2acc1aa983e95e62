"""The texts of bench/edges: a program reads their lines in windows, which its workers share, and docs/formats.md has
what is answered to each. Their lines are long, many or faulty where a window begins or ends."""
import itertools
from typing import NamedTuple

MEBIBYTE = 1 << 20
"""bytes that a line may have, without its end"""
NODE = '{"kind":"node","name":"n1"}\n'
NODE_3 = '{"kind":"node","name":"n1","version":3}\n'
POD = '{"kind":"pod","pod":{"metadata":{"name":"%s"},"spec":{"containers":[{"name":"c"}]}}}\n'
ENTRY = '{"pod":"default/%s","containers":[{"name":"c","state":1}]}'
TICK = '{"kind":"tick","at":%d,"pods":[%s]}\n'
# by it another line looks as a tick line does
NOTE = '{"note":"tick",'
CONDITIONS = ("MemoryPressure", "DiskPressure", "PIDPressure")
BY_ALL = (1, 2, 3, 64)
EXTENDED = ("--extended",)


class Text(NamedTuple):
    """A text, and what is answered: its report, or, on standard error, its first fault."""
    name: str
    parts: tuple        # lines with their ends; the last one may have none
    said: str = ""
    report: str = ""
    words: tuple = ()   # of the program, next to the number of workers
    workers: tuple = BY_ALL


def node_report(pods, ticks, first, told="", counts=(0, 0, 0)):
    """The text of a node whose first tick is at this moment, or 0: with its pods and their events."""
    pressure = "".join(f"nodecondition {condition} False {first}\n" for condition in CONDITIONS)
    updates, events, orders = counts
    return (f"node n1 pods={pods} ticks={ticks}\n{told}{pressure}"
            f"totals updates={updates} events={events} orders={orders}\n")


def long_lines():
    """A line may have a mebibyte, and blanks may be more. A longer line has no other fault."""
    alone = node_report(0, 0, 0)
    yield Text("node line of a mebibyte", (" " * (MEBIBYTE - len(NODE) + 1), NODE), report=alone)
    yield Text("node line of a byte more", (" " * (MEBIBYTE - len(NODE) + 2), NODE), "line 1: 31 TooLong")
    yield Text("blanks of a byte more", (" " * (MEBIBYTE + 1), "\n", NODE), report=alone)
    yield Text("no JSON in a mebibyte", (" " * (MEBIBYTE - 1), "{"), "line 1: 32 NotJson")
    yield Text("no JSON in a byte more", (" " * MEBIBYTE, "{"), "line 1: 31 TooLong")


def two_faults():
    """Both in one window of a mebibyte, and one in each of two."""
    for blanks in (10_000, 20_000):
        lines = (" " * 39 + "\n") * blanks
        yield Text(f"two faults after {blanks} blank lines each", (NODE, lines, "{\n", lines, "[\n"),
                   f"line {blanks + 2}: 32 NotJson")


def one_tick_more():
    """Than there may be, whose moment is faulty too."""
    ticks = tuple(TICK % (at, ENTRY % "a") for at in range(1, 20_001))
    yield Text("a tick more than 20,000", (NODE, POD % "a", *ticks, TICK % (0, "")), "line 20003: 45 TooMany")


def filled(begin, size, end):
    """A line of so many bytes, which is filled with spaces before its end."""
    return begin + " " * (size - len(begin) - len(end)) + end


def running(ticks, size):
    """Tick lines of so many bytes, in each of which the pod `a` runs."""
    return [filled(f'{{"kind":"tick","at":{at},"pods":[{ENTRY % "a"}],"note":"', size, '"}\n')
            for at in range(ticks)]


# wherever they are after the lines of a node and of the pod `a`
FAULTS = (
    ("{", "32 NotJson"),
    ("[]", "33 UnknownKind"),
    ('{"kind":"node","name":"n1"}', "34 Order"),
    ('{"kind":"gone","pod":"default/b"}', "39 StrangerPod"),
    ('{"kind":"tick"}', "42 Moment"),
    ('{"kind":"tick","at":1e2}', "42 Moment"),
    ('{"kind":"tick","at":1099511627776}', "42 Moment"),
    ('{"kind":"tick","at":10000,"pods":5}', "46 Usage"),
    ('{"kind":"tick","at":10000,"pods":[{"pod":"default/b"}]}', "39 StrangerPod"),
    ('{"kind":"tick","at":10000,"pods":[{"pod":"default/a"},{"pod":"default/a"}]}', "41 Doubled"),
    ('{"kind":"tick","at":10000,"pods":[{"pod":"default/a","containers":[{"name":"d","state":1}]}]}',
     "40 StrangerContainer"),
    ('{"kind":"tick","at":10000,"pods":[{"pod":"default/a","containers":[{"name":"c","state":2}]}]}', "44 ExitCode"),
    ('{"kind":"tick","at":10000,"signals":{"memory.available":"x"}}', "46 Usage"),
)
PLACES = (0, 1, 2, 43, 44, 45, 111, 112, 113, 114, 130, 131, 225, 226, 227, 452, 499)
"""how many of 500 tick lines are before a fault"""


def faults_in_windows():
    """Windows end by their lines, and by their bytes. After each fault, which come by turns, there is another."""
    faults = itertools.cycle(FAULTS)
    for size in (150, 1500):
        ticks = running(500, size)
        for place in PLACES:
            line, kind = next(faults)
            yield Text(f"fault after {place} ticks of {size} bytes",
                       (NODE_3, POD % "a", *ticks[:place], f"{line}\n", "{\n", *ticks[place:]),
                       f"line {place + 3}: {kind}", words=EXTENDED)


def strangers():
    """A tick names a pod that has just left, a container of one that came again, or a pod whose line comes next."""
    head = (NODE_3, POD % "a", *running(50, 150))
    gone, again = NOTE + '"kind":"gone","pod":"default/a"}\n', NOTE + (POD % "%s")[1:]
    yield Text("tick of a pod that has left", (*head, gone, TICK % (50, '{"pod":"default/a"}')),
               "line 54: 39 StrangerPod", words=EXTENDED)
    yield Text("tick of the container of a pod that left", (
        *head, gone, again.replace('"c"', '"d"') % "a", TICK % (50, ENTRY % "a")),
        "line 55: 40 StrangerContainer", words=EXTENDED)
    yield Text("tick of a pod before its line", (*head, TICK % (50, '{"pod":"default/b"}'), again % "b"),
               "line 53: 39 StrangerPod", words=EXTENDED)


def events_of(pod, moment, *events):
    return "".join(f"event {moment} default/{pod} {event}\n" for event in events)


BEGIN = ("c started 0", "c ready", "- phase Running")
# of an instance that is not listed any more
END = ("c died 0 137", "c unready", "c restart 0")


def told_of(number, pod, first, begun, ended=None):
    """The report's end on a pod that came with the tick at one moment, began to run at another, and whose
    container ended at a third, if it did."""
    ready, at = ("true", begun) if ended is None else ("false", ended)
    state = "Running code=-" if ended is None else "Terminated code=137"
    return (f"pod {number} default/{pod} phase=Running reason=- qos=BestEffort\n"
            f"condition {number} PodScheduled True {first}\n"
            f"condition {number} Initialized True {first}\n"
            f"condition {number} ContainersReady {ready.title()} {at}\n"
            f"condition {number} Ready {ready.title()} {at}\n"
            f"container {number} c state={state} restarts=0 ready={ready} started={ready}\n")


def pods_by_turns():
    """One of 256 pods is listed in each tenth tick, and none in the others."""
    pods, ticks, step = 256, 2_600, 10
    lines, told = [NODE, *(POD % f"p{pod}" for pod in range(pods))], []
    for tick in range(ticks):
        pod, behind = divmod(tick, step)
        listed = behind == 0 and pod < pods
        lines.append(TICK % (tick + 1, ENTRY % f"p{pod}" if listed else ""))
        if listed:
            told.append(events_of(f"p{pod}", tick + 1, *BEGIN) + events_of(f"p{pod}", tick + 2, *END))
    told.extend(told_of(pod, f"p{pod}", 1, step * pod + 1, step * pod + 2) for pod in range(pods))
    yield Text("one of 256 pods in each tenth tick", tuple(lines),
               report=node_report(pods, ticks, 1, "".join(told), (pods * ticks, 6 * pods, pods)))
    yield Text("a stranger after one of 256 pods in each tenth tick",
               (*lines, TICK % (ticks + 1, '{"pod":"default/p256"}')), f"line {ticks + pods + 2}: 39 StrangerPod")


def passing_pods():
    """A pod arrives before each tick, runs in three, and leaves."""
    ticks = 200
    for note in ("{", NOTE):
        lines = [NODE_3]
        for tick in range(ticks):
            lines.append(note + (POD % f"p{tick}")[1:])
            if tick >= 3:
                lines.append(note + f'"kind":"gone","pod":"default/p{tick - 3}"}}\n')
            there = range(max(tick - 2, 0), tick + 1)
            lines.append(TICK % (tick + 1, ",".join(ENTRY % f"p{pod}" for pod in there)))
        told = "".join(events_of(f"p{tick}", tick + 1, *BEGIN) for tick in range(ticks))
        told += "".join(told_of(pod, f"p{pod}", pod + 1, pod + 1) for pod in range(ticks))
        yield Text(f"pods that pass, in lines that begin with {note}", tuple(lines),
                   report=node_report(ticks, ticks, 1, told, (3 * ticks - 3, 3 * ticks, 0)), words=EXTENDED)


def names_of_no_signal():
    """They are walked once: where each was looked for among those after it, such a line took seconds."""
    names = "".join(f'"a{name}":{value},' for value in ("1", "null") for name in range(36_000))
    ticks = tuple(f'{{"kind":"tick","at":{at},"signals":{{{names}"pid.available":9}}}}\n' for at in range(1, 21))
    yield Text("72,000 names of no signal in each of 20 ticks", (NODE, *ticks), report=node_report(0, 20, 1),
               workers=(1, 2))


def texts():
    """All of them."""
    for some in (long_lines, two_faults, one_tick_more, faults_in_windows, strangers, pods_by_turns, passing_pods,
                 names_of_no_signal):
        yield from some()
