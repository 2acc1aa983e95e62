"""The traces of bench/edges, line by line, and their reports by the rules of docs/rules.md: they are so regular that
the reports can be written down without the program."""
from typing import NamedTuple

STEP = 10
"""seconds from tick to tick, and those for which a restart is backed off: it comes at the tick after the exit"""
NODE = '{"kind":"node","name":"n1","maxRestartDelay":%d}' % STEP
POD = '{"kind":"pod","pod":{"metadata":{"name":"p%d","namespace":"n"},"spec":{"containers":[%s]}}}'
CONTAINER = '{"name":"c%d"}'
TICK = '{"kind":"tick","at":%d,"pods":[%s]}'
ENTRY = '{"pod":"n/p%s","containers":[%s]}'
RUNNING = '{"name":"c%d","attempt":%d,"state":1}'
EXITED = '{"name":"c%d","attempt":%d,"state":2,"exitCode":1}'
CONDITIONS = ("MemoryPressure", "DiskPressure", "PIDPressure")
# no number and no word of a report has it
POD_NUMBER = "#"


class Edge(NamedTuple):
    """Pods whose containers are listed in each tick. The containers of one pod do the same: from the first tick on
    they have a
    new instance in each `period`-th tick, which is listed as exited in the last `exited` ticks of its period, and as
    running before. The pods have the periods by turns; where there is none, no tick lists anything."""
    pods: int
    ticks: int            # a multiple of each period
    containers: int = 1
    periods: tuple = ()   # each above `exited`, and too short for a run of 600 s, which would end the delays
    exited: int = 2

    def period(self, pod):
        return self.periods[pod % len(self.periods)]

    def instances(self, pod):
        """How many a container of the pod has, all of which exit."""
        return self.ticks // self.period(pod) if self.periods else 0

    def restarts(self, pod):
        """How many restarts come. That after the first exit is not backed off; any other comes only where the tick
        after the exit still lists it."""
        return self.instances(pod) if self.exited > 1 else min(self.instances(pod), 1)

    def events(self):
        """How many events: each instance starts, gets ready, dies and gets unready; each but the first is backed off;
        the pod is Running once."""
        return sum(1 + self.containers * (5 * self.instances(pod) - 1 + self.restarts(pod))
                   for pod in range(self.pods) if self.periods)

    def orders(self):
        return sum(self.containers * self.restarts(pod) for pod in range(self.pods))


def moment(tick):
    """The moment of a tick; the first one is not 0, which means none."""
    return STEP * (tick + 1)


def listings(edge, period, tick):
    """What a tick lists of a pod."""
    attempt, at = divmod(tick, period)
    listing = RUNNING if at < period - edge.exited else EXITED
    return ",".join(listing % (number, attempt) for number in range(edge.containers))


def trace_lines(edge):
    containers = ",".join(CONTAINER % number for number in range(edge.containers))
    yield NODE
    yield from (POD % (pod, containers) for pod in range(edge.pods))
    for tick in range(edge.ticks):
        listed = {period: listings(edge, period, tick) for period in edge.periods}
        shown = (ENTRY % (pod, listed[edge.period(pod)]) for pod in range(edge.pods) if listed)
        yield TICK % (moment(tick), ",".join(shown))


def words_of_events(edge, period, tick):
    """The words of a container's events in a tick."""
    attempt, at = divmod(tick, period)
    exit_at = period - edge.exited
    if at == 0:
        return [f"started {attempt}", "ready"]
    if at == exit_at:
        return [f"died {attempt} 1", "unready", f"backoff {STEP}" if attempt else "restart 0"]
    return [f"restart {attempt}"] if at == exit_at + 1 and attempt else []


def event_lines(edge, period, tick):
    """The events of a pod in a tick, with a sign in place of its number."""
    begin, words = f"event {moment(tick)} n/p{POD_NUMBER}", words_of_events(edge, period, tick)
    lines = [f"{begin} c{number} {event}\n" for number in range(edge.containers) for event in words]
    return "".join(lines) + (f"{begin} - phase Running\n" if tick == 0 else "")


def pod_lines(edge, pod):
    """Its last tick that changes something has the last exit; without any its containers wait from the first."""
    instances, last = edge.instances(pod), moment(edge.ticks - edge.exited if edge.periods else 0)
    yield f"pod {pod} n/p{pod} phase={'Running' if instances else 'Pending'} reason=- qos=BestEffort\n"
    for condition in ("PodScheduled", "Initialized"):
        yield f"condition {pod} {condition} True {moment(0)}\n"
    for condition in ("ContainersReady", "Ready"):
        yield f"condition {pod} {condition} False {last}\n"
    state = f"state=Terminated code=1 restarts={instances - 1}" if instances else "state=Waiting code=- restarts=0"
    for number in range(edge.containers):
        yield f"container {pod} c{number} {state} ready=false started=false\n"


def report_parts(edge):
    """The report, some lines at once."""
    yield f"node n1 pods={edge.pods} ticks={edge.ticks}\n"
    for tick in range(edge.ticks):
        events = {period: event_lines(edge, period, tick) for period in edge.periods}
        if any(events.values()):
            for pod in range(edge.pods):
                yield events[edge.period(pod)].replace(POD_NUMBER, str(pod))
    for pod in range(edge.pods):
        yield from pod_lines(edge, pod)
    yield from (f"nodecondition {condition} False {moment(0)}\n" for condition in CONDITIONS)
    yield f"totals updates={edge.pods * edge.ticks} events={edge.events()} orders={edge.orders()}\n"
