"""Which restarts that a report orders came, by what the kubelet started."""

from dataclasses import dataclass

from beside import NEAR, at
from counted import FAR

# what comes so soon after a restart may have kept the kubelet from it, in seconds
SOON = 15


@dataclass
class Restarts:
    """How many a report has, how many of them came, of how many the pod was deleted, ended or gone soon, how many were
    ordered as the recording ended, and those that never came, as lines."""
    all: int
    came: int
    leaving: int
    late: int
    never: list

    def text(self):
        return (f"restarts ordered: {self.all}; came: {self.came}; the pod left within {SOON} s: {self.leaving}; "
                f"as the recording ended: {self.late}; never came: {len(self.never)}")


def starts_of(real):
    """When each container was started again, by pod and container."""
    found = {}
    for fact in sorted(real, key=lambda fact: fact.moment):
        word, *number = fact.what.split()
        if word == "started" and number != ["0"]:
            found.setdefault((fact.pod, fact.container), []).append(fact.moment)
    return found


def leaves_soon(trace, number, moment):
    """Whether a trace shows that a pod was deleted, ended by the node or gone within seconds of a moment."""
    pod, ends = trace.pods[number], []
    if number in trace.deletions:
        ends.append(trace.deletions[number].at)
    ends += [each.at for each in (*trace.decisions, *trace.failed.values()) if each.number == number]
    if pod.gone is not None:
        ends.append(trace.ticks[pod.gone - 1].at)
    return any(abs(end - moment) <= SOON for end in ends)


def restarts_of(real, report, trace):
    """Each restart with the first start after it that no other one has."""
    starts, found = starts_of(real), Restarts(0, 0, 0, 0, [])
    for event in report.events:
        if event.word != "restart":
            continue
        found.all += 1
        left = starts.get((event.pod, event.container), [])
        fitting = [moment for moment in left if event.at - NEAR <= moment <= event.at + FAR]
        if fitting:
            left.remove(fitting[0])
            found.came += 1
        elif leaves_soon(trace, event.number, event.at):
            found.leaving += 1
        elif event.at > trace.ticks[-1].at - SOON:
            found.late += 1
        else:
            found.never.append(f"{at(event.at)} {event.pod} {event.container} restart {' '.join(event.rest)}")
    return found
