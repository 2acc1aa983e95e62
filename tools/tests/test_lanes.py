"""The tests of the lanes of a pod, which timeline and page draw."""

import re

import cases
from checks import HERE, expect, read

from replay_tools import asking, lanes, picture, report as reports, why
from replay_tools.clock import Clock
from replay_tools.page import data

load_tests = cases.loaded(__name__)

REASONS = f"{HERE}/recordings/reasons"


def beside(folder):
    """A report with its trace."""
    report = reports.read_report(read(f"{folder}/report"))
    return report, asking.trace_of(report, f"{folder}/trace")


def test_lanes():
    """Each state is the state of an event, with the code by which an instance died, and each order and wait is
    there."""
    report, trace = beside(REASONS)
    for pod in report.pods:
        found = lanes.lanes_of(pod, trace)
        for lane in found.containers:
            own = [event for event in pod.events if event.container == lane.name]
            begun = [(event.at, event.word) for event in own if event.word in ("started", "died")]
            shown = [(state.since, "died" if state.died else "started") for state in lane.states
                     if state.attempt is not None]
            expect(f"lanes of {pod.key} {lane.name}: each state is an event's", set(shown) <= set(begun), True)
            expect(f"lanes of {pod.key} {lane.name}: codes", [state.code for state in lane.states],
                   [int(state.died.rest[1]) if state.value == lanes.TERMINATED else None for state in lane.states])
            expect(f"lanes of {pod.key} {lane.name}: orders", lane.orders,
                   [event for event in own if event.word in ("kill", "restart")])
        expect(f"lanes of {pod.key}: waits",
               [(found.containers[place].name, wait) for place, wait in found.waits()], trace.reasons.waits_of(pod))


def drawn():
    """How many bars of containers a picture has, and how many states a page."""
    report, trace = beside(REASONS)
    text = picture.draw(report, report.pods, Clock.SECONDS, None, trace)
    pods = data.data_of(report, trace, why.Ticks(), Clock.SECONDS)["podList"]
    # a code or a reason in a bar has a title of its own, without the container's name
    return (len(re.findall(r": (?:waiting,|attempt \d+ (?:running,|terminated ))", text)),
            sum(len(container["states"]) // 4 for pod in pods for container in pod["containers"]))


def test_lanes_of_both():
    """Timeline and page draw the states that one function makes."""
    bars, states = drawn()
    expect("lanes: as many bars as states", (bars, bars > 10), (states, True))
    report, _ = beside(REASONS)
    whole = lanes.state_of
    lanes.state_of = lambda pod, name, span, *_: lanes.State("Running", span.since, span.until, 7)
    text, changed = picture.draw(report, report.pods, Clock.SECONDS), drawn()
    lanes.state_of = whole
    expect("lanes: both draw others", (changed, text.count("attempt 7 running,")), ((states, states), states))
