"""A picture of a report: lanes over time."""

from __future__ import annotations

from html import escape
from typing import TYPE_CHECKING

from replay_tools import (clock as clocks, entry, kubelet as kubelets, lanes as made, provenance, reasons,
                          report as reports, telling)

if TYPE_CHECKING:
    from replay_tools import traces
    from replay_tools.said import Said

WIDTH, RIGHT, TOP = 1200, 70, 34
LANE, BAR, STRIP, HEAD, GAP = 20, 13, 7, 22, 14
WIDEST_LABEL = 250
# the colours of replay_tools/page/page.css in its light theme
COLOURS = {"Waiting": "#e9c46a", "Running": "#3f7fc4", "Ended with 0": "#a3adb8", "Ended otherwise": "#bf372e",
           "Ready": "#3b9a5f", "Not ready": "#e08a3c", "Pressure": "#a34d8c"}
INK, QUIET, KILL, SAID = "#17212b", "#5a6775", "#8a2be2", "#12797d"
# marks at less than so many pixels become a strip where they are more than so many
DENSE, MOST_MARKS = 12, 4
# what was reported is below a lane, so wide and high; of what falls on one mark so many are printed
SAID_WIDTH, SAID_HEIGHT, MOST_SAID = 3, 4, 6
# a picture that is higher has its moments above too
TALL = 700
PLAIN_STEPS = [digit * 10 ** power for power in range(13) for digit in (1, 2, 5)]
CLOCK_STEPS = [1, 2, 5, 10, 15, 30, 60, 120, 300, 600, 900, 1800, 3600, 7200, 10800, 21600, 43200]
CLOCK_STEPS += [86400 * step for step in PLAIN_STEPS]


class Picture:
    """Elements of a picture, and where a moment is in it."""

    def __init__(self, first: int, last: int, left: float, clock: clocks.Clock) -> None:
        self.first, self.left, self.clock = first, left, clock
        self.span = max(last - first, 1) * 1.04
        self.parts: list[str] = []

    def x(self, at: float) -> float:
        return self.left + (at - self.first) / self.span * (WIDTH - RIGHT - self.left)

    def moment(self, at: int) -> str:
        return self.clock.text(at)

    def text(self, x: float, y: float, words: str, kind: str = "", anchor: str = "start",
             title: str | None = None) -> None:
        mark = f' class="{kind}"' if kind else ""
        inner = escape(words) + (f"<title>{escape(title)}</title>" if title else "")
        self.parts.append(f'<text x="{x:.1f}" y="{y:.1f}" text-anchor="{anchor}"{mark}>{inner}</text>')

    def bar(self, since: int | None, until: int | None, y: float, height: int, colour: str, title: str) -> None:
        left = self.x(self.first if since is None else since)
        right = self.x(until) if until is not None else WIDTH - RIGHT
        self.parts.append(f'<rect x="{left:.1f}" y="{y:.1f}" width="{max(right - left, 1.0):.1f}" height="{height}" '
                          f'fill="{COLOURS[colour]}"><title>{escape(title)}</title></rect>')

    def shape(self, points: list[tuple[float, float]], colour: str, title: str) -> None:
        listed = " ".join(f"{x:.1f},{y:.1f}" for x, y in points)
        self.parts.append(f'<polygon points="{listed}" fill="{colour}" stroke="#ffffff" stroke-width="0.8">'
                          f"<title>{escape(title)}</title></polygon>")

    def dot(self, x: float, y: float, title: str) -> None:
        self.parts.append(f'<circle cx="{x:.1f}" cy="{y:.1f}" r="4" fill="#ffffff" stroke="{INK}" '
                          f'stroke-width="1.6"><title>{escape(title)}</title></circle>')

    def within(self, x: float, y: float, wait: reasons.Wait, is_dark: bool) -> None:
        """Why a container waits, written into its lane."""
        title = f"waits: {wait.words()}, {self.span_words(wait)}"
        self.parts.append(f'<text x="{x:.1f}" y="{y:.1f}" style="font-size:10px;fill:{"#ffffff" if is_dark else INK}">'
                          f"{escape(wait.reason)}<title>{escape(title)}</title></text>")

    def line(self, x: float, y: float, to_x: float, to_y: float, kind: str) -> None:
        self.parts.append(f'<line x1="{x:.1f}" y1="{y:.1f}" x2="{to_x:.1f}" y2="{to_y:.1f}" class="{kind}"/>')

    def span_words(self, span: reports.Span | made.State | reasons.Wait) -> str:
        until = "the end" if span.until is None else self.moment(span.until)
        return f"{self.moment(self.first if span.since is None else span.since)} to {until}"


def width_of(name: str) -> float:
    """About how many pixels a name takes."""
    return sum(11 if letter in "mw" else 7.6 for letter in name)


def short(name: str, widest: float = WIDEST_LABEL) -> str:
    if width_of(name) <= widest:
        return name
    kept = len(name)
    while width_of(name[:kept]) > widest - 12:
        kept -= 1
    return name[:kept] + "…"


def label(picture: Picture, y: float, name: str, kind: str = "") -> None:
    picture.text(picture.left - 10, y, short(name), kind, "end", name if short(name) != name else None)


def axis(picture: Picture, last: int, bottom: float) -> None:
    """Lines and moments at round steps, at most nine of them; the axis is above what is drawn over it. A tall
    picture has the moments below and above."""
    steps = CLOCK_STEPS if picture.clock is not clocks.Clock.SECONDS and last <= reports.LAST_DATE else PLAIN_STEPS
    step = next(step for step in steps if picture.span / step <= 9)
    at = -(-picture.first // step) * step
    is_tall = bottom > TALL
    while picture.x(at) <= WIDTH - RIGHT:
        picture.line(picture.x(at), TOP + 8 * is_tall, picture.x(at), bottom, "grid")
        shown = picture.moment(at)
        if steps is CLOCK_STEPS:
            shown = shown[5:10] if step >= 86400 else shown[11:19] if step < 60 else shown[11:16]
        for y in (TOP + 4, bottom + 15)[not is_tall :]:
            picture.text(picture.x(at), y, shown, "small", "middle")
        at += step


def gaps(picture: Picture, report: reports.Report, bottom: float) -> None:
    """A band for each gap, of which nothing was recorded."""
    for since, until in report.gaps:
        title = f"nothing was recorded from {picture.moment(since)} to {picture.moment(until)}"
        left, right = picture.x(since), picture.x(until)
        picture.parts.append(f'<rect x="{left:.1f}" y="{TOP}" width="{max(right - left, 1.0):.1f}" '
                             f'height="{bottom - TOP:.1f}" fill="#eef1f4"><title>{title}</title></rect>')


def kubelet_starts(picture: Picture, trace: traces.Trace | None, bottom: float) -> None:
    """A dashed line where the kubelet was started again."""
    for at in trace.kubelet_starts() if trace else ():
        if at >= picture.first:
            x = picture.x(at)
            picture.parts.append(f'<line x1="{x:.1f}" y1="{TOP}" x2="{x:.1f}" y2="{bottom:.1f}" class="restarted">'
                                 f"<title>{telling.RESTARTED} at {picture.moment(at)}</title></line>")
            picture.text(x + 3, TOP + 9, telling.RESTARTED, "small")


def node_lanes(picture: Picture, report: reports.Report, kubelet: kubelets.Kubelet | None, y: float) -> float:
    """The node's conditions that were ever True, and its evictions; gives the y below them."""
    y = pressure_lanes(picture, report, y)
    if kubelet is not None:
        kubelet_lane(picture, kubelet, y)
        y += LANE
    if report.evictions:
        eviction_lane(picture, report, kubelet is not None, y)
        y += LANE
    return y + GAP


def kubelet_lane(picture: Picture, kubelet: kubelets.Kubelet, y: float) -> None:
    """A cross for each pod that the kubelet evicted, or ended otherwise."""
    label(picture, y + BAR - 2, "by the kubelet" if kubelet.facts else "kubelet: none")
    for fact in kubelet.facts:
        said = [f"{fact.decision.pod}: {kubelets.did_words(fact.decision, picture.moment)}"]
        if fact.decision.kind == "evicted":
            said.append(kubelets.rules_words(fact, picture.moment, kubelet.names))
        cross(picture, picture.x(fact.decision.at), y + BAR / 2, COLOURS["Ended otherwise"], "; ".join(said))


def pressure_lanes(picture: Picture, report: reports.Report, y: float) -> float:
    """A lane for each condition that was ever True, or one that shows that none was; gives the y below them."""
    pressed = [(kind, reports.pressure_spans(report, kind)) for kind in reports.CONDITIONS]
    pressed = [(kind, spans) for kind, spans in pressed if spans]
    if not pressed:
        label(picture, y + BAR - 2, "no pressure", "small")
        y += LANE
    for kind, spans in pressed:
        label(picture, y + BAR - 2, kind)
        for span in spans:
            picture.bar(span.since, span.until, y, BAR, "Pressure", f"{kind}: {picture.span_words(span)}")
        y += LANE
    return y


def eviction_lane(picture: Picture, report: reports.Report, is_beside: bool, y: float) -> None:
    """A cross for each eviction by the rules, a quiet one if the kubelet's evictions are next to it."""
    label(picture, y + BAR - 2, "by the rules" if is_beside else "evictions")
    colour = QUIET if is_beside else COLOURS["Ended otherwise"]
    for eviction in report.evictions:
        named = eviction.pod
        if eviction.number is not None:
            named += reports.number_words(report, report.pods[eviction.number])
        cross(picture, picture.x(eviction.at), y + BAR / 2, colour,
              f"{named} evicted at {picture.moment(eviction.at)} by {eviction.signal} {eviction.kind}")


def cross(picture: Picture, x: float, y: float, colour: str, title: str) -> None:
    arms = [(0, 1.5), (4, 5.5), (5.5, 4), (1.5, 0), (5.5, -4), (4, -5.5), (0, -1.5), (-4, -5.5), (-5.5, -4), (-1.5, 0),
            (-5.5, 4), (-4, 5.5)]
    picture.shape([(x + over, y + down) for over, down in arms], colour, title)


def container_lane(picture: Picture, lane: made.Lane, trace: traces.Trace | None, y: float) -> None:
    """A bar for each state of a container, why it waits, and a mark for each order."""
    label(picture, y + BAR - 2, lane.name)
    for state in lane.states:
        words = f"{lane.name}: {state_words(state, trace)}, {picture.span_words(state)}"
        picture.bar(state.since, state.until, y, BAR, colour_of(state), words)
    for state in lane.states:
        death_text(picture, state, lane.waits, trace, y)
    for wait in lane.waits:
        wait_text(picture, wait, lane.states, y)
    for run in runs_of(picture, lane.orders):
        if len(run) > MOST_MARKS:
            order_strip(picture, run, y)
            continue
        for event in run:
            order_mark(picture, event, y, trace)
            kill_text(picture, event, lane.states, y)


def said_marks(picture: Picture, said: list[Said], y: float) -> None:
    """A mark for each thing that was reported, or one for all that fall on it."""
    runs: list[list[Said]] = []
    for each in said:
        if runs and picture.x(each.at) - picture.x(runs[-1][0].at) < SAID_WIDTH:
            runs[-1].append(each)
        else:
            runs.append([each])
    for run in runs:
        titles = [f"{picture.moment(each.at)} {each.words()}" for each in run[:MOST_SAID]]
        titles += [f"and {len(run) - MOST_SAID} more"] if len(run) > MOST_SAID else []
        said_mark(picture, max(picture.x(run[0].at), picture.left), y, "; ".join(titles))


def said_mark(picture: Picture, x: float, y: float, title: str) -> None:
    picture.parts.append(f'<rect x="{x - SAID_WIDTH / 2:.1f}" y="{y:.1f}" width="{SAID_WIDTH}" height="{SAID_HEIGHT}" '
                         f'fill="{SAID}"><title>{escape(title)}</title></rect>')


def state_words(state: made.State, trace: traces.Trace | None) -> str:
    if state.died is not None:
        died = telling.event_words(state.died, trace=trace)[1]
        return f"attempt {state.attempt} {died.replace('died', 'terminated', 1)}"
    return "waiting" if state.attempt is None else f"attempt {state.attempt} running"


def colour_of(state: made.State) -> str:
    if state.died is None:
        return state.value
    return "Ended with 0" if state.code == 0 else "Ended otherwise"


def death_text(picture: Picture, state: made.State, waits: list[reasons.Wait], trace: traces.Trace | None,
               y: float) -> None:
    """The code of an instance that ended otherwise than with 0, and why, in its bar where there is room in front of why
    the container waits."""
    if state.died is None or state.code == 0 and not state.is_guessed:
        return
    reason = reasons.short_words(state.died, trace)
    begin = picture.x(picture.first if state.since is None else state.since)
    end = picture.x(state.until) if state.until is not None else WIDTH - RIGHT
    end = min([end, *(picture.x(wait.since) for wait in waits if wait.since > (state.since or 0) and
                      picture.x(wait.since) > begin)])
    if 12 + 0.8 * width_of(reason) <= end - begin:
        title = f"{state_words(state, trace)}, {picture.span_words(state)}"
        picture.parts.append(f'<text x="{begin + 6:.1f}" y="{y + BAR - 3:.1f}" style="font-size:10px;fill:#ffffff">'
                             f"{escape(reason)}<title>{escape(title)}</title></text>")


def wait_text(picture: Picture, wait: reasons.Wait, states: list[made.State], y: float) -> None:
    """Why a container waits, in its lane where there is room for it."""
    at = next((state for state in reversed(states) if state.since is not None and state.since <= wait.since), None)
    end = picture.x(wait.until) if wait.until is not None else WIDTH - RIGHT
    if at is not None and 12 + 0.8 * width_of(wait.reason) <= end - picture.x(wait.since):
        picture.within(picture.x(wait.since) + 6, y + BAR - 3, wait, colour_of(at) == "Ended otherwise")


def runs_of(picture: Picture, orders: list[reports.Event]) -> list[list[reports.Event]]:
    """Orders that are near each other, together."""
    runs: list[list[reports.Event]] = []
    for event in orders:
        if runs and picture.x(event.at) - picture.x(runs[-1][-1].at) < DENSE:
            runs[-1].append(event)
        else:
            runs.append([event])
    return runs


def order_strip(picture: Picture, run: list[reports.Event], y: float) -> None:
    """A strip below a lane in place of many marks, which would hide it."""
    kills = sum(event.word == "kill" for event in run)
    counts = [entry.counted(kills, "kill order")] * (kills > 0)
    counts += [entry.counted(len(run) - kills, "restart")] * (len(run) > kills)
    left, right = picture.x(run[0].at) - 2, picture.x(run[-1].at) + 3
    said = f"{run[0].container}: {' and '.join(counts)}, {picture.moment(run[0].at)} to {picture.moment(run[-1].at)}"
    picture.parts.append(f'<rect x="{left:.1f}" y="{y + BAR + 1:.1f}" width="{right - left:.1f}" height="4" '
                         f'fill="{KILL if kills else QUIET}"><title>{escape(said)}</title></rect>')


def order_mark(picture: Picture, event: reports.Event, y: float, trace: traces.Trace | None) -> None:
    """A mark where an event of a container is an order, with what its probe put out, where the trace shows that."""
    x, name = picture.x(event.at), event.container
    if event.word == "kill":
        picture.shape([(x, y + BAR + 1), (x - 5, y - 4), (x + 5, y - 4)], KILL,
                      f"{name}: kill order at {picture.moment(event.at)} ({event.rest[1]})"
                      f"{telling.more_words(event, trace)}")
    elif event.word == "restart":
        picture.dot(x, y + BAR / 2, f"{name}: restart of attempt {event.rest[0]} at {picture.moment(event.at)}")


def kill_text(picture: Picture, event: reports.Event, states: list[made.State], y: float) -> None:
    """The probe of a kill order, to the left of its mark where there is room for it in the bar of the instance."""
    begin = next((picture.x(picture.first if state.since is None else state.since) for state in states
                  if event.word == "kill" and state.died is None and str(state.attempt) == event.rest[0]), None)
    if begin is not None and 16 + 0.8 * width_of(event.rest[1]) <= picture.x(event.at) - begin:
        picture.parts.append(f'<text x="{picture.x(event.at) - 7:.1f}" y="{y + BAR - 3:.1f}" text-anchor="end" '
                             f'style="font-size:10px;fill:#ffffff">{event.rest[1]}</text>')


def ended_words(picture: Picture, pod: reports.Pod, kubelet: kubelets.Kubelet | None,
                trace: traces.Trace | None) -> str:
    """What became of a pod: first what the kubelet did."""
    end, fact = provenance.end_of(trace, pod), kubelet and kubelet.fact(pod.number)
    ended = f"{end[1]} at {picture.moment(end[0])}" if end else pod.phase
    if kubelet is not None and not kubelet.names and end and end[1] == "Evicted":
        ended += " by the rules"
    return f"{fact.decision.kind} by the kubelet at {picture.moment(fact.decision.at)}; {ended}" if fact else ended


def deletion_words(picture: Picture, pod: reports.Pod, trace: traces.Trace | None) -> str:
    """Since when it is being deleted, and by whom."""
    deletion = trace.deletions.get(pod.number) if trace else None
    return "" if deletion is None else f", being deleted{deletion.words()} since {picture.moment(deletion.at)}"


def waiting_words(pod: reports.Pod, trace: traces.Trace | None) -> str:
    """Why its containers still wait at the end."""
    found = trace.reasons.waits_of(pod) if trace else []
    return "".join(f", {name} waits: {wait.reason}" for name, wait in found if wait.until is None)


def pod_lanes(picture: Picture, report: reports.Report, pod: reports.Pod, kubelet: kubelets.Kubelet | None,
              trace: traces.Trace | None, y: float) -> float:
    """A pod's heading, its strip and its containers; gives the y below them."""
    end, until, lanes = reports.end_of(pod), reports.end_of_spans(pod), made.lanes_of(pod, trace)
    ended = ended_words(picture, pod, kubelet, trace) + deletion_words(picture, pod, trace) + waiting_words(pod, trace)
    ended += f", gone before {picture.moment(pod.left)}" if pod.left is not None else ""
    named = pod.key + reports.number_words(report, pod)
    classed = provenance.class_words(trace.pods[pod.number] if trace else None, pod.qos)
    picture.text(14, y + 13, f"{short(named, 800)}: {ended}", "pod",
                 title=f"{named}: {provenance.phase_words(trace, pod)}, {classed}")
    y += HEAD
    label(picture, y + STRIP + 1, "Ready", "small")
    for span in lanes.ready:
        if until is not None and span.until is None:
            span.until = max(until, span.since or 0)
        picture.bar(span.since, span.until, y, STRIP, "Ready" if span.value == "True" else "Not ready",
                    f"Ready {span.value}: {picture.span_words(span)}")
    top = y
    said_marks(picture, lanes.said.get(-1, []), y + STRIP + 1)
    y += STRIP + 7
    for place, lane in enumerate(lanes.containers):
        container_lane(picture, lane, trace, y)
        said_marks(picture, lanes.said.get(place, []), y + BAR + 1)
        y += LANE
    if end:
        picture.line(picture.x(end[0]), top - 3, picture.x(end[0]), y - LANE + BAR + 3, "end")
    return y + GAP


def legend(picture: Picture, y: float, is_beside: bool, has_said: bool) -> None:
    """What each colour and each mark means."""
    x = 14
    for words in ("Waiting", "Running", "Ended with 0", "Ended otherwise", "Ready", "Not ready", "Pressure"):
        picture.parts.append(f'<rect x="{x}" y="{y - 10}" width="12" height="12" fill="{COLOURS[words]}"/>')
        picture.text(x + 17, y, words.lower(), "small")
        x += 34 + 7 * len(words)
    picture.dot(x + 5, y - 4, "restart")
    picture.text(x + 15, y, "restart ordered", "small")
    x += 130
    picture.shape([(x, y + 2), (x - 5, y - 11), (x + 5, y - 11)], KILL, "kill order")
    picture.text(x + 10, y, "kill ordered", "small")
    x += 105
    cross(picture, x, y - 4, QUIET if is_beside else COLOURS["Ended otherwise"], "eviction by the rules")
    picture.text(x + 10, y, "evicted by the rules", "small")
    if has_said:
        said_mark(picture, x + 160, y - 6, "reported of it")
        picture.text(x + 168, y, "reported of it", "small")


STYLE = """\
text{font-family:DejaVu Sans,Verdana,sans-serif;font-size:12px;fill:#17212b}
.small{font-size:11px;fill:#5a6775}.pod{font-size:13px;font-weight:bold}.title{font-size:15px;font-weight:bold}
.grid{stroke:#d9dfe6;stroke-width:1}.end{stroke:#17212b;stroke-width:1.6}
.restarted{stroke:#5a6775;stroke-width:1;stroke-dasharray:4 3}"""


def draw(report: reports.Report, pods: list[reports.Pod], clock: clocks.Clock, kubelet: kubelets.Kubelet | None = None,
         trace: traces.Trace | None = None) -> str:
    """The picture of a report, as a text."""
    named = reports.moments(report) + [fact.decision.at for fact in (kubelet.facts if kubelet else ())]
    named += [trace.ticks[-1].at] if trace and trace.ticks else []
    first, last = min(named), max(named)
    if any(reports.first_tick(pod) > 0 for pod in report.pods):
        # a pod without a tick has the moment 0 everywhere
        first = min(at for at in named if at > 0 or any(event.at == 0 for event in report.events))
    names = [container.name for pod in pods for container in pod.containers] + ["MemoryPressure"]
    left = 30 + max(width_of(short(name)) for name in names)
    picture = Picture(first, last, left, clock)
    # lines of the axis lie under all else, and their length is known last
    body = Picture(first, last, left, clock)
    y = node_lanes(body, report, kubelet, TOP + 12)
    for pod in pods:
        y = pod_lanes(body, report, pod, kubelet, trace, y)
    gaps(picture, report, y - 4)
    kubelet_starts(picture, trace, y - 4)
    axis(picture, last, y - 4)
    picture.parts += body.parts
    span = f"{picture.moment(first)} to {picture.moment(last)}" + ("" if clock is not clocks.Clock.SECONDS else " s")
    picture.text(14, 22, f"{short(report.node, 600)}, {span}", "title")
    legend(picture, y + 38, kubelet is not None, trace is not None and any(trace.said.of(pod.number) for pod in pods))
    height = y + 52
    head = (f'<svg xmlns="http://www.w3.org/2000/svg" width="{WIDTH}" height="{height}" '
            f'viewBox="0 0 {WIDTH} {height}">')
    ground = f'<rect width="{WIDTH}" height="{height}" fill="#ffffff"/>'
    return "\n".join([head, f"<style>{STYLE}</style>", ground, *picture.parts, "</svg>"]) + "\n"
