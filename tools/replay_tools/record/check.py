"""What --check prints: whether each source works, and what to do about one that does not."""

from __future__ import annotations

from collections.abc import Callable
from typing import Any, TYPE_CHECKING

from .events import ready_in, said_in
from .formats import shown
from .kubelet_start import PATH as START_PATH, REMAINS, asked as start_asked
from .node import node_line_of
from .observer import EVENTS, NODE
from .pods import pods_of
from .probes import counters_of
from .runtime import inspected_of, instances_of
from .sources import Failed, Refused
from .summary import Summary, summary_of
from .throttled import LEFT_OUT, PATH, Absent, asked

if TYPE_CHECKING:
    from .lines import Format
    from .sources import Sources

PROXY = "it needs the permission to get nodes/proxy, and the node's name in the cluster as --node"
PORT = "it is at the kubelet's port 10250, and needs the permission to get nodes/{what}"
# rights of their own that a kubelet has for what nodes/proxy opens too
FINER = ("pods", "configz")
BEFORE = ", which a kubelet knows from Kubernetes 1.33 on; before it nodes/proxy (deploy/rights-before-1.33.yaml)"
# it needs nodes/proxy in each version, and names no container, so that whoever may ask finds nothing
OF_PROXY = "containerLogs/"
MAY = ("{who} may get nodes/proxy: whoever has it starts commands in each container of the nodes for which it may; "
       "from Kubernetes 1.33 on nodes/pods and nodes/configz do in its place (deploy/daemonset.yaml)")
MAY_NOT = "{who} may not get nodes/proxy, so it starts no command in a container"
DO = "; the rights of deploy/daemonset.yaml do here"


class NotAsked(Exception):
    """A source that can't be asked; its text shows why."""


class Without(Exception):
    """A source without which all else is recorded; its text shows why it does not work."""


def counted(count: int, what: str) -> str:
    return f"{count} {what}{'' if count == 1 else 's'}"


def wish(sources: Sources, what: str) -> str:
    """What a source at the kubelet needs."""
    return PROXY if sources.kubelet is None else PORT.replace("{what}", what) + (BEFORE if what in FINER else "")


def runtime_checks(sources: Sources) -> list[tuple[str, Callable[..., Any], str]]:
    """What asks the runtime: its list, and then the newest container of it."""
    wanted = "it needs root, on the node, and the runtime's socket (crictl --runtime-endpoint, /etc/crictl.yaml)"
    listed = []

    def list_them() -> str:
        listed.extend(instances_of(sources.listed()))
        return counted(len(listed), "container")

    def inspect_one() -> str:
        if not listed:
            raise NotAsked("there is no container to ask for")
        newest = listed[-1]
        started = inspected_of(sources.inspected(newest.id), newest).started
        return f"{newest.container} " + ("has not started" if started is None else f"started at {int(started)}")

    return [("crictl ps", list_them, wanted), ("crictl inspect", inspect_one, wanted)]


def node_checks(sources: Sources, node: str, trace_format: Format) -> list[tuple[str, Callable[..., Any], str]]:
    """What asks the kubelet for the node line, which takes the capacities from the summary."""
    summaries = [Summary({}, False, {}, {})]

    def summarize() -> str:
        summaries.append(summary_of(sources.summary()))
        return f"{counted(len(summaries[-1].pods), 'pod')}, signals {' '.join(summaries[-1].signals)}"

    def configure() -> str:
        made = node_line_of(sources.configuration(), node, summaries[-1], trace_format)
        return f"evictionHard {shown(made.fields['evictionHard'])}"

    own = "; the read-only port 10255 does not serve it; --node-line FILE takes its place"
    return [("/stats/summary", summarize, wish(sources, "stats")),
            ("/configz", configure, wish(sources, "configz") + own)]


def start_checks(sources: Sources) -> list[tuple[str, Callable[..., Any], str]]:
    """What asks when the kubelet was started."""
    def ask() -> str:
        try:
            return f"the kubelet was started at {int(start_asked(sources))}"
        except Failed as failed:
            raise Without(f"{failed}; {wish(sources, 'metrics')}; {REMAINS}") from None

    return [(f"/{START_PATH}", ask, "")]


def throttled_checks(sources: Sources, is_asked: bool) -> list[tuple[str, Callable[..., Any], str]]:
    """What asks for how long processors were throttled."""
    def ask() -> str:
        if not is_asked:
            raise NotAsked(f"{LEFT_OUT}, as --throttled yes does not")
        try:
            return f"{counted(len(asked(sources)), 'container')} whose processor has a limit"
        except Absent as absent:
            raise Without(f"{absent}, as where no container that runs has a limit of its processor") from None
        except Failed as failed:
            raise Without(f"{failed}; {wish(sources, 'metrics')}; {LEFT_OUT}") from None

    return [(f"/{PATH}", ask, "")]


def api_checks(sources: Sources) -> list[tuple[str, Callable[..., Any], str]]:
    """What asks the API server, where --events names it."""
    def listed() -> str:
        said_in(sources.events("default", "none"), EVENTS)
        return "they may be listed"

    def read() -> str:
        ready = ready_in(sources.node_object())
        return "no condition Ready" if ready is None else f"Ready is {ready.status}"

    wanted = "; the rights of deploy/rights-events.yaml do"
    return [] if sources.api is None else [
        (EVENTS, listed, f"it needs the permission to list events{wanted}"),
        (NODE, read, f"it needs the permission to get nodes{wanted}")]


def checks_of(sources: Sources, node: str, trace_format: Format,
              asks_throttled: bool) -> list[tuple[str, Callable[..., Any], str]]:
    """Each source with how it is asked and what it needs: (name, ask, wish)."""
    if sources.alone is not None:
        return runtime_checks(sources)
    pods = wish(sources, "pods") if sources.kubelet else "it needs the permission to list pods of all namespaces"
    return [*runtime_checks(sources),
            (sources.pods_name(), lambda: counted(len(pods_of(sources.pods(), sources.pods_name())), "pod"), pods),
            ("/metrics/probes", lambda: f"{counted(len(counters_of(sources.probes())), 'probe')} with results",
             wish(sources, "metrics")),
            *node_checks(sources, node, trace_format), *start_checks(sources),
            *throttled_checks(sources, asks_throttled),
            *api_checks(sources)]


def check(sources: Sources, node: str, trace_format: Format, show: Callable[[str], None],
          asks_throttled: bool = False) -> bool:
    """Asks each source once and shows a line of each; whether all work that are needed."""
    works = True
    for name, ask, wanted in checks_of(sources, node, trace_format, asks_throttled):
        try:
            show(f"works    {name}: {ask()}")
        except NotAsked as reason:
            show(f"unasked  {name}: {reason}")
        except Without as reason:
            show(f"without  {reason}")
        except Failed as failed:
            works = False
            show(f"missing  {failed}; {wanted}")
    show_rights(sources, works, show)
    return works


def show_rights(sources: Sources, works: bool, show: Callable[[str], None]) -> None:
    """Shows whether the token or certificate may do more at the kubelet than is needed, where that can be known."""
    if sources.kubelet is None or sources.keeps is None or not sources.kubelet.startswith("https:"):
        return
    try:
        sources.keeps.endpoint(OF_PROXY)
    except Refused as refused:
        who = "the certificate" if sources.keeps.has_certificate() else "the token"
        said = {403: MAY_NOT + (DO if works else ""), 404: MAY}.get(refused.status)
        if said is not None:
            show(f"rights   {said.format(who=who)}")
    except Failed:
        # why is reported of the others
        pass
