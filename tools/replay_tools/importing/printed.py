"""Messages of kubelets up to 1.20, which are sentences: each form with the fact that it reports."""

from __future__ import annotations

import json
import re
from collections.abc import Callable, Iterator

from replay_tools import amounts, outside
from replay_tools.signals import SIGNALS

from . import configured, endings, facts, nodes
from .messages import Message
from .references import id_of, placed, placed_in
from .statuses import of_printed, of_status

LOOP = re.compile(r'SyncLoop \((ADD|UPDATE|DELETE|REMOVE), "(\w+)"\): (.*)', re.S)
PLEG = re.compile(r'SyncLoop \(PLEG\): (?:"(?P<pod>[^"]*)", event|ignore irrelevant event): '
                  r'&pleg\.PodLifecycleEvent\{ID:"(?P<uid>[^"]*)", Type:"(?P<type>\w+)", Data:"(?P<id>\w*)"\}')
PROBE = re.compile(r'(Readiness|Liveness|Startup) probe for "([^"]{1,400}\)):([^"]{1,64})" '
                   r"(?:(succeeded)|failed \((\w+)\): ?(.*))", re.S)
KILLING = re.compile(r'Killing container "\w+://(\w+)" with a (\d{1,9}) second grace period')
RESTARTED = re.compile(r'Container "([^"]*)" \(\{"\w+" "(\w+)"\}\) of pod (\S+): (.*)', re.S)
STOPPED = re.compile(r'Container "\w+://(\w+)" exited normally')
WAITS = 'failed to "StartContainer" for "'
WAITING = re.compile(r'failed to "(\w+)" for "([^"]*)" with (\w+): "((?:[^"\\]|\\.)*)"')
HOOK_REASON, HOOK_EVENT, MOUNT_EVENT = "PostStartHookError", "FailedPostStartHook", "FailedMount"
HOOK = re.compile(r'failed to "StartContainer" for "([^"]*)" with PostStartHookError: (.*)', re.S)
HOOK_SAYS = re.compile(r'"((?:[^"\\]|\\.)*)"')
UNABLE = re.compile(r'(Unable to (?:attach or )?mount volumes) for pod "([^"]*)": (.*?)(?:; skipping pod)?$', re.S)
MOUNT = re.compile(r'([\w.]{1,64} failed for volume "[^"]*") \(UniqueName: "[^"]*"\) pod "[^"]*" '
                   r'\(UID: "([-0-9A-Za-z]{1,64})"\) ?: (.*)', re.S)
MADE = re.compile(r"container: ([a-z0-9][-a-z0-9]{0,62})/([-.a-z0-9]{1,253})/([a-z0-9][-a-z0-9]{0,62}) podIPs: ")
PATCH = re.compile(r'Patch status for pod "([^"]*)" with (?=")')
OBSERVED = re.compile(r"observations: signal=([\w.]+), available: ([^,\s]+), capacity: ([^,\s]+)")
BELOW = re.compile(r"thresholds - [a-z ]{1,60}: threshold \[signal=([\w.]+), quantity=(\S+)\] observed (\S+)")
PRESSURE = re.compile(r"node conditions - (observed|transition period not met): (\[[A-Za-z ]{0,200}\])")
NOT_YET_MET, UNRECLAIMED = "eviction criteria not yet met", "reclaim not satisfied"
RESOURCE = re.compile(r"attempting to reclaim ([-\w]+)")
# a kubelet that could not stop a pod's containers in time has evicted it all the same
EVICTED = "is evicted successfully", " failed to evict ", " evicted, waiting for pod to be cleaned up"
REFUSED = re.compile(r"Failed to admit pod (\S+) - node has conditions: \[([A-Za-z, ]{0,200})\]")
SANDBOX = re.compile(r'Created PodSandbox "(\w+)" for pod "([^"]*)"')
READINESS = re.compile(r'Container (?:readiness|startup) unchanged \(\w+\): "([^"]*)" - "\w+://(\w+)"')
NODE = re.compile(r'FLAG: --hostname-override="([^"]+)"'
                  r"|(?:Attempting to register|Successfully registered) node ([-.a-z0-9]+)")
NAMED = re.compile(r'(?:killContainer|failed to remove pod init container) "([^"]*)".{0,300}?'
                   r'(?:\{"\w+" |container )"([0-9a-f]{12,64})"')
DECODER = json.JSONDecoder()
# what a patch has if it shows something of instances, or of the pod
SIGNS = "containerID", "Ready", '"reason'
# what is a sentence in JSON too
FLAG, OPERATION = "FLAG: ", "Operation for "
SENTENCES = FLAG, OPERATION
TYPES = {"ContainerStarted": facts.STARTED, "ContainerDied": facts.DIED}
WHERE = {"ADD": facts.Added, "DELETE": facts.Deleted, "REMOVE": facts.Removed}
UPDATE = "UPDATE"


def of_loop(message: Message) -> Iterator[facts.Fact]:
    found = LOOP.match(message.text)
    if found is not None:
        for pod in placed(found[3]):
            is_update = found[1] == UPDATE
            yield facts.Updated(message.at, pod) if is_update else WHERE[found[1]](message.at, pod, found[2])
        return
    found = PLEG.match(message.text)
    named, uid, what, identity = ("",) * 4 if found is None else found.group("pod", "uid", "type", "id")
    if what in TYPES and id_of(identity) is not None:
        yield facts.Turned(message.at, placed_in(named or "") or facts.Reference(None, uid), identity, TYPES[what])


def of_probe(message: Message) -> Iterator[facts.Fact]:
    found = PROBE.match(message.text)
    pod = None if found is None else placed_in(found[2])
    # a probe that errored shows nothing of the container, and is no result
    if found is not None and pod is not None and outside.is_label(found[3]) and (found[4] or found[5] == "failure"):
        yield facts.Probed(message.at, pod, found[3], found[1].lower(), "success" if found[4] else "failure",
                           found[6] or "")


def of_killing(message: Message) -> Iterator[facts.Fact]:
    found = KILLING.match(message.text)
    if found is not None and id_of(found[1]) is not None:
        yield facts.Killing(message.at, found[1], grace=int(found[2]))


def of_container(message: Message) -> Iterator[facts.Fact]:
    found = RESTARTED.match(message.text)
    if found is not None and id_of(found[2]) is not None and outside.is_label(found[1]):
        pod = placed_in(found[3]) or facts.Reference()
        yield facts.Known(message.at, found[2], pod, found[1])
        yield facts.Killing(message.at, found[2], pod, found[1], why=found[4])
    found = STOPPED.match(message.text)
    if found is not None and id_of(found[1]) is not None:
        yield facts.Turned(message.at, facts.Reference(), found[1], facts.DIED)
    found = READINESS.match(message.text)
    named = None if found is None else placed_in(found[1])
    if found is not None and named is not None and id_of(found[2]) is not None:
        yield facts.Known(message.at, found[2], named)


def of_made(message: Message) -> Iterator[facts.Fact]:
    found = MADE.match(message.text)
    if found is not None and outside.is_name(found[2]):
        yield facts.Created(message.at, facts.Reference(f"{found[1]}/{found[2]}"), found[3])


def of_error(message: Message) -> Iterator[facts.Fact]:
    if WAITS in message.text:
        yield from waits_in(message.at, placed_in(message.text), message.text)


def waits_in(at: float, pod: facts.Reference | None, text: str) -> Iterator[facts.Fact]:
    """The containers that an error of a pod's sync names, and why they wait."""
    for verb, container, reason, said in WAITING.findall(text):
        if pod is not None and verb == "StartContainer" and outside.is_label(container):
            yield facts.Waits(at, pod, container, reason, said.replace('\\"', '"'))
    found = HOOK.search(text) if pod is not None and HOOK_REASON in text else None
    if pod is not None and found is not None and outside.is_label(found[1]):
        quoted = HOOK_SAYS.search(found[2])
        message = (found[2] if quoted is None else quoted[1]).replace('\\"', '"')
        if quoted is None or quoted.start() > 0:
            yield facts.Waits(at, pod, found[1], HOOK_REASON, message)
        yield facts.Happened(at, pod, HOOK_EVENT, message, container=found[1], is_line=True)


def of_volumes(message: Message) -> Iterator[facts.Fact]:
    """A pod's volumes can't be mounted in time."""
    found = UNABLE.match(message.text)
    pod = None if found is None else placed_in(found[2])
    if found is not None and pod is not None:
        yield facts.Happened(message.at, pod, MOUNT_EVENT, f"{found[1]}: {found[3]}", is_line=True)


def of_operation(message: Message) -> Iterator[facts.Fact]:
    """A volume can't be mounted: the message as the Event has it, of a pod that is known by its uid."""
    found = MOUNT.search(message.text.replace('\\"', '"')) if " failed for volume " in message.text else None
    if found is not None:
        yield facts.Happened(message.at, facts.Reference(None, found[2]), MOUNT_EVENT,
                             f"{found[1]} : {found[3]}".rstrip('"\n'), is_line=True)


def of_pod(message: Message) -> Iterator[facts.Fact]:
    if "ExitCode:" in message.text:
        yield from of_printed(message.at, placed_in(message.text) or facts.Reference(), message.text)


def of_patch(message: Message) -> Iterator[facts.Fact]:
    found = PATCH.match(message.text) if any(sign in message.text for sign in SIGNS) else None
    pod = None if found is None else placed_in(found[1])
    if found is None or pod is None:
        return
    status = patched(value_at(message.text, found.end()))
    yield from of_status(message.at, pod, status)
    yield from endings.of_conditions(message.at, pod, status)


def value_at(text: str, place: int) -> object:
    """The JSON value that begins at a place; None where none does."""
    try:
        return DECODER.raw_decode(text, place)[0]
    except (ValueError, RecursionError):
        return None


def patched(text: object) -> object:
    """The status of a patch, which is JSON in a text."""
    patch = outside.json_of(text) if isinstance(text, str) else text
    return patch.get("status") if isinstance(patch, dict) else None


def of_eviction(message: Message) -> Iterator[facts.Fact]:
    text = message.text
    if (found := OBSERVED.search(text)) is not None:
        yield facts.Observed(message.at, found[1], amount(found[2]), amount(found[3]))
    elif (found := BELOW.search(text)) is not None:
        yield from below(message.at, found[1], found[2], found[3], UNRECLAIMED in text)
    elif (found := PRESSURE.search(text)) is not None:
        yield facts.Pressure(message.at, configured.conditions_of(found[2]), found[1] == "observed")
    elif NOT_YET_MET in text:
        yield from configured.soft_of(message.at, text)
    elif (found := RESOURCE.search(text)) is not None:
        yield facts.Reclaims(message.at, found[1])
    elif "synchronize housekeeping" in text:
        yield facts.Observed(message.at)
    elif "pods ranked for eviction:" in text:
        yield facts.Ranked(message.at, tuple(placed(text)))
    elif any(words in text for words in EVICTED):
        yield from (facts.Evicted(message.at, pod) for pod in placed(text))
    elif "successfully cleaned up" in text:
        yield from (facts.Evicted(message.at, pod, True) for pod in placed(text))


def below(at: float, signal: str, limit: str, observed: str, is_unreclaimed: bool) -> Iterator[facts.Fact]:
    """A threshold of a list that a round reports."""
    least, found = amount(limit), amount(observed)
    if signal in SIGNALS and least is not None and found is not None:
        yield facts.Below(at, signal, least, found, is_unreclaimed)


def of_configuration(message: Message) -> Iterator[facts.Fact]:
    if message.text.startswith("Creating Container Manager object"):
        yield from configured.hard_of(message.at, message.text)


def amount(text: str) -> int | None:
    """A quantity in whole units; None where it is none."""
    try:
        return amounts.quantity(text) // 1000
    except (ValueError, TypeError):
        return None


def of_refusal(message: Message) -> Iterator[facts.Fact]:
    found = REFUSED.match(message.text)
    pod = None if found is None else placed_in(found[1])
    if found is not None and pod is not None:
        yield facts.Refused(message.at, pod, found[2])
    else:
        yield from endings.of_admission(message)


def of_sandbox(message: Message) -> Iterator[facts.Fact]:
    found = SANDBOX.match(message.text)
    if found is not None and id_of(found[1]) is not None:
        yield facts.Known(message.at, found[1], placed_in(found[2]) or facts.Reference(), is_sandbox=True)


def of_flag(message: Message) -> Iterator[facts.Fact]:
    yield from of_node(message)
    yield from configured.flag_of(message.at, message.text)


def of_node(message: Message) -> Iterator[facts.Fact]:
    found = NODE.match(message.text)
    name = None if found is None else found[1] or found[2]
    if name is not None and outside.is_name(name):
        yield facts.NodeName(message.at, name)


def of_named(message: Message) -> Iterator[facts.Fact]:
    """An error that has both the name of a container and an id."""
    found = NAMED.match(message.text)
    if found is not None and outside.is_label(found[1]) and id_of(found[2]) is not None:
        yield facts.Known(message.at, found[2], placed_in(message.text) or facts.Reference(), found[1])


def of_started(message: Message) -> Iterator[facts.Fact]:
    if message.text.startswith("Started kubelet"):
        yield facts.Begun(message.at)


# by the first word of a message
FORMS: dict[str, Callable[[Message], Iterator[facts.Fact]]] = {
    "SyncLoop": of_loop, "Readiness": of_probe, "Liveness": of_probe, "Startup": of_probe, "Killing": of_killing,
    "Container": of_container, "container:": of_made, "Error": of_error, "Pod": of_pod, "Status": of_pod,
    "Ignoring": of_pod, "Patch": of_patch, "eviction": of_eviction, "Failed": of_refusal, "Created": of_sandbox,
    "FLAG:": of_flag, "Creating": of_configuration, "Attempting": of_node, "Successfully": of_node,
    "Started": of_started, "killContainer": of_named, "failed": of_named,
    "Unable": of_volumes, "Operation": of_operation, "Got": nodes.of_kill, "Node": nodes.of_condition,
    "skipping": nodes.of_skipped, "Recording": nodes.of_recorded, "Shutdown": nodes.of_shutdown}


def add_forms(others: dict[str, Callable[[Message], Iterator[facts.Fact]]]) -> None:
    """Adds forms of messages; where one of that first word is there already, a message may be of both."""
    for word, form in others.items():
        FORMS[word] = form if word not in FORMS else both(FORMS[word], form)


def both(one: Callable[[Message], Iterator[facts.Fact]], other: Callable[[Message], Iterator[facts.Fact]]) -> Callable[
        [Message], Iterator[facts.Fact]]:
    def of_both(message: Message) -> Iterator[facts.Fact]:
        yield from one(message)
        yield from other(message)
    return of_both


add_forms(endings.PRINTED)
