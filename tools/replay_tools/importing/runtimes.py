"""Lines of a runtime's journal, of containerd and CRI-O: which containers it made, for which pods, and how they ended;
and of the kernel: whose process it killed for memory. containerd's from 1.7 on, CRI-O's and the kernel's are written
from knowledge."""

from __future__ import annotations

import re
from collections.abc import Iterator

from replay_tools import outside

from . import facts
from .journals import Line
from .moments import moment_of_iso
from .references import id_of, key_of
from .units import MONITOR, RUNTIMES, is_runtime

ID = r"([0-9a-f]{12,64})"
SANDBOX = re.compile(
    r"RunPodSandbox for (?:&PodSandboxMetadata\{Name:([^,]*),Uid:([^,]*),Namespace:([^,]*),Attempt:\d+,\}|"
    rf'name:"([^"]*)" +uid:"([^"]*)" +namespace:"([^"]*)"(?: +attempt:\d+)?) returns sandbox id "{ID}')
MADE = re.compile(rf'CreateContainer within sandbox "{ID}" for (?:name:"([^"]*)"(?: +attempt:(\d+))?|'
                  rf'&ContainerMetadata\{{Name:([^,]*),Attempt:(\d+),\}}) returns container id "{ID}')
STARTS = re.compile(rf'StartContainer for "{ID}" returns successfully')
STOPS = re.compile(rf'StopContainer for "{ID}" returns successfully')
ORDERED = re.compile(rf'StopContainer for "{ID}" with timeout (\d{{1,9}}) \(s\)')
# from 2.1 on the exits of containers and of sandboxes have words of their own
EXIT = re.compile(r"(?:TaskExit event|received (?:container |sandbox |sandbox container )?exit event)")
EXIT_ID = re.compile(rf'(?:ContainerID:|container_id:"|(sandbox_id):"){ID}')
# all that a containerd up to 1.7 writes of an exit that nobody ordered, some hundredths of a second after it
SHIM = re.compile(rf'shim disconnected"? id={ID}')
OTHER_ID = re.compile(r'(?:[{,]ID:|[ {]id:")([\w-]{1,128})')
CODE = re.compile(r"(?:ExitStatus:|exit_status:)(\d{1,10})")
EXITED = re.compile(r"ExitedAt:(\d{4}-\d\d-\d\d \d\d:\d\d:\d\d(?:\.\d+)?) \+0000 UTC"
                    r"|seconds:(\d{1,12})(?: nanos:(\d{1,9}))?")
OOM = re.compile(rf'TaskOOM event.{{0,200}}?(?:ContainerID:|container_id:"){ID}')
STAMP = re.compile(rb'time="([^"]{10,40})"')
# CRI-O
CRIO_MADE = re.compile(rf"(?:Created|Started) container\"? (?:PID=\d+ )?(?:{ID}: |containerID={ID} description=)"
                       r"([-a-z0-9]+)/([-.a-z0-9]+)/([-a-z0-9]+)")
CRIO_SANDBOX = re.compile(rf"Ran pod sandbox {ID} with infra container: ([-a-z0-9]+)/([-.a-z0-9]+)/POD")
CRIO_ENDED = re.compile(rf"(Stopped|Removed) container {ID}: ([-a-z0-9]+)/([-.a-z0-9]+)/([-a-z0-9]+)")
# its monitor of a container, which has the first 20 digits of the container's id
MONITORED = re.compile(r"conmon ([0-9a-f]{12,64}) <n?\w+>: (?:container \d{1,10} exited with status (\d{1,10})|OOM)")
MONITORED_DIGITS = 20
# the kernel's line of a process that it killed, whose cgroup has the container's id
KERNEL = "kernel"
KILLS, CGROUP = b"oom-kill:constraint=", b"task_memcg="
KILLED = re.compile(rb"[^,\s]{0,1024}?([0-9a-f]{64})")
# what a line of interest has
SIGNS = (b"sandbox", b"ontainer", b"TaskExit", b"exit event", b"TaskOOM", b"shim disconnected")
OF_RUNTIME = RUNTIMES[0]
# what of a runtime's line of JSON is after its message
KEYS = "containerID", "description", "id"
# how a runtime's own line begins if nothing is in front of it
OWN = b'time="'


class Runtime:
    """Reads the lines of a runtime, and remembers whose its sandboxes are."""

    def __init__(self) -> None:
        self.pods: dict[str, facts.Reference] = {}
        # the containers whose exit's line has the code, and those known to have ended
        self.coded: set[str] = set()
        self.ended: set[str] = set()
        # the newest instance of each container that CRI-O made, and the ids by what its monitors have of them
        self.newest: dict[tuple[str, ...], str] = {}
        self.monitored: dict[str, str] = {}

    def facts_of(self, line: Line) -> Iterator[facts.Fact]:
        """What a line reports; nothing of one that is no runtime's, as of what a container has reported to a
        kubelet."""
        moment = line.moment
        if moment is None:
            return
        if line.unit == KERNEL:
            yield from self.killed(moment, line.text)
            return
        if not (is_runtimes(line) and (line.unit == MONITOR or any(sign in line.text for sign in SIGNS))):
            return
        text = line.text.decode("utf-8", "replace").replace('\\"', '"')
        if line.unit == MONITOR:
            yield from self.monitor(moment, text)
            return
        for reader in (self.sandbox, self.made, self.started, self.exited, self.lost, self.stopped, self.out_of_memory,
                       self.ordered, self.crio):
            found = list(reader(moment, text))
            if found:
                yield from found
                return

    def sandbox(self, at: float, text: str) -> Iterator[facts.Fact]:
        found = SANDBOX.search(text)
        if found is not None:
            name, uid, namespace = found.group(1, 2, 3) if found[1] is not None else found.group(4, 5, 6)
            pod = facts.Reference(key_of(namespace, name), uid)
            self.pods[found[7]] = pod
            yield facts.Known(at, found[7], pod, is_sandbox=True)

    def made(self, at: float, text: str) -> Iterator[facts.Fact]:
        found = MADE.search(text)
        if found is None:
            return
        name, attempt = found[2] or found[4] or "", found[3] or found[5] or "0"
        pod = self.pods.get(found[1], facts.Reference())
        if outside.is_label(name):
            self.pods[found[6]] = pod
            yield facts.Known(at, found[6], pod, name, outside.number_of(attempt, 0, outside.MOST_OF_CODE))
            yield facts.Known(at, found[1], pod, is_sandbox=True)

    def started(self, at: float, text: str) -> Iterator[facts.Fact]:
        found = STARTS.search(text)
        if found is not None and found[1] in self.pods:
            yield facts.Turned(at, self.pods[found[1]], found[1], facts.STARTED, True)

    def exited(self, at: float, text: str) -> Iterator[facts.Fact]:
        """An exit of the container itself, and not of what was run in it; it is reported more than once."""
        if EXIT.search(text) is None:
            return
        named, other, code = EXIT_ID.search(text), OTHER_ID.search(text), CODE.search(text)
        if named is None or (other is not None and other[1] != named[2]) or named[2] in self.coded:
            return
        identity = named[2]
        self.coded.add(identity)
        moment, pod = exit_moment(text) or at, self.pods.get(identity, facts.Reference())
        status = outside.number_of(code[1], 0, outside.MOST_OF_CODE) if code is not None else 0
        yield facts.Known(at, identity, pod, finished=moment, code=status, is_sandbox=named[1] is not None)
        yield from self.turned(at, identity)

    def turned(self, at: float, identity: str) -> Iterator[facts.Fact]:
        """A container has ended, which several lines report."""
        if identity not in self.ended:
            self.ended.add(identity)
            yield facts.Turned(at, self.pods.get(identity, facts.Reference()), identity, facts.DIED, True)

    def lost(self, at: float, text: str) -> Iterator[facts.Fact]:
        """A container's shim has ended, and the container with it."""
        found = SHIM.search(text)
        if found is not None:
            yield from self.turned(at, found[1])

    def stopped(self, at: float, text: str) -> Iterator[facts.Fact]:
        """A container that was to end has ended; its code is reported by an exit's line, which a containerd up to 1.7
        has not."""
        found = STOPS.search(text)
        if found is not None:
            yield from self.turned(at, found[1])

    def monitor(self, at: float, text: str) -> Iterator[facts.Fact]:
        """What CRI-O's monitor of a container reports: its exit with the code, or that memory was short."""
        found = MONITORED.search(text)
        identity = None if found is None else self.monitored.get(found[1][:MONITORED_DIGITS])
        if found is None or identity is None:
            return
        pod = self.pods.get(identity, facts.Reference())
        if found[2] is None:
            yield facts.Known(at, identity, pod, reason="OOMKilled")
            return
        self.coded.add(identity)
        yield facts.Known(at, identity, pod, finished=at, code=outside.number_of(found[2], 0, outside.MOST_OF_CODE))
        yield from self.turned(at, identity)

    @staticmethod
    def killed(at: float, line: bytes) -> Iterator[facts.Fact]:
        """The kernel killed a process of a container for memory: the container's own one, or another."""
        begin = line.find(KILLS)
        place = -1 if begin < 0 else line.find(CGROUP, begin)
        found = None if place < 0 else KILLED.match(line, place + len(CGROUP))
        if found is not None:
            yield facts.OutOfMemory(at, found[1].decode())

    def out_of_memory(self, at: float, text: str) -> Iterator[facts.Fact]:
        found = OOM.search(text)
        if found is not None:
            yield facts.Known(at, found[1], self.pods.get(found[1], facts.Reference()), reason="OOMKilled")

    def ordered(self, at: float, text: str) -> Iterator[facts.Fact]:
        """A container is to be stopped, as the kubelet orders it, which it reports itself from -v=2 on."""
        found = ORDERED.search(text)
        if found is not None:
            yield facts.Killing(at, found[1], self.pods.get(found[1], facts.Reference()), grace=int(found[2]))

    def crio(self, at: float, text: str) -> Iterator[facts.Fact]:
        found = CRIO_SANDBOX.search(text)
        if found is not None:
            self.monitored[found[1][:MONITORED_DIGITS]] = found[1]
            yield facts.Known(at, found[1], facts.Reference(key_of(found[2], found[3])), is_sandbox=True)
            return
        found = CRIO_MADE.search(text)
        identity = None if found is None else id_of(found[1] or found[2])
        if found is not None and identity is not None and outside.is_label(found[5]) and found[5] != "POD":
            pod = facts.Reference(key_of(found[3], found[4]))
            self.newest[found.group(3, 4, 5)] = self.monitored[identity[:MONITORED_DIGITS]] = identity
            self.pods[identity] = pod
            yield facts.Known(at, identity, pod, found[5])
            if "Started container" in text:
                yield facts.Turned(at, pod, identity, facts.STARTED, True)
            return
        found = CRIO_ENDED.search(text)
        # one that is removed after the next start ended before that, which this start shows
        if found is not None and outside.is_label(found[5]) and found[2] not in self.ended and (
                found[1] == "Stopped" or self.newest.get(found.group(3, 4, 5)) == found[2]):
            self.ended.add(found[2])
            yield facts.Turned(at, facts.Reference(key_of(found[3], found[4])), found[2], facts.DIED, True)


def is_runtimes(line: Line) -> bool:
    """Whether a line is of a runtime's unit, or, where no unit is known, as a runtime writes it."""
    return is_runtime(line.unit) if line.unit else line.text.startswith(OWN)


def moment_in(text: bytes) -> float | None:
    """The moment that containerd writes into its line, where that is of interest."""
    found = STAMP.search(text) if any(sign in text for sign in SIGNS) else None
    return None if found is None else moment_of_iso(found[1].decode("ascii", "replace"))


def exit_moment(text: str) -> float | None:
    """When a container exited, as the event has it."""
    found = EXITED.search(text)
    if found is None:
        return None
    return moment_of_iso(found[1]) if found[1] else int(found[2]) + int(found[3] or 0) / 1e9
