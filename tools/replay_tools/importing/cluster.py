"""What a cluster answers of a node without anything installed there: the logs of its kubelet and its runtime, by
NodeLogQuery or as files, its pods, what owns pods, and their Events."""

from __future__ import annotations

import os
import threading
import time
from collections.abc import Iterator
from contextlib import contextmanager
from dataclasses import dataclass, field
from urllib.parse import quote

from replay_tools import entry
from replay_tools.cli.statuses import Status
from replay_tools.cluster import kubectl

MOST_OF_LOG, MOST_OF_LIST = 4 << 30, 1 << 30
STAMP = "%Y-%m-%dT%H:%M:%SZ"
# what is waited for is reported so soon
SAID_AFTER = 3.0
KUBELET, RUNTIMES = "query=kubelet", "query=containerd&query=crio"
# where a system keeps its log in a file, of a node that answers files alone
FILES = "messages", "syslog"
OWNERS = "deployments,replicasets,statefulsets,daemonsets,jobs,cronjobs"
# a list of files, as a node answers that knows no query
LISTING, NO_ENTRIES = b"<", b"-- No entries --"


@dataclass
class Answers:
    """The files of what was answered, by what they are for."""
    journals: list[str] = field(default_factory=list)
    pods: list[str] = field(default_factory=list)
    events: list[str] = field(default_factory=list)


class NoLog(entry.Fault):
    """The cluster does not give the kubelet's log; it shows what to run on the node."""


class Cluster:
    """Asks for what concerns a node, and keeps it in a folder. What takes long is reported."""

    def __init__(self, folder: str, node: str, since: float, options: list[str], seconds: float) -> None:
        self.folder = folder
        self.node = node
        self.since = since
        self.options = options
        self.seconds = seconds

    def fetch(self) -> Answers:
        """All that the cluster gives. Raises a fault where that is no log; without the rest it goes on."""
        found = Answers(self.logs())
        of_node = ["--field-selector", f"spec.nodeName={self.node}"]
        for what, kind, paths in ((f"the pods of {self.node}", "pods", found.pods),
                                  ("what owns pods", OWNERS, found.pods),
                                  ("the Events of pods", "events", found.events)):
            chosen = of_node if kind == "pods" else []
            words = ["get", kind, "--all-namespaces", *chosen, "-o", "json"]
            try:
                paths.append(self.kept(kind.partition(",")[0], what, words, MOST_OF_LIST))
            except kubectl.NoAnswer as fault:
                entry.say(f"without {what}: {fault}")
        return found

    # --- logs ---

    def logs(self) -> list[str]:
        """The kubelet's log, and the runtime's where there is one; or a file that has the lines of both."""
        moment = quote(time.strftime(STAMP, time.gmtime(self.since)), safe="")
        try:
            kubelets = self.log("journal", f"the kubelet's log of {self.node}", f"?{KUBELET}&sinceTime={moment}")
        except kubectl.NoAnswer as fault:
            return self.files(f"the cluster gives no log of {self.node}: {fault}")
        if kubelets is None:
            return self.files(f"what the cluster answers is no log of the kubelet of {self.node}")
        try:
            of_runtime = self.log("runtime", f"the runtime's log of {self.node}", f"?{RUNTIMES}&sinceTime={moment}")
        except kubectl.NoAnswer as fault:
            entry.say(f"without the runtime's log of {self.node}: {fault}")
            of_runtime = None
        return [kubelets] if of_runtime is None else [kubelets, of_runtime]

    def files(self, why: str) -> list[str]:
        """The file of the system's log; without one the fault is the query's."""
        for name in FILES:
            try:
                found = self.log(name, f"the file {name} of {self.node}", name)
            except kubectl.NoAnswer:
                continue
            if found is not None:
                entry.say(f"{self.node} answers no query of its log: taken is its file {name}, as a whole")
                return [found]
        raise NoLog(why, Status.FAILED, instead(self.node, self.since))

    def log(self, name: str, what: str, path: str) -> str | None:
        """A log in a file; None where the node has none, or answers with a list of files."""
        kept = self.kept(name, what, ["get", "--raw", f"/api/v1/nodes/{self.node}/proxy/logs/{path}"], MOST_OF_LOG)
        with open(kept, "rb") as file:
            begin = file.read(64).lstrip()
        return None if not begin or begin.startswith((LISTING, NO_ENTRIES)) else kept

    # --- answers ---

    def kept(self, name: str, what: str, words: list[str], most: int) -> str:
        """The file of an answer, which has to begin in time, and to go on."""
        path = os.path.join(self.folder, name)
        with open(path, "wb") as file, self.said_if_slow(what):
            kubectl.answer([*self.options, *words], most, self.seconds, file.write, is_long=True)
        return path

    @contextmanager
    def said_if_slow(self, what: str) -> Iterator[None]:
        said = f"waiting for {what}, up to {self.seconds:g} s without an answer (--timeout)"
        timer = threading.Timer(SAID_AFTER, entry.say, [said])
        timer.daemon = True
        timer.start()
        try:
            yield
        finally:
            timer.cancel()


def instead(node: str, since: float) -> str:
    """What to run where the cluster does not offer the log."""
    minutes = max(round((time.time() - since) / 60), 1)
    return (f"on the node: journalctl -u kubelet --since -{minutes}m -o json; or: kubectl debug node/{node} -it "
            f"--image=IMAGE -- chroot /host journalctl -u kubelet --since -{minutes}m -o json")
