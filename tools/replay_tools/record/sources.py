"""What is asked of a node, each with a time-out: commands, or a connection that is kept. An answer is a text; one that
does not come is Failed."""

from __future__ import annotations

import functools
import os
import selectors
import signal
import subprocess
import threading
import time
from collections.abc import Callable
from dataclasses import dataclass
from typing import Any, Optional, Protocol, TYPE_CHECKING

from replay_tools import outside

if TYPE_CHECKING:
    from .alone import RuntimeAlone
    from .answers import Answer

RUNTIME_SECONDS = 10
ENDPOINT_SECONDS = 10
# the longest answer that is read
MOST_BYTES = 32 << 20
PART_BYTES = 1 << 16
# what is kept of what a command shows on standard error
MOST_SAID = 1 << 12
MOST_SHOWN = 300


# what the recorder is ended by, of which no other thread hears
INTERRUPTS = (signal.SIGINT, signal.SIGTERM, signal.SIGHUP)
# the value of --events if kubectl asks the API server
KUBECTL = "kubectl"
PACKAGE = os.path.dirname(os.path.dirname(os.path.realpath(__file__)))


class Failed(Exception):
    """A source that gave no answer, or none that can be read; its text shows which source, and why."""


class Refused(Failed):
    """An answer of a server with another status than 200."""

    def __init__(self, status: int, text: str) -> None:
        super().__init__(text)
        self.status = status


def too_long(most: int = MOST_BYTES) -> Failed:
    return Failed(f"answered with more than {most >> 20} MiB, the most that is read")


class Whole:
    """A whole answer, as long as one may be."""

    def __init__(self) -> None:
        self.body = bytearray()

    def take(self, part: bytes) -> None:
        self.body += part
        if len(self.body) > MOST_BYTES:
            raise too_long()


def shown_line(text: str) -> str:
    """The first line of what another program prints, as a terminal only shows it, and not too long."""
    return outside.visible(text.split("\n", 1)[0].rstrip()[:MOST_SHOWN])


def run_command(words: list[str], seconds: float) -> bytearray:
    """What a command writes on standard output; Failed where it fails, takes longer than this many seconds, or writes
    more than is read."""
    whole = Whole()
    read_command(words, seconds, whole.take)
    return whole.body


def read_command(words: list[str], seconds: float, take: Callable[[bytes], None]) -> None:
    """Gives what a command writes on standard output to `take`, part by part; Failed where it fails, or takes longer
    than this many seconds."""
    try:
        process = subprocess.Popen(words, stdin=subprocess.DEVNULL, stdout=subprocess.PIPE, stderr=subprocess.PIPE)
    except FileNotFoundError:
        raise Failed(f"can't be asked: {words[0]} is not on the PATH") from None
    except OSError as error:
        raise Failed(f"can't be started: {error.strerror}") from None
    until = time.monotonic() + seconds
    with process:
        try:
            said = read_outputs(process, until, take)
            status = process.wait(max(until - time.monotonic(), 0))
        except subprocess.TimeoutExpired:
            raise Failed(f"gave no answer within {seconds} s") from None
        finally:
            process.kill()
    if status != 0:
        raise Failed(f"failed with status {status}: {shown_line(said.decode('utf-8', 'replace'))}")


def read_outputs(process: subprocess.Popen[bytes], until: float, take: Callable[[bytes], None]) -> bytearray:
    """Gives what a command writes on standard output to `take`; the begin of what it writes on standard error."""
    said = bytearray()
    with selectors.DefaultSelector() as open_ones:
        for pipe, taken in ((process.stdout, take), (process.stderr, said.extend)):
            if pipe is not None:
                open_ones.register(pipe, selectors.EVENT_READ, taken)
        while open_ones.get_map():
            left = until - time.monotonic()
            if left <= 0:
                raise subprocess.TimeoutExpired(process.args, 0)
            for key, _ in open_ones.select(left):
                part = os.read(key.fd, PART_BYTES)
                key.data(part)
                if not part:
                    open_ones.unregister(key.fileobj)
            del said[MOST_SAID:]
    return said


def in_a_thread(work: Callable[[], None]) -> None:
    """Begins some work next to what goes on; Failed where it can't be begun. It hears no interrupt."""
    before = signal.pthread_sigmask(signal.SIG_BLOCK, INTERRUPTS)
    try:
        threading.Thread(target=work, daemon=True).start()
    except RuntimeError:
        raise Failed("can't be asked: there is no room for a thread") from None
    finally:
        signal.pthread_sigmask(signal.SIG_SETMASK, before)


def reads(what: str) -> Callable[..., Any]:
    """Marks what reads an answer: one that has another shape than it reads is Failed."""
    def marked(read: Callable[..., Any]) -> Callable[..., Any]:
        @functools.wraps(read)
        def checked(*given: Any) -> Any:
            try:
                return read(*given)
            except (ValueError, TypeError, KeyError, AttributeError, OverflowError) as fault:
                raise Failed(f"{what}: the answer has another shape than is read ({place_of(fault)})") from None
        return checked
    return marked


def place_of(fault: BaseException) -> str:
    """Which fault it is, and where in these tools it came up, so that one of the tools themselves is found. The fault's
    own text may have words of the answer, which are reported to nobody."""
    place, step = "", fault.__traceback__
    while step is not None:
        path = step.tb_frame.f_code.co_filename
        place = f", {os.path.basename(path)}:{step.tb_lineno}" if path.startswith(PACKAGE) else place
        step = step.tb_next
    return type(fault).__name__ + place


class Connection(Protocol):
    """What is asked by a connection that is kept."""

    def endpoint(self, path: str) -> Answer:
        """An answer; Failed where none comes."""

    def close(self) -> None:
        """It is asked no more."""


class KubeletConnection(Connection, Protocol):
    """A kubelet that is asked so."""

    def pods(self) -> Answer:
        """Its pods."""

    def read(self, path: str, take: Callable[[bytes], None]) -> None:
        """Gives an answer to `take`, part by part, by a connection of its own."""

    def works(self) -> bool:
        """Whether it is asked, and not by a command for each answer."""

    def has_certificate(self) -> bool:
        """Whether it is asked with a certificate of the recorder's."""


@dataclass(frozen=True)
class Sources:
    """The sources of one node: its runtime by crictl, its kubelet by a connection that is kept, or by kubectl or, at an
    address, by curl."""
    node: str
    kubelet: Optional[str] = None
    curl_file: Optional[str] = None
    run: Callable[[list[str], float], Answer] = run_command
    read: Callable[[list[str], float, Callable[[bytes], None]], None] = read_command
    # begins what is asked in parallel with the polls
    beside: Callable[[Callable[[], None]], None] = in_a_thread
    keeps: Optional[KubeletConnection] = None
    crictl: tuple[str, ...] = ("crictl",)
    # in place of a kubelet, where none is asked
    alone: Optional[RuntimeAlone] = None
    # the API server, which is asked for Events: a connection that is kept, or by kubectl; None where it is not asked
    api: Optional[Connection] = None

    def commands(self) -> list[str]:
        """The commands that are needed on the PATH."""
        if self.kubelet is None:
            return [self.crictl[0], "kubectl"]
        return [self.crictl[0]] if self.keeps or self.alone else [self.crictl[0], "curl"]

    def close(self) -> None:
        for kept in (self.keeps, self.api):
            if kept is not None:
                kept.close()

    def ask(self, what: str, words: list[str], seconds: int) -> Answer:
        return self.answer(what, lambda: self.run(words, seconds))

    @staticmethod
    def answer(what: str, ask: Callable[..., Any]) -> Answer:
        """An answer; where none comes it is reported of what."""
        try:
            return ask()
        except Failed as failed:
            raise Failed(f"{what} {failed}") from None

    def endpoint_words(self, path: str) -> list[str]:
        if self.kubelet is None:
            return ["kubectl", "get", "--raw", f"/api/v1/nodes/{self.node}/proxy/{path}",
                    f"--request-timeout={ENDPOINT_SECONDS}s"]
        settings = ["--config", self.curl_file] if self.curl_file else []
        return ["curl", *settings, "--fail", "--silent", "--show-error", "--max-time", str(ENDPOINT_SECONDS),
                f"{self.kubelet}/{path}"]

    def endpoint(self, path: str) -> Answer:
        if self.alone is not None:
            return self.alone.pods(self.listed()) if path == "pods" else self.alone.answers[path]
        if self.keeps is not None and self.keeps.works():
            return self.answer(f"/{path}", functools.partial(self.keeps.endpoint, path))
        # the command's own time-out comes first, and shows more
        return self.ask(f"/{path}", self.endpoint_words(path), ENDPOINT_SECONDS + 5)

    def stream(self, path: str, take: Callable[[bytes], None]) -> None:
        """Gives an answer of the kubelet's to `take`, part by part; Failed where none comes. It may be asked next to
        the other ones."""
        if self.keeps is not None and self.keeps.works():
            self.answer(f"/{path}", functools.partial(self.keeps.read, path, take))
        else:
            self.answer(f"/{path}", lambda: self.read(self.endpoint_words(path), ENDPOINT_SECONDS + 5, take))

    def listed(self) -> Answer:
        return self.ask("crictl ps", [*self.crictl, "ps", "-a", "-o", "json"], RUNTIME_SECONDS)

    def inspected(self, container_id: str) -> Answer:
        return self.ask(f"crictl inspect {container_id}", [*self.crictl, "inspect", "-o", "json", container_id],
                        RUNTIME_SECONDS)

    def logged(self, container_id: str, count: int) -> Answer:
        """The last lines that a container wrote; crictl prints the lines of its standard error on its own."""
        words = [*self.crictl, "logs", "--tail", str(count), container_id]
        return self.ask(f"crictl logs {container_id}", ["sh", "-c", 'exec "$@" 2>&1', "sh", *words], RUNTIME_SECONDS)

    def pods_name(self) -> str:
        if self.alone is not None:
            return "crictl ps: its pods"
        return "/pods" if self.kubelet is not None else "kubectl get pods"

    def pods(self) -> Answer:
        if self.kubelet is not None:
            return self.endpoint("pods")
        if self.keeps is not None and self.keeps.works():
            return self.answer(self.pods_name(), self.keeps.pods)
        words = ["kubectl", "get", "pods", "--all-namespaces", "--field-selector", f"spec.nodeName={self.node}",
                 "-o", "json", f"--request-timeout={ENDPOINT_SECONDS}s"]
        return self.ask(self.pods_name(), words, ENDPOINT_SECONDS + 5)

    def events(self, namespace: str, uid: str) -> Answer:
        """The Events of a pod."""
        path = f"api/v1/namespaces/{namespace}/events?fieldSelector=involvedObject.uid%3D{uid}"
        return self.of_api("the events of pods", path)

    def node_object(self) -> Answer:
        """The node as the API server has it."""
        return self.of_api("the node", f"api/v1/nodes/{self.node}")

    def of_api(self, what: str, path: str) -> Answer:
        if self.api is None:
            raise Failed(f"{what} can't be asked: no API server is named")
        return self.answer(what, functools.partial(self.api.endpoint, path))

    def summary(self) -> Answer:
        return self.endpoint("stats/summary")

    def probes(self) -> Answer:
        return self.endpoint("metrics/probes")

    def configuration(self) -> Answer:
        return self.endpoint("configz")
