"""Connections that are kept: to a kubelet's port, as a file of curl has it, or to a proxy of kubectl's on a socket in a
folder of its own. So no command is started for an answer but crictl."""

from __future__ import annotations

import ctypes
import http.client
import json
import os
import re
import shutil
import signal
import socket
import ssl
import subprocess
import tempfile
import time
from collections.abc import Callable, Iterator
from contextlib import contextmanager
from dataclasses import dataclass, field
from typing import Any, Optional
from urllib.parse import urlsplit

from .alone import ALONE, RuntimeAlone
from .answers import Answer, decoded
from .sources import ENDPOINT_SECONDS, KUBECTL, PART_BYTES, Failed, Refused, Sources, Whole, shown_line

# what an answer fails with: of the connection, and of an address or a header that can't be sent
FAULTS = (http.client.HTTPException, OSError, ValueError)
LINE = re.compile(r"(?:--)?(?P<name>[a-z-]+)(?:\s*[=:]\s*|\s+|$)(?P<value>.*)|-(?P<letter>[A-Za-z])\s*(?P<rest>.*)")
RESOLVED = re.compile(r"(?P<host>[^:+*]+):(?P<port>[0-9]{1,5}):(?P<address>[0-9.]+|\[[0-9a-fA-F:.]+\])")
LETTERS = {"H": "header", "k": "insecure", "E": "cert", "s": "silent"}
ESCAPES = {"t": "\t", "n": "\n", "r": "\r", "v": "\v"}
DEATH_SIGNAL = 1
UNSAFE = "what {0} has of a token goes to https:// alone, unless it has the line insecure"
INSECURE = re.compile(r"^\s*(?:(?:--)?insecure|-k)\s*$", re.MULTILINE)
NOT_CHECKED = ('; what the kubelet signed itself is checked by its own file, as cacert = "FILE" (CERTIFICATE of the '
               "DaemonSet), or taken unchecked, as insecure")


class NotRead(Exception):
    """A file of curl's settings that has more than is read here; its text shows what."""


@dataclass
class Settings:
    """What a file of curl has of a connection."""
    headers: dict = field(default_factory=dict)
    is_insecure: bool = False
    authority: Optional[str] = None
    certificate: Optional[str] = None
    key: Optional[str] = None
    # the addresses of names, by (name, port)
    addresses: dict = field(default_factory=dict)


def settings_of(text: str) -> Settings:
    """The settings of a file of curl. Raises NotRead if it has others than a token's and certificates'."""
    found = Settings()
    for line in filter(None, map(str.strip, text.split("\n"))):
        parts = LINE.fullmatch(line)
        if line.startswith("#"):
            continue
        if parts is None:
            raise NotRead(f"the line '{line.split()[0]}'")
        name = parts["name"] or LETTERS.get(parts["letter"], f"-{parts['letter']}")
        take(found, name, unquoted(parts["value"] or parts["rest"] or ""))
    return found


def unquoted(value: Any) -> str:
    if not value.startswith('"'):
        return value.split(" ")[0]
    quoted = re.match(r'"((?:[^"\\]|\\.)*)"', value)
    if quoted is None:
        raise NotRead("a text without its end")
    return re.sub(r"\\(.)", lambda escaped: ESCAPES.get(escaped[1], escaped[1]), quoted[1])


def take(settings: Any, name: str, value: Any) -> None:
    """Takes one setting of a file of curl."""
    if name == "header" and ":" in value and not value.startswith("@"):
        header, _, said = value.partition(":")
        settings.headers[header.strip()] = said.strip()
    elif name == "insecure" and not value:
        settings.is_insecure = True
    elif name == "cacert":
        settings.authority = value
    elif name == "cert" and ":" not in value:
        settings.certificate = value
    elif name == "key":
        settings.key = value
    elif name == "resolve" and (resolved := RESOLVED.fullmatch(value)):
        settings.addresses[resolved["host"], int(resolved["port"])] = resolved["address"].strip("[]")
    elif name not in ("silent", "show-error", "fail"):
        raise NotRead(f"'{name}'")


def text_of(curl_file: str | None) -> str:
    """The text of a file of curl; none where there is no file."""
    if curl_file is None:
        return ""
    with open(curl_file, encoding="utf-8") as file:
        return file.read()


def says_insecure(curl_file: str | None) -> bool:
    """Whether a file of curl that is not read here has the line that no certificate is checked."""
    try:
        return INSECURE.search(text_of(curl_file)) is not None
    except (OSError, UnicodeDecodeError):
        return False


class Kept:
    """One connection that is kept from one answer to the next, and opened again where it was closed."""

    def __init__(self, connect: Callable[..., Any]) -> None:
        self.connect = connect
        self.connection: http.client.HTTPConnection | None = None

    def read(self, path: str, headers: dict[str, str], take: Callable[[bytes], None]) -> None:
        """Gives an answer to `take`, part by part, and keeps no connection; Failed where none comes."""
        try:
            self.asked(path, headers, take)
        except FAULTS as error:
            raise self.failed(error) from None
        finally:
            self.close()

    def get(self, path: str, headers: dict[str, str]) -> bytearray:
        """An answer; Failed where none comes."""
        is_kept = self.connection is not None
        try:
            return self.asked(path, headers)
        except FAULTS as error:
            self.close()
            # the other side may have closed what was idle
            if not is_kept or isinstance(error, TimeoutError):
                raise self.failed(error) from None
        try:
            return self.asked(path, headers)
        except FAULTS as error:
            raise self.failed(error) from None

    def failed(self, error: Any) -> Failed:
        self.close()
        if isinstance(error, TimeoutError):
            return Failed(f"gave no answer within {ENDPOINT_SECONDS} s")
        unchecked = getattr(error, "verify_message", None)
        said = unchecked or getattr(error, "strerror", None) or error
        return Failed(f"gave no answer: {said}{NOT_CHECKED if unchecked else ''}")

    def asked(self, path: str, headers: dict[str, str], take: Callable[[bytes], None] | None = None) -> bytearray:
        """The body of an answer, or nothing if `take` gets it. The body of a rejection goes to nobody."""
        until = time.monotonic() + ENDPOINT_SECONDS
        if self.connection is None:
            self.connection = self.connect()
        self.connection.request("GET", path, headers=headers)
        answer, whole = self.connection.getresponse(), Whole()
        try:
            read_body(answer, until, whole.take if take is None or answer.status != 200 else take)
        except Failed:
            self.close()
            raise
        if answer.will_close:
            self.close()
        if answer.status != 200:
            raise Refused(answer.status,
                          f"answered with {answer.status} {shown_line(answer.reason)}: {said_in(whole.body)}")
        return whole.body

    def close(self) -> None:
        if self.connection is not None:
            self.connection.close()
            self.connection = None


def read_body(answer: http.client.HTTPResponse, until: float, take: Callable[[bytes], None]) -> None:
    """Gives the body of an answer to `take`, part by part, as it comes."""
    left = answer.length
    while left != 0 and (part := answer.read1(PART_BYTES if left is None else min(left, PART_BYTES))):
        left = None if left is None else left - len(part)
        take(part)
        if time.monotonic() > until:
            raise TimeoutError
    if left:
        raise ConnectionError("the answer ended before its length")
    answer.close()


def said_in(body: bytearray) -> str:
    """Why an answer is a rejection, in one line: an API server writes an object with a message."""
    text = decoded(body[:PART_BYTES])
    try:
        answer = json.loads(text)
        text = answer["message"] if isinstance(answer, dict) and "message" in answer else text
    except (ValueError, RecursionError):
        pass
    return shown_line(" ".join(str(text).split()))


class AddressedConnection(http.client.HTTPSConnection):
    """A connection to an address, at which a server has to show the certificate of a name."""

    def __init__(self, host: str, port: int, address: str, context: ssl.SSLContext) -> None:
        super().__init__(host, port, timeout=ENDPOINT_SECONDS, context=context)
        self.address = address
        self.checks = context

    def connect(self) -> None:
        plain = socket.create_connection((self.address, self.port), self.timeout)
        self.sock = self.checks.wrap_socket(plain, server_hostname=self.host)


class Kubelet:
    """A kubelet at its URL, with the settings of a file of curl, which is read again where it has changed, as a token
    does. A header, as the one with the token, goes to no server whose certificate was not checked, unless the settings
    allow it. Raises NotRead for settings that it does not know."""

    def __init__(self, url: str, curl_file: str | None) -> None:
        self.url, self.curl_file = urlsplit(url), curl_file
        self.text: str | None = None
        self.kept = Kept(self.connected)
        self.read_settings()

    def read_settings(self) -> None:
        text = text_of(self.curl_file)
        if text != self.text:
            self.settings, self.text = settings_of(text), text
            self.kept.close()

    def connected(self) -> http.client.HTTPConnection:
        host, port = self.url.hostname or "", self.url.port
        if self.url.scheme == "http":
            return http.client.HTTPConnection(host, port or 80, timeout=ENDPOINT_SECONDS)
        context = ssl.create_default_context(cafile=self.settings.authority)
        if self.settings.is_insecure:
            context.check_hostname, context.verify_mode = False, ssl.CERT_NONE
        if self.settings.certificate is not None:
            context.load_cert_chain(self.settings.certificate, self.settings.key)
        address = self.settings.addresses.get((host, port or 443), host)
        return AddressedConnection(host, port or 443, address, context)

    def endpoint(self, path: str) -> bytearray:
        try:
            self.read_settings()
        except (OSError, UnicodeDecodeError) as error:
            raise Failed(f"can't be asked: {self.curl_file} can't be read: {error}") from None
        except NotRead as other:
            raise Failed(f"can't be asked: {self.curl_file} has {other}, which is not read") from None
        return self.kept.get(f"/{path}", self.checked_headers())

    def checked_headers(self) -> dict[str, str]:
        """What is sent; Failed where a token would go to whoever answers."""
        if self.url.scheme == "http" and self.settings.headers and not self.settings.is_insecure:
            raise Failed(f"is not asked: {UNSAFE.format(self.curl_file)}")
        return self.settings.headers

    def read(self, path: str, take: Callable[[bytes], None]) -> None:
        """Gives an answer to `take`, with the settings as they were read last."""
        Kept(self.connected).read(f"/{path}", self.checked_headers(), take)

    def pods(self) -> bytearray:
        return self.endpoint("pods")

    def works(self) -> bool:
        """Whether it is asked."""
        return True

    def has_certificate(self) -> bool:
        return bool(self.settings.certificate)

    def close(self) -> None:
        self.kept.close()


class Unasked:
    """A kubelet that is not asked; why is in place of each answer."""

    def __init__(self, reason: str) -> None:
        self.reason = reason

    def endpoint(self, path: str) -> bytearray:
        raise Failed(f"is not asked: {self.reason}")

    def read(self, path: str, _: Callable[[bytes], None]) -> None:
        self.endpoint(path)

    def pods(self) -> bytearray:
        return self.endpoint("pods")

    def works(self) -> bool:
        return True

    def has_certificate(self) -> bool:
        return False

    def close(self) -> None:
        """Nothing was opened."""


class SocketConnection(http.client.HTTPConnection):
    """A connection to a socket of a folder."""

    def __init__(self, path: str) -> None:
        super().__init__("localhost", timeout=ENDPOINT_SECONDS)
        self.path = path

    def connect(self) -> None:
        self.sock = socket.socket(socket.AF_UNIX, socket.SOCK_STREAM)
        self.sock.settimeout(self.timeout)
        self.sock.connect(self.path)


def dies_with_its_parent() -> None:
    """A recorder that is killed leaves no proxy."""
    try:
        ctypes.CDLL(None).prctl(DEATH_SIGNAL, signal.SIGTERM)
    except (OSError, AttributeError):
        pass


@contextmanager
def interrupts_held_back() -> Iterator[None]:
    """What is started hears no interrupt, and the recorder hears it after the start."""
    before = signal.pthread_sigmask(signal.SIG_BLOCK, [signal.SIGINT])
    try:
        yield
    finally:
        signal.pthread_sigmask(signal.SIG_SETMASK, before)


class Proxy:
    """A `kubectl proxy` of the recorder's own, on a socket in a folder that others can't enter. It is started with the
    first question, and again where it has ended."""

    def __init__(self, node: str, say: Callable[..., None]) -> None:
        self.node = node
        self.say = say
        self.does_start: bool | None = None
        self.folder: str | None = None
        # its socket, of the folder that it was started with last
        self.socket = ""
        self.process: subprocess.Popen[bytes] | None = None
        self.kept = Kept(lambda: SocketConnection(self.socket))

    def start(self) -> None:
        """Starts it; Failed where it does not come up."""
        self.close()
        try:
            self.folder = folder = tempfile.mkdtemp(prefix="record-")
        except OSError as error:
            folder = f"{os.environ.get('TMPDIR') or '/tmp'} (TMPDIR names another folder)"
            raise Failed(f"kubectl proxy can't keep a file in {folder}: {error.strerror}") from None
        self.socket = os.path.join(folder, "proxy")
        words = ["kubectl", "proxy", f"--unix-socket={self.socket}"]
        try:
            # a session of its own, so that an interrupt at the terminal is the recorder's alone, also before that
            with interrupts_held_back():
                self.process = process = subprocess.Popen(words, stdin=subprocess.DEVNULL, stdout=subprocess.DEVNULL,
                                                          stderr=subprocess.PIPE, start_new_session=True,
                                                          preexec_fn=dies_with_its_parent)
            self.wait_for_socket(process)
        except OSError as error:
            self.close()
            raise Failed(f"kubectl proxy can't be started: {error.strerror}") from None
        except Failed:
            self.close()
            raise

    def listens(self) -> bool:
        """Whether it takes a connection: its socket is there some moments before that."""
        with socket.socket(socket.AF_UNIX, socket.SOCK_STREAM) as tried:
            return tried.connect_ex(self.socket) == 0

    def wait_for_socket(self, process: subprocess.Popen[bytes]) -> None:
        until = time.monotonic() + ENDPOINT_SECONDS
        while not self.listens():
            if process.poll() is not None:
                said = b"" if process.stderr is None else process.stderr.read()
                raise Failed(f"kubectl proxy failed with status {process.returncode}: "
                             + said.decode("utf-8", "replace").split("\n")[0])
            if time.monotonic() > until:
                raise Failed(f"kubectl proxy did not start within {ENDPOINT_SECONDS} s")
            time.sleep(0.02)

    def works(self) -> bool:
        """Whether it is asked: not where it did not start at first, which is reported."""
        if self.does_start is None:
            try:
                self.start()
                self.does_start = True
            except Failed as failed:
                self.does_start = False
                self.say(f"{failed}: kubectl is started for each answer")
        return self.does_start

    def has_certificate(self) -> bool:
        """kubectl has its own."""
        return False

    def get(self, path: str) -> bytearray:
        if self.process is None or self.process.poll() is not None:
            try:
                self.start()
            except Failed as failed:
                raise Failed(f"gave no answer: {failed}") from None
        return self.kept.get(path, {})

    def endpoint(self, path: str) -> bytearray:
        return self.get(f"/api/v1/nodes/{self.node}/proxy/{path}")

    def read(self, path: str, take: Callable[[bytes], None]) -> None:
        # it runs, since it was asked for the pods before, and where it has ended the next poll starts it
        there = self.socket
        Kept(lambda: SocketConnection(there)).read(f"/api/v1/nodes/{self.node}/proxy/{path}", {}, take)

    def pods(self) -> bytearray:
        return self.get(f"/api/v1/pods?fieldSelector=spec.nodeName%3D{self.node}")

    def close(self) -> None:
        """Ends the proxy, and takes its folder away."""
        self.kept.close()
        process, self.process = self.process, None
        if process is not None:
            with process:
                process.terminate()
                try:
                    process.wait(2)
                except subprocess.TimeoutExpired:
                    process.kill()
        if self.folder is not None:
            shutil.rmtree(self.folder, ignore_errors=True)
            self.folder = None


class ByKubectl:
    """The API server as kubectl asks it: by the proxy that the recorder has, or for each answer."""

    def __init__(self, sources: Sources) -> None:
        self.sources = sources

    def endpoint(self, path: str) -> Answer:
        keeps = self.sources.keeps
        if isinstance(keeps, Proxy) and keeps.works():
            return keeps.get(f"/{path}")
        return self.sources.run(["kubectl", "get", "--raw", f"/{path}"], ENDPOINT_SECONDS)

    def close(self) -> None:
        """The proxy is the sources' own."""


def api_of(events: str, curl_file: str | None, sources: Sources) -> Any:
    """What asks the API server; Failed where the file of curl has more than is read."""
    if events == KUBECTL:
        return ByKubectl(sources)
    try:
        return Kubelet(events, curl_file)
    except NotRead as other:
        raise Failed(f"--events: {curl_file} has {other}, which is not read") from None
    except (OSError, UnicodeDecodeError) as error:
        raise Failed(f"--events: {curl_file} can't be read: {error}") from None


def kept_sources(node: str, kubelet: str | None, curl_file: str | None, say: Callable[..., None]) -> Sources:
    """The sources of a node, of which crictl alone is a command for each answer. Where a file of curl has more than is
    read here, curl is one too."""
    if kubelet is None:
        return Sources(node, keeps=Proxy(node, say))
    if kubelet == ALONE:
        return Sources(node, kubelet, alone=RuntimeAlone())
    try:
        return Sources(node, kubelet, curl_file, keeps=Kubelet(kubelet, curl_file))
    except NotRead as other:
        if kubelet.startswith("http:") and not says_insecure(curl_file):
            return Sources(node, kubelet, curl_file, keeps=Unasked(UNSAFE.format(curl_file)))
        say(f"{curl_file} has {other}, which is not read here: curl is started for each answer")
    except (OSError, UnicodeDecodeError) as error:
        say(f"{curl_file} can't be read: {error}")
    return Sources(node, kubelet, curl_file)
