"""The tests of the connections that tools/record keeps: to a kubelet's port, and to a proxy of kubectl's."""

import json
import os
import shutil
import signal
import socket
import ssl
import subprocess
import tempfile
import threading
from collections import Counter
from http.server import BaseHTTPRequestHandler, ThreadingHTTPServer

import cases
from checks import HERE, LONGEST, TOOLS, expect, read, run, wait_until

from replay_tools.record.connections import NotRead, settings_of

load_tests = cases.loaded(__name__)

ANSWERS = f"{HERE}/recordings/crash_loop/1"
PATHS = {"/pods": "pods.json", "/configz": "configz.json", "/stats/summary": "summary.json",
         "/metrics/probes": "probes.txt"}
TOKEN = "Bearer of-the-test"


class Kubelet(ThreadingHTTPServer):
    """A stand-in for a kubelet: it needs a token, and counts its connections and its answers. It has the certificate of
    a folder, or none."""

    daemon_threads = True

    def __init__(self, folder, answers_each=10 ** 9, wants_certificate=False):
        super().__init__(("127.0.0.1", 0), Handler)
        self.connections, self.answers, self.answers_each, self.tokens = 0, 0, answers_each, {TOKEN}
        # how often it was asked with each token, and for each path
        self.given, self.paths = Counter(), Counter()
        # the tokens that came, and the answers that are others than the recorded ones: {path: (status, body, bytes that
        # its length has in addition to the body)}, or what is called with the handler
        self.came, self.others = [], {}
        self.port = self.server_address[1]
        self.url = f"http://127.0.0.1:{self.port}"
        if folder is not None:
            context = ssl.SSLContext(ssl.PROTOCOL_TLS_SERVER)
            context.load_cert_chain(f"{folder}/crt", f"{folder}/key")
            if wants_certificate:
                context.verify_mode, self.tokens = ssl.CERT_REQUIRED, {None}
                context.load_verify_locations(f"{folder}/crt")
            self.socket = context.wrap_socket(self.socket, server_side=True, do_handshake_on_connect=False)
            self.url = f"https://127.0.0.1:{self.port}"
        threading.Thread(target=self.serve_forever, daemon=True).start()

    def end(self):
        self.shutdown()
        self.server_close()

    def handle_error(self, *_):
        pass


class Handler(BaseHTTPRequestHandler):
    protocol_version = "HTTP/1.1"

    def setup(self):
        if isinstance(self.request, ssl.SSLSocket):
            self.request.do_handshake()
        super().setup()
        self.server.connections += 1
        self.given = 0

    def do_GET(self):
        self.server.answers += 1
        self.given += 1
        self.server.came += filter(None, [self.headers["Authorization"]])
        self.server.given[self.headers["Authorization"]] += 1
        self.server.paths[self.path] += 1
        if self.headers["Authorization"] not in self.server.tokens:
            self.answer(401, b"Unauthorized")
        elif callable(other := self.server.others.get(self.path, ())):
            other(self)
        elif other:
            self.answer(*other)
        else:
            self.answer(200, read(f"{ANSWERS}/{PATHS[self.path]}").encode())
        # as a server that closes what is idle, without a word of it
        self.close_connection = self.close_connection or self.given >= self.server.answers_each

    def answer(self, status, body, missing=0):
        self.send_response(status)
        self.send_header("Content-Length", str(len(body) + missing))
        self.end_headers()
        self.wfile.write(body)
        self.close_connection = missing > 0

    def log_message(self, *_):
        pass


def certify(folder, names):
    """Makes a certificate that is signed by itself, as a kubelet's is, with its key."""
    words = ["openssl", "req", "-x509", "-newkey", "ec", "-pkeyopt", "ec_paramgen_curve:prime256v1", "-nodes",
             "-keyout", f"{folder}/key", "-out", f"{folder}/crt", "-days", "3650", "-subj", "/CN=worker-3", "-addext",
             f"subjectAltName={names}"]
    subprocess.run(words, check=True, capture_output=True)


class Place:
    """A folder with a certificate, a file of curl and the stand-ins' own."""

    def __init__(self, names="IP:127.0.0.1"):
        self.folder = tempfile.mkdtemp()
        if shutil.which("openssl") is not None:
            certify(self.folder, names)
        self.settings = {"PATH": f"{HERE}/commands:{os.environ['PATH']}", "RECORDING": f"{HERE}/recordings/crash_loop",
                         "RUN": self.folder, "TMPDIR": self.folder}

    def curl_file(self, text):
        with open(f"{self.folder}/curl.new", "w", encoding="utf-8") as file:
            file.write(text)
        # whole at once, as it is read again while it is used
        os.replace(f"{self.folder}/curl.new", f"{self.folder}/curl")
        return f"{self.folder}/curl"

    def asked(self):
        """The commands that were asked, and how often."""
        lines = read(f"{self.folder}/asked").splitlines() if os.path.exists(f"{self.folder}/asked") else []
        return {name: sum(line.startswith(f"{name} ") for line in lines)
                for name in ("crictl", "curl", "kubectl proxy")}

    def left(self):
        return [name for name in os.listdir(self.folder) if name.startswith("record-")]

    def remove(self):
        shutil.rmtree(self.folder)


def kinds(trace):
    return [json.loads(line)["kind"] for line in trace.splitlines()]


def has_openssl():
    if shutil.which("openssl") is None:
        print("left out: the connections to a kubelet, since openssl is missing")
    return shutil.which("openssl") is not None


def test_kubelet():
    """All answers of a kubelet come by one connection, which is opened again where it was closed, except the answer
    with the moment of its start; only crictl is a command."""
    if not has_openssl():
        return
    place = Place()
    for name, answers_each, certificate in (("kept", 10 ** 9, "insecure"),
                                            ("closed each time", 1, f'cacert = "{place.folder}/crt"')):
        kubelet = Kubelet(place.folder, answers_each)
        curl = place.curl_file(f'# of the test\nheader = "Authorization: {TOKEN}"\n{certificate}\n')
        words = ["--node", "worker-3", "--standard", "--kubelet", kubelet.url, "--curl", curl, "--for", "3"]
        status, trace, said = run([f"{TOOLS}/record", *words], **place.settings)
        expect(f"kubelet, {name}", (status, kinds(trace)[:3], said), (0, ["node", "pod", "tick"], ""))
        expect(f"kubelet, {name}: its answers", kubelet.answers >= 5, True)
        many = kubelet.answers if answers_each == 1 else 2
        expect(f"kubelet, {name}: connections", kubelet.connections, many)
        expect(f"kubelet, {name}: commands", (place.asked()["crictl"] > 0, place.asked()["curl"]), (True, 0))
        kubelet.end()
    place.remove()


def test_refusals():
    """One line has the reason why a kubelet gives no answer."""
    if not has_openssl():
        return
    place, wrong = Place(), "Bearer of-another"
    kubelet = Kubelet(place.folder)
    # nobody else takes a port that is bound, and nobody listens there
    closed = socket.socket()
    closed.bind(("127.0.0.1", 0))
    token = f'header = "Authorization: {TOKEN}"\n'
    for name, url, text, wanted in (
        ("a wrong token", kubelet.url, f'header = "Authorization: {wrong}"\ninsecure\n',
         "/metrics/probes answered with 401 Unauthorized: Unauthorized"),
        ("a certificate of nobody", kubelet.url, token, "self-signed certificate"),
        ("no such file of an authority", kubelet.url, f'{token}cacert = "/nonexistent"\n', "No such file"),
        ("a port where nobody is", f"https://127.0.0.1:{closed.getsockname()[1]}",
         f"{token}insecure\n", "gave no answer: Connection refused"),
        ("a port that there is not", "https://127.0.0.1:99999", token, "gave no answer: Port out of range"),
        ("a token that can't be sent", kubelet.url, 'header = "Authorization: \u2026"\ninsecure\n', "gave no answer: "),
    ):
        words = ["--node", "worker-3", "--kubelet", url, "--curl", place.curl_file(text)]
        status, trace, said = run([f"{TOOLS}/record", *words], **place.settings)
        is_said = wanted in said.replace("self signed", "self-signed")
        expect(f"kubelet with {name}", (status, trace, said.count("\n"), is_said), (1, "", 1, True))
    kubelet.end()
    place.remove()


def test_no_token_unchecked():
    """The token goes to no server whose certificate was not checked, unless the settings allow it; one line shows what
    to set."""
    if not has_openssl():
        return
    place, another = Place("DNS:worker-3"), Place()
    own, strange = f'cacert = "{place.folder}/crt"\n', f'cacert = "{another.folder}/crt"\n'
    for name, has_tls, text, wanted in (
        ("signed by itself", True, "", 'cacert = "FILE"'),
        ("of another authority", True, strange, 'cacert = "FILE"'),
        ("of another name", True, own, "not valid for '127.0.0.1'"),
        ("none", False, own, "goes to https:// alone, unless it has the line insecure"),
        ("none, with settings for curl", False, 'referer = "a"\n', "goes to https:// alone"),
        ("none, as the operator wants it", False, "insecure\n", None),
        ("not checked, as the operator wants it", True, "insecure\n", None),
        ("of a name that has an address", True, f'{own}resolve = "worker-3:PORT:127.0.0.1"\n', None),
    ):
        kubelet = Kubelet(place.folder if has_tls else None)
        url = f"https://worker-3:{kubelet.port}" if "resolve" in text else kubelet.url
        curl = place.curl_file(f'header = "Authorization: {TOKEN}"\n{text.replace("PORT", str(kubelet.port))}')
        words = ["--node", "worker-3", "--standard", "--kubelet", url, "--curl", curl, "--for", "1"]
        status, trace, said = run([f"{TOOLS}/record", *words], **place.settings)
        kubelet.end()
        expect(f"a certificate, {name}", (status, kubelet.came == [], said.count("\n"), (wanted or "") in said),
               (0, False, 0, True) if wanted is None else (1, True, 1, True))
    expect("no curl was started", place.asked()["curl"], 0)
    place.remove()
    another.remove()


FORBIDDEN = (403, b"Forbidden (user=recorder, verb=get, resource=nodes, subresource=proxy)")
NOTHING = (404, b"404: Page Not Found")


def test_check_of_rights():
    """--check shows for each path what right it needs, and whether the token may start commands."""
    if not has_openssl():
        return
    place = Place()
    curl = place.curl_file(f'header = "Authorization: {TOKEN}"\ncacert = "{place.folder}/crt"\n')
    before = "; before it nodes/proxy (deploy/rights-before-1.33.yaml)"
    for name, others, missing, rights in (
        ("the finer rights", {"/containerLogs/": FORBIDDEN}, {}, "the token may not get nodes/proxy, so it starts no "
         "command in a container; the rights of deploy/daemonset.yaml do here"),
        ("the finer rights at a kubelet that does not know them",
         {"/containerLogs/": FORBIDDEN, "/pods": FORBIDDEN, "/configz": FORBIDDEN},
         {"/pods": f"get nodes/pods, which a kubelet knows from Kubernetes 1.33 on{before}",
          "/configz": f"get nodes/configz, which a kubelet knows from Kubernetes 1.33 on{before}"},
         "the token may not get nodes/proxy, so it starts no command in a container"),
        ("nodes/proxy alone",
         {"/containerLogs/": NOTHING, "/stats/summary": FORBIDDEN, "/metrics/probes": FORBIDDEN},
         {"/stats/summary": "get nodes/stats", "/metrics/probes": "get nodes/metrics"},
         "the token may get nodes/proxy: whoever has it starts commands in each container of the nodes for which it"),
        ("no debugging handlers", {"/containerLogs/": (405, b"Debug endpoints are disabled.")}, {}, None),
    ):
        kubelet = Kubelet(place.folder)
        kubelet.others = others
        words = ["--check", "--node", "worker-3", "--kubelet", kubelet.url, "--curl", curl]
        status, told, said = run([f"{TOOLS}/record", *words], **place.settings)
        kubelet.end()
        lines = [line.split(maxsplit=2) for line in told.splitlines()]
        expect(f"--check with {name}", (status, said, {line[1] for line in lines if line[0] == "missing"}),
               (1 if missing else 0, "", set(missing)))
        for path, wanted in missing.items():
            [line] = [line[2] for line in lines if line[:2] == ["missing", path]]
            expect(f"--check with {name}: {path}", (line.startswith("answered with 403 Forbidden: Forbidden (user="),
                                                    f" and needs the permission to {wanted}" in line), (True, True))
        found = [line.removeprefix("rights   ") for line in told.splitlines() if line.startswith("rights ")]
        expect(f"--check with {name}: rights", [line.startswith(rights or "") for line in found],
               [] if rights is None else [True])
    place.remove()


def test_a_certificate_in_place_of_a_token():
    """A kubelet that knows a client by its certificate is asked without a token."""
    if not has_openssl():
        return
    place = Place()
    kubelet = Kubelet(place.folder, wants_certificate=True)
    kubelet.others = {"/containerLogs/": NOTHING}
    checked = f'cacert = "{place.folder}/crt"\n'
    own = f'cert = "{place.folder}/crt"\nkey = "{place.folder}/key"\n'
    words = ["--node", "worker-3", "--kubelet", kubelet.url, "--curl"]
    curl = place.curl_file(checked + own)
    status, trace, said = run([f"{TOOLS}/record", *words, curl, "--standard", "--for", "1"], **place.settings)
    expect("a client certificate", (status, kinds(trace)[:3], said, kubelet.came), (0, ["node", "pod", "tick"], "", []))
    status, told, _ = run([f"{TOOLS}/record", "--check", *words, curl], **place.settings)
    expect("a client certificate: its rights", (status, told.splitlines()[-1].startswith(
        "rights   the certificate may get nodes/proxy: ")), (0, True))
    status, trace, said = run([f"{TOOLS}/record", *words, place.curl_file(checked)], **place.settings)
    expect("no client certificate", (status, trace, said.count("\n")), (1, "", 1))
    kubelet.end()
    place.remove()


def test_other_settings():
    """A file of curl with more than is read leaves the answers to curl."""
    for text, wanted in (('header = "A: b\\"c"\n-H "D: e"\n--insecure\n', ({"A": 'b"c', "D": "e"}, True)),
                         ("header: X:y\ncacert /a\n# no\n\n", ({"X": "y"}, False))):
        found = settings_of(text)
        expect(f"settings of {text!r}", (found.headers, found.is_insecure), wanted)
    for text in ("proxy = a", "header = @file", 'header = "A: b', "cert = a:secret", "-x a", "insecure = no",
                 "resolve = a:b", "resolve = *:443:127.0.0.1", "resolve = a:443:127.0.0.1,127.0.0.2"):
        try:
            found = settings_of(text)
        except NotRead:
            found = None
        expect(f"settings of {text}", found, None)
    place = Place()
    words = ["--node", "worker-3", "--standard", "--kubelet", "https://127.0.0.1:10250", "--for", "1", "--curl",
             place.curl_file('header = "Authorization: Bearer none"\nproxy = "http://127.0.0.1:1"\n')]
    status, trace, said = run([f"{TOOLS}/record", *words], **place.settings)
    expect("settings that curl alone reads", (status, kinds(trace)[:2], said.count("\n"), "curl is started" in said),
           (0, ["node", "pod"], 1, True))
    expect("settings that curl alone reads: curl", place.asked()["curl"] > 0, True)
    place.remove()


def test_a_token_that_changes():
    """The file is read again where it has changed: from then on no request has the old token."""
    if not has_openssl():
        return
    place = Place()
    kubelet = Kubelet(place.folder)
    curl = place.curl_file(f'header = "Authorization: {TOKEN}"\ninsecure\n')
    words = ["--node", "worker-3", "--standard", "--kubelet", kubelet.url, "--curl", curl]
    settings = {**os.environ, **place.settings}
    process = subprocess.Popen([f"{TOOLS}/record", *words], env=settings, stdout=subprocess.PIPE,
                               stderr=subprocess.PIPE)
    first = process.stdout.readline().decode()
    later = "Bearer of-the-next-hour"
    kubelet.tokens.add(later)
    place.curl_file(f'header = "Authorization: {later}"\ninsecure\n')
    wait_until("the new token", lambda: kubelet.given[later] > 0)
    kubelet.tokens.remove(TOKEN)
    answers = kubelet.given[later]
    wait_until("more answers", lambda: kubelet.given[later] > answers + 2)
    process.send_signal(signal.SIGTERM)
    out, said = process.communicate(timeout=LONGEST)
    expect("a token that changes", (process.returncode, kinds(first + out.decode())[:3], said.decode()),
           (0, ["node", "pod", "tick"], ""))
    kubelet.end()
    place.remove()


def test_proxy():
    """kubectl is started once, as a proxy, and nothing of it is left, also where the recorder is interrupted."""
    place = Place()
    words = ["--node", "worker-3", "--standard", "--for", "3"]
    status, trace, said = run([f"{TOOLS}/record", *words], **place.settings)
    expect("proxy", (status, kinds(trace)[:3], said), (0, ["node", "pod", "tick"], ""))
    expect("proxy: it is started once, and left nothing", (place.asked()["kubectl proxy"], place.left()), (1, []))
    for name, number in (("interrupted", signal.SIGINT), ("killed", signal.SIGKILL)):
        process = subprocess.Popen([f"{TOOLS}/record", "--node", "worker-3", "--standard"], start_new_session=True,
                                   env={**os.environ, **place.settings}, stdout=subprocess.PIPE, stderr=subprocess.PIPE)
        process.stdout.readline()
        [folder] = place.left()
        os.kill(process.pid, number)
        process.communicate(timeout=LONGEST)
        expect(f"proxy, {name}: nobody is there any more", until_refused(f"{place.folder}/{folder}/proxy"), True)
        expect(f"proxy, {name}: its folder", place.left() == [], number == signal.SIGINT)
    place.remove()


def until_refused(path):
    """Whether a socket comes to have no server."""
    def is_refused():
        with socket.socket(socket.AF_UNIX, socket.SOCK_STREAM) as asked:
            return asked.connect_ex(path) != 0
    wait_until("the end of the server", is_refused)
    return True


def test_no_proxy():
    """Where kubectl's proxy does not start, kubectl is started for each answer, and a line reports that."""
    place = Place()
    os.makedirs(f"{place.folder}/bin")
    with open(f"{place.folder}/bin/kubectl", "w", encoding="utf-8") as file:
        file.write(f'#!/bin/sh\n[ "$1" != proxy ] || {{ echo "error: no proxy here" >&2; exit 1; }}\n'
                   f'exec "{HERE}/commands/kubectl" "$@"\n')
    os.chmod(f"{place.folder}/bin/kubectl", 0o755)
    settings = {**place.settings, "PATH": f"{place.folder}/bin:{place.settings['PATH']}"}
    status, trace, said = run([f"{TOOLS}/record", "--node", "worker-3", "--standard", "--for", "1"], **settings)
    expect("no proxy", (status, kinds(trace)[:2], said),
           (0, ["node", "pod"], "record: kubectl proxy failed with status 1: error: no proxy here: kubectl is started "
                                "for each answer\n"))
    expect("no proxy: what is left", place.left(), [])
    place.remove()
