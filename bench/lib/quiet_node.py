"""A made-up node with its kubelet and its runtime, for a recorder that is measured: answers as long as the ones of a
real one, and a container that crashes now and then."""
import contextlib
import json
import os
import ssl
import subprocess
import threading
import time
from http.server import BaseHTTPRequestHandler, ThreadingHTTPServer

TOKEN = "Bearer made-up"
CRASH_SECONDS = 120
RUN_SECONDS = 40
PERIOD = 10
# what a pod's status and manifest have in addition to what is read, in bytes
PADDING = "x" * 4000
# series of other metrics that a kubelet's /metrics/cadvisor has of a pod: with its sandbox, networks and disks
OTHER_SERIES = 220
CRICTL = '#!/bin/sh\nif [ "$1" = ps ]; then exec cat "{0}/ps.json"; fi\nexec cat "{0}/$4.json"\n'


def moment_text(moment):
    if moment is None:
        return "0001-01-01T00:00:00Z"
    return time.strftime("%Y-%m-%dT%H:%M:%S", time.gmtime(moment)) + f".{int(moment % 1 * 1e9):09}Z"


class Node:
    """Pods of one container each, with some settings in its environment, the last of which runs for some seconds and
    then waits to be started again."""

    def __init__(self, pods, begun, settings=1):
        self.pods = pods
        self.begun = begun
        self.environment = [{"name": "SETTING", "value": PADDING[:1000]}] if settings == 1 else [
            {"name": f"SETTING_{number}", "value": PADDING[:60]} for number in range(settings)]

    def instances(self, number, now):
        """The newest instances of a pod: (attempt, start, exit or None)."""
        first = self.begun - 3600 + number
        if number != self.pods - 1:
            return [(0, first, None)]
        attempt = int((now - self.begun) // CRASH_SECONDS) + 1
        made = [(turn, self.begun + (turn - 1) * CRASH_SECONDS) for turn in (attempt - 1, attempt)]
        return [(turn, start, start + RUN_SECONDS if now >= start + RUN_SECONDS else None) for turn, start in made]

    def listed(self, now):
        return [(number, attempt, start, end) for number in range(self.pods)
                for attempt, start, end in self.instances(number, now)]

    @staticmethod
    def identity(number, attempt):
        return f"{number:04x}{attempt:060x}"

    def ps(self, now):
        return {"containers": [{
            "id": self.identity(number, attempt), "podSandboxId": f"{number:064x}",
            "metadata": {"name": "app", "attempt": attempt}, "image": {"image": f"sha256:{number:064x}"},
            "imageRef": f"sha256:{number:064x}", "state": "CONTAINER_RUNNING" if end is None else "CONTAINER_EXITED",
            "createdAt": str(int(start * 1e9)), "annotations": {
                "io.kubernetes.container.hash": "5b2c1f3d", "io.kubernetes.container.restartCount": str(attempt),
                "io.kubernetes.container.terminationMessagePath": "/dev/termination-log",
                "io.kubernetes.container.terminationMessagePolicy": "File",
                "io.kubernetes.pod.terminationGracePeriod": "30"},
            "labels": {"io.kubernetes.container.name": "app", "io.kubernetes.pod.name": f"web-{number}",
                       "io.kubernetes.pod.namespace": "shop", "io.kubernetes.pod.uid": f"uid-{number}"}}
            for number, attempt, start, end in self.listed(now)]}

    def inspections(self, now):
        """What `crictl inspect` prints, by the id."""
        for number, attempt, start, end in self.listed(now):
            identity = self.identity(number, attempt)
            yield identity, {"info": {"config": PADDING}, "status": {
                "id": identity, "state": "CONTAINER_RUNNING" if end is None else "CONTAINER_EXITED",
                "startedAt": moment_text(start), "finishedAt": moment_text(end), "exitCode": 1 if end else 0,
                "reason": "Error" if end else ""}}

    def pods_answer(self, _):
        probe = {"httpGet": {"path": "/healthz", "port": 8080, "scheme": "HTTP"}, "timeoutSeconds": 1,
                 "periodSeconds": PERIOD, "successThreshold": 1, "failureThreshold": 3}
        return json.dumps({"kind": "PodList", "items": [{
            "metadata": {"name": f"web-{number}", "namespace": "shop", "uid": f"uid-{number}",
                         "annotations": {"padding": PADDING}},
            "spec": {"restartPolicy": "Always", "containers": [{
                "name": "app", "image": "web:1", "env": self.environment,
                "resources": {"requests": {"memory": "64Mi"}, "limits": {"cpu": "500m", "memory": "128Mi"}},
                "livenessProbe": probe, "readinessProbe": probe}]},
            "status": {"phase": "Running", "containerStatuses": [
                {"name": "app", "restartCount": 0, "ready": True, "started": True, "state": {"running": {}}}]}}
            for number in range(self.pods)]})

    def probes(self, now):
        """The counters, and the histograms that newer kubelets have as well."""
        lines = []
        for number in range(self.pods):
            count = int((now - self.begun + 3600 + number % PERIOD) // PERIOD)
            for probe in ("Liveness", "Readiness"):
                labels = (f'container="app",namespace="shop",pod="web-{number}",pod_uid="uid-{number}",'
                          f'probe_type="{probe}"')
                lines.append(f'prober_probe_total{{{labels},result="successful"}} {count}')
                lines += [f'prober_probe_duration_seconds_bucket{{{labels},le="{bound}"}} {count}'
                          for bound in (.005, .01, .025, .05, .1, .25, .5, 1, 2.5, 5, 10, "+Inf")]
        return "\n".join(lines) + "\n"

    def cadvisor(self, now):
        """For how long each pod's processor was throttled, among the series of other metrics, a third of a kB each."""
        lines, moment = [], int(now // PERIOD * PERIOD) * 1000
        for number, attempt, _, end in self.listed(now):
            identity = self.identity(number, attempt)
            group = f"kubepods-burstable-pod{number:036x}.slice/cri-containerd-{identity}.scope"
            labels = (f'container="app",id="/kubepods.slice/kubepods-burstable.slice/{group}",'
                      f'image="registry.example/shop/web:1",name="{identity}",namespace="shop",pod="web-{number}"')
            if end is None:
                lines += [f"container_made_up_{series:03}_seconds_total{{{labels}}} {series} {moment}"
                          for series in range(OTHER_SERIES)]
                seconds = (now - self.begun) / 20
                lines.append(f"container_cpu_cfs_throttled_seconds_total{{{labels}}} {seconds} {moment}")
        return "\n".join(lines) + "\n"

    def summary(self, now):
        sampled = moment_text(now // PERIOD * PERIOD)
        memory = {"time": sampled, "availableBytes": 4 << 30, "usageBytes": 3 << 30, "workingSetBytes": 2 << 30,
                  "rssBytes": 1 << 30, "pageFaults": 1, "majorPageFaults": 0}
        disk = {"time": sampled, "availableBytes": 60 << 30, "capacityBytes": 100 << 30, "usedBytes": 40 << 30,
                "inodesFree": 6000000, "inodes": 6553600, "inodesUsed": 553600}
        pods = [{"podRef": {"name": f"web-{number}", "namespace": "shop", "uid": f"uid-{number}"}, "startTime": sampled,
                 "containers": [{"name": "app", "startTime": sampled, "memory": memory, "rootfs": disk, "logs": disk,
                                 "cpu": {"time": sampled, "usageNanoCores": 1, "usageCoreNanoSeconds": 1}}],
                 "memory": {**memory, "workingSetBytes": int(now // PERIOD) * 4096 % 2 ** 27 + number},
                 "ephemeral-storage": disk, "process_stats": {"process_count": 3}} for number in range(self.pods)]
        return json.dumps({"node": {"nodeName": "worker-1", "memory": memory, "fs": disk, "runtime": {"imageFs": disk},
                                    "rlimit": {"time": sampled, "maxpid": 4194304, "curproc": 900}}, "pods": pods})

    def metrics(self, _):
        """Of the kubelet's own metrics when it was started, among other ones."""
        return f"go_threads 20\nprocess_start_time_seconds {self.begun - 3600:.11e}\n"

    @staticmethod
    def configuration(_):
        return json.dumps({"kubeletconfig": {"evictionHard": {"memory.available": "100Mi", "nodefs.available": "10%",
                                                              "imagefs.available": "15%", "nodefs.inodesFree": "5%"}}})


class Handler(BaseHTTPRequestHandler):
    protocol_version = "HTTP/1.1"

    def setup(self):
        if isinstance(self.request, ssl.SSLSocket):
            self.request.do_handshake()
        super().setup()

    def do_GET(self):
        node = self.server.node
        answers = {"/pods": node.pods_answer, "/metrics/probes": node.probes, "/stats/summary": node.summary,
                   "/metrics": node.metrics, "/metrics/cadvisor": node.cadvisor, "/configz": node.configuration}
        body = answers[self.path](time.time()).encode()
        self.send_response(200)
        self.send_header("Content-Length", str(len(body)))
        self.end_headers()
        # a recorder that ends waits for no answer
        with contextlib.suppress(OSError):
            self.wfile.write(body)

    def log_message(self, *_):
        pass


class Stands:
    """The node's kubelet at a port of its own, with a certificate, and its runtime as a command in a folder, until
    `end`."""

    def __init__(self, pods, folder, settings=1):
        self.node = Node(pods, time.time(), settings)
        self.folder = folder
        subprocess.run(["openssl", "req", "-x509", "-newkey", "ec", "-pkeyopt", "ec_paramgen_curve:prime256v1",
                        "-nodes", "-keyout", f"{folder}/key", "-out", f"{folder}/crt", "-days", "2",
                        "-subj", "/CN=worker-1"], check=True, capture_output=True)
        context = ssl.SSLContext(ssl.PROTOCOL_TLS_SERVER)
        context.load_cert_chain(f"{folder}/crt", f"{folder}/key")
        self.server = ThreadingHTTPServer(("127.0.0.1", 0), Handler)
        self.server.node = self.node
        self.server.socket = context.wrap_socket(self.server.socket, server_side=True, do_handshake_on_connect=False)
        self.url = f"https://127.0.0.1:{self.server.server_address[1]}"
        self.write("crictl", CRICTL.format(folder))
        os.chmod(f"{folder}/crictl", 0o755)
        self.write("curl", f'header = "Authorization: {TOKEN}"\ninsecure\n')
        self.is_over = threading.Event()
        self.show()
        threading.Thread(target=self.server.serve_forever, daemon=True).start()
        self.showing = threading.Thread(target=self.go_on, daemon=True)
        self.showing.start()

    def write(self, name, text):
        with open(f"{self.folder}/{name}.new", "w", encoding="utf-8") as file:
            file.write(text)
        os.replace(f"{self.folder}/{name}.new", f"{self.folder}/{name}")

    def show(self):
        """What the runtime answers now."""
        now = time.time()
        for identity, answer in self.node.inspections(now):
            self.write(f"{identity}.json", json.dumps(answer))
        self.write("ps.json", json.dumps(self.node.ps(now)))

    def go_on(self):
        while not self.is_over.wait(0.2):
            self.show()

    def end(self):
        self.is_over.set()
        self.showing.join()
        self.server.shutdown()
        self.server.server_close()
