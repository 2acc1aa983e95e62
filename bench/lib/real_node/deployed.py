"""The recorder as the pod of its DaemonSet on the node that it records: its image is made and imported, its manifest is
applied, and the pod of its template is created as the DaemonSet's controller would. It is killed once."""

import glob
import hashlib
import json
import os
import shutil
import signal
import subprocess
import time

from beside import seconds_of
from cluster import ADMIN
from kit import PARTS, call, write
from machine import NODE, wait_until

TOP = os.path.realpath(f"{PARTS}/../../..")
MANIFEST = f"{TOP}/deploy/daemonset.yaml"
COMMANDS = ("mmdebstrap", "umoci", "dpkg-deb", "readelf")
NAMESPACE, NAME = "kubelet-replay", "recorder"
SPACE = f"/api/v1/namespaces/{NAMESPACE}"
EACH, LOOK = 60, 1
CRASH_SECOND = 180
STORIES = ("shop/crash", "shop/live-trap", "shop/db-0")
FORWARDS = "/proc/sys/net/ipv4/ip_forward"
# what the runs without it have too: pods that share the machine's network
NETWORK = {"cniVersion": "0.4.0", "name": "pods", "plugins": [{"type": "ptp", "ipam": {
    "type": "host-local", "subnet": "10.97.0.0/24", "routes": [{"dst": "0.0.0.0/0"}]}}]}


def made_image(folder):
    """The archive of the image, of a release of this checkout; it is made again where what it is made of has
    changed."""
    given = os.environ.get("KUBELET_REPLAY")
    call([f"{TOP}/bench/release", *(["--program", given] if given else []), f"{folder}/release"],
         stdout=subprocess.DEVNULL)
    [package] = glob.glob(f"{folder}/release/*.deb")
    sums = [hashlib.sha256(content_of(path)).hexdigest() for path in (package, *(f"{TOP}/deploy/{name}" for name in
                                                                                ("image", "entry")))]
    archive = f"{folder}/recorder.oci.tar"
    if not os.path.exists(archive) or content_of(f"{archive}.of") != " ".join(sums).encode():
        call([f"{TOP}/deploy/image", package, archive], stdout=subprocess.DEVNULL)
        write(f"{archive}.of", " ".join(sums))
    return archive


def content_of(path):
    with open(path, "rb") as file:
        return file.read()


def manifest_of(text, folder, traces):
    """The manifest with what an operator puts in: where crictl and the traces are on this machine, the image that was
    loaded, the rights that a kubelet 1.20 knows, its certificate, which it has signed itself; short traces, and a
    poll each second."""
    version = content_of(f"{TOP}/VERSION").decode().strip()
    for old, new in (('"--look", "5"', f'"--look", "{LOOK}"'), ('"--each", "1h"', f'"--each", "{EACH}s"'),
                     ("{path: /usr/local/bin/crictl,", f"{{path: {folder}/bin/crictl,"),
                     ("{path: /var/lib/kubelet-replay,", f"{{path: {traces},"),
                     (f"registry.example/kubelet-replay@sha256:{'0' * 64}", f"kubelet-replay:{version}"),
                     ('["nodes/pods", "nodes/configz", ', '["nodes/proxy", '),
                     ("value: /var/run/secrets/kubernetes.io/serviceaccount/ca.crt", "value: insecure")):
        if text.count(old) != 1:
            raise RuntimeError(f"deploy/daemonset.yaml has {old} {text.count(old)} times")
        text = text.replace(old, new)
    return text


def pod_of(daemonset):
    """The pod that the controller would create of a DaemonSet for the node."""
    template = daemonset["spec"]["template"]
    owner = {"apiVersion": "apps/v1", "kind": "DaemonSet", "name": daemonset["metadata"]["name"],
             "uid": daemonset["metadata"]["uid"], "controller": True, "blockOwnerDeletion": True}
    return {"apiVersion": "v1", "kind": "Pod",
            "metadata": {"generateName": f"{NAME}-", "labels": template["metadata"]["labels"],
                         "ownerReferences": [owner]},
            "spec": {**template["spec"], "nodeName": NODE}}


class Deployed:
    """The recorder's pod next to a run; the folder keeps the traces as they were fetched, and what it printed."""

    def __init__(self, machine, cluster, scenario):
        self.machine, self.cluster = machine, cluster
        self.folder = f"{machine.folder}/{scenario.name}"
        self.traces = f"{self.folder}/node"
        self.archive = self.killed = self.pod = None
        self.forwards = content_of(FORWARDS)

    def prepare(self):
        """Before the runtime starts: the image is made, and pods get a network."""
        self.archive = made_image(self.machine.folder)
        shutil.rmtree(self.folder, ignore_errors=True)
        os.makedirs(self.folder)
        os.makedirs(f"{self.machine.folder}/cni", exist_ok=True)
        shutil.rmtree(f"{self.machine.folder}/addresses", ignore_errors=True)
        network = json.loads(json.dumps(NETWORK))
        network["plugins"][0]["ipam"]["dataDir"] = f"{self.machine.folder}/addresses"
        write(f"{self.machine.folder}/cni/10-pods.conflist", json.dumps(network))

    def leave(self):
        """Takes away the network, which other runs have not."""
        shutil.rmtree(f"{self.machine.folder}/cni", ignore_errors=True)
        with open(FORWARDS, "wb") as file:
            file.write(self.forwards)

    def start(self):
        call(["ctr", "-n", "k8s.io", "images", "import", self.archive], env=self.machine.kit.settings)
        with open(MANIFEST, encoding="utf-8") as file:
            write(f"{self.folder}/daemonset.yaml", manifest_of(file.read(), self.machine.folder, self.traces))
        self.kubectl("apply", "-f", f"{self.folder}/daemonset.yaml")
        self.cluster.make_account(NAMESPACE)
        daemonset = json.loads(self.cluster.ask(f"/apis/apps/v1/namespaces/{NAMESPACE}/daemonsets/{NAME}"))
        self.cluster.ask(f"{SPACE}/pods", pod_of(daemonset))
        self.pod = json.loads(self.cluster.ask(f"{SPACE}/pods"))["items"][0]["metadata"]["name"]
        wait_until("the recorder", lambda: glob.glob(f"{self.traces}/*"), 60)

    def kubectl(self, *words, said=None):
        """Runs the kubectl of the kit as the administrator, with the plugin on its PATH; its status."""
        settings = {**self.machine.kit.settings, "KUBECONFIG": self.cluster.settings_of(ADMIN)}
        settings["PATH"] = f"{settings['PATH']}:{TOP}/tools"
        with open(f"{self.folder}/{said or 'kubectl'}.said", "a", encoding="utf-8") as file:
            return subprocess.run(["kubectl", *words], stdout=file, stderr=file, env=settings, check=False).returncode

    def act(self, passed):
        """Kills the recorder once, by its id."""
        if passed >= CRASH_SECOND and self.killed is None:
            os.kill(self.recorder_identity(), signal.SIGKILL)
            self.killed = time.time()
            write(f"{self.folder}/killed", f"{self.killed:.2f}\n")

    def recorder_identity(self):
        """The id of the recorder's process, as the runtime has it of its container."""
        status = json.loads(self.cluster.ask(f"{SPACE}/pods/{self.pod}"))["status"]
        container = status["containerStatuses"][0]["containerID"].removeprefix("containerd://")
        told = self.machine.ctr("tasks", "ls")
        return int(told[told.index(container) + 1])

    def costs(self):
        """What the pod took since it was started again: processor seconds in a minute, by the kubelet's summary."""
        pods = self.machine.asked("stats/summary")["pods"]
        container = next(pod for pod in pods if pod["podRef"]["name"] == self.pod)["containers"][0]
        write(f"{self.folder}/usage", json.dumps(container, indent=1))
        minutes = (seconds_of(container["cpu"]["time"]) - seconds_of(container["startTime"])) / 60
        return {"as a pod": container["cpu"]["usageCoreNanoSeconds"] / 1e9 / minutes}

    def end(self):
        """What an operator does: fetches the traces, and asks for a story; then the pod is deleted, and ends."""
        costs = self.costs()
        for previous in ([], ["--previous"]):
            self.kubectl("-n", NAMESPACE, "logs", self.pod, *previous, said="recorder")
        asked = (["nodes"], ["fetch", NODE, "--into", f"{self.folder}/traces"],
                 *(["story", pod, "--node", NODE, "--since", "1h", "--utc"] for pod in STORIES))
        write(f"{self.folder}/statuses", "".join(f"{self.kubectl('replay', *words, said=words[0])} kubectl replay "
                                                 f"{' '.join(words)}\n" for words in asked))
        self.cluster.ask(f"{SPACE}/pods/{self.pod}", {}, "DELETE")
        wait_until("the end of the recorder's pod", lambda: self.cluster.ask(f"{SPACE}/pods/{self.pod}") is None, 60)
        return costs
