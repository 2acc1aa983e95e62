"""What a run starts: the runtime, the kubelet and what is next to them; and how all of it ends."""

import json
import os
import shutil
import ssl
import subprocess
import sys
import time
import urllib.request

import ending
from kit import PARTS, call, read, write

CTR_SECONDS = 30
# until its first round of samples is done a kubelet has no summary of its pods
FIRST_ROUND_SECONDS = 12
# where a runtime mounts next to its root; the first is its state, as containerd.toml has it
RUNTIME_FOLDERS = ("/run/real_node-containerd", "/run/containerd", "/run/netns")
KUBELET = "https://127.0.0.1:10250"
NODE = "node-a"


class Machine:
    """The processes that were started, and the mounts that were there before."""

    def __init__(self, kit, kubelet=KUBELET):
        self.kit = kit
        self.folder = kit.folder
        self.kubelet = kubelet
        self.started = []
        self.mounts = ending.mount_points()

    def start(self, name, words, stdout=None, **variables):
        """Starts a program with its log in the folder; `variables` are its environment's."""
        with open(f"{self.folder}/{name}.log", "w", encoding="utf-8") as log:
            process = subprocess.Popen(words, stdout=stdout or log, stderr=log, stdin=subprocess.DEVNULL,
                                       env={**self.kit.settings, **variables}, start_new_session=True)
        self.started.append(process)
        return process

    def ctr(self, *words):
        """What the runtime answers, in words; none where it gives no answer."""
        try:
            done = subprocess.run(["ctr", "-n", "k8s.io", *words], env=self.kit.settings, capture_output=True,
                                  text=True, timeout=CTR_SECONDS, check=False)
        except subprocess.TimeoutExpired:
            return []
        return done.stdout.split()

    def start_runtime(self):
        """Starts containerd, and gives it the images, which no registry has."""
        os.makedirs(f"{self.folder}/cni", exist_ok=True)
        write(f"{self.folder}/containerd.toml", read(f"{PARTS}/containerd.toml").replace("WORK", self.folder))
        self.start("containerd", ["containerd", "--config", f"{self.folder}/containerd.toml"])
        wait_until("containerd", lambda: subprocess.run(["ctr", "version"], env=self.kit.settings, check=False,
                                                        capture_output=True).returncode == 0)
        for path in (self.kit.image("localhost/busybox:1", ["sh"]),
                     self.kit.image("localhost/pause:1",
                                    ["sh", "-c", "trap 'exit 0' TERM INT; while :; do sleep 1000 & wait $!; done"])):
            call(["ctr", "-n", "k8s.io", "images", "import", path], env=self.kit.settings)

    def start_kubelet(self, configuration, *words):
        """Starts the kubelet in an empty folder of its own, and waits until it answers with samples."""
        self.empty_kubelet()
        write(f"{self.folder}/kubelet.yaml", configuration)
        self.start("kubelet", ["kubelet", f"--config={self.folder}/kubelet.yaml", "--container-runtime=remote",
                               "--container-runtime-endpoint=unix:///run/containerd/containerd.sock",
                               f"--root-dir={self.folder}/kubelet", f"--hostname-override={NODE}",
                               f"--cert-dir={self.folder}/certs", "--pod-infra-container-image=localhost/pause:1",
                               "--v=4", *words])
        wait_until("the kubelet", lambda: self.asked("pods") is not None)
        time.sleep(FIRST_ROUND_SECONDS)

    def empty_kubelet(self):
        """Static pods have the same uids in each run, and would find the volumes of the one before."""
        for name in ("manifests", "kubelet"):
            if not os.path.ismount(f"{self.folder}/{name}"):
                shutil.rmtree(f"{self.folder}/{name}", ignore_errors=True)
        os.makedirs(f"{self.folder}/manifests")

    def asked(self, path):
        """An answer of the kubelet's, or None."""
        trusting = ssl.create_default_context()
        trusting.check_hostname, trusting.verify_mode = False, ssl.CERT_NONE
        try:
            with urllib.request.urlopen(f"{self.kubelet}/{path}", timeout=5, context=trusting) as answer:
                return json.load(answer)
        except (OSError, ValueError):
            return None

    def watch(self, seconds, act):
        """Keeps twice a second what /pods shows, and lets `act` do what is due, by the seconds that have passed. The
        manifest of each pod is kept next to that."""
        begun, manifests = time.time(), {}
        with open(f"{self.folder}/shown.jsonl", "w", encoding="utf-8") as file:
            while time.time() - begun < seconds:
                act(time.time() - begun)
                answer = (self.asked("pods") or {}).get("items") or []
                for pod in answer:
                    manifests.setdefault(pod["metadata"]["uid"], {"kind": "Pod", **{
                        name: pod[name] for name in ("metadata", "spec")}})
                file.write(json.dumps({"at": round(time.time(), 2), "pods": [
                    {"metadata": {name: pod["metadata"].get(name) for name in ("name", "namespace", "uid")},
                     "status": pod.get("status", {})} for pod in answer]}) + "\n")
                time.sleep(0.5)
        write(f"{self.folder}/pods.json", json.dumps({"kind": "PodList", "items": list(manifests.values())}))

    def each(self, names, *words):
        for name in names:
            self.ctr(*words, name)

    def end_containers(self):
        tasks = self.ctr("tasks", "ls", "-q")
        self.each(tasks, "tasks", "kill", "-s", "9")
        time.sleep(1)
        self.each(tasks, "tasks", "rm", "-f")
        self.each(self.ctr("containers", "ls", "-q"), "containers", "rm")

    def end(self):
        """Ends the recorder and the kubelet, then what the runtime runs, then the runtime, then what is left."""
        runtime, *others = self.started or [None]
        for process in reversed(others):
            ended(process)
        if runtime:
            if runtime.poll() is None:
                self.end_containers()
            ended(runtime)
        processes = ending.end_descendants()
        mounts = ending.unmount(self.mounts, [self.folder, *RUNTIME_FOLDERS])
        for what, left in (("processes", processes), ("mounts", mounts)):
            if left:
                print(f"real_node: {what} are left: {' '.join(map(str, left))}", file=sys.stderr)


def ended(process):
    process.terminate()
    try:
        process.wait(20)
    except subprocess.TimeoutExpired:
        process.kill()
        process.wait()


def wait_until(what, is_so, seconds=30):
    for _ in range(2 * seconds):
        if is_so():
            return
        time.sleep(0.5)
    raise RuntimeError(f"{what} did not start; its log is in the folder")
