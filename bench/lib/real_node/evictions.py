"""Runs a kubelet whose pods come by an API server, and evicts them; records it in both formats, and keeps it."""

import json
import os
import shutil
import sys
import time

import ending
from cluster import ADDRESS, ADMIN, KUBELET, RECORDER, Changes, Cluster
from deployed import Deployed
from kit import PARTS, Kit, call, read, write
from machine import NODE, Machine
from outcome import Outcome, is_ready, keep_about
from scenario import RUNS

COMMANDS = ("openssl", "ip", "mkfs.ext4", "mount", "umount")
RECORD = f"{PARTS}/../../../tools/record"
DISK_BYTES = 4 * 2 ** 30
MEMORY = "/sys/fs/cgroup/memory"
# of the files below the folder those that a run keeps as its own
KEPT = ("kubelet.log", "exits.log", "shown.jsonl", "pods.json")


def available():
    """The bytes of memory that the kubelet counts as available."""
    total = next(int(line.split()[1]) * 1024 for line in read("/proc/meminfo").split("\n")
                 if line.startswith("MemTotal"))
    inactive = next(int(line.split()[1]) for line in read(f"{MEMORY}/memory.stat").split("\n")
                    if line.startswith("total_inactive_file "))
    return total - int(read(f"{MEMORY}/memory.usage_in_bytes")) + inactive


def configuration_of(scenario):
    """The kubelet's configuration; JSON is YAML too."""
    anyone = {"anonymous": {"enabled": True}, "webhook": {"enabled": scenario.is_deployed}}
    return json.dumps({
        "apiVersion": "kubelet.config.k8s.io/v1beta1", "kind": "KubeletConfiguration", "address": ADDRESS,
        "port": 10250, "readOnlyPort": 0, "healthzBindAddress": "127.0.0.1", "authentication": anyone,
        "authorization": {"mode": "Webhook" if scenario.is_deployed else "AlwaysAllow"}, "failSwapOn": False,
        "cgroupDriver": "cgroupfs",
        "cgroupsPerQOS": True, "enforceNodeAllocatable": ["pods"], "makeIPTablesUtilChains": False,
        "evictionPressureTransitionPeriod": "30s", "evictionMaxPodGracePeriod": 7,
        **scenario.configuration(available())}, indent=1)


def make_small_disk(folder):
    """A file system of its own for the kubelet, on which pods can fill it."""
    with open(f"{folder}/disk", "wb") as file:
        file.truncate(DISK_BYTES)
    call(["mkfs.ext4", "-q", "-m", "0", f"{folder}/disk"])
    shutil.rmtree(f"{folder}/kubelet", ignore_errors=True)
    os.makedirs(f"{folder}/kubelet")
    call(["mount", "-o", "loop", f"{folder}/disk", f"{folder}/kubelet"])


# --- a run ---


class Recorders:
    """The recorders next to a run: what each wrote, and what it cost."""

    def __init__(self, machine, cluster, scenario):
        self.machine, self.cluster, self.scenario = machine, cluster, scenario
        self.folder = f"{machine.folder}/{scenario.name}"
        self.begun, self.processes = {}, {}

    def prepare(self):
        shutil.rmtree(self.folder, ignore_errors=True)
        os.makedirs(self.folder)
        write(f"{self.machine.folder}/curl.conf", "insecure\n")

    def leave(self):
        """All that they made is in their folder."""

    def start(self):
        for name in self.scenario.recorders:
            self.begun[name] = time.monotonic()
            with open(f"{self.folder}/{name}.trace", "wb") as trace:
                self.processes[name] = self.machine.start(
                    f"{self.scenario.name}/{name}", self.words(name), trace,
                    KUBECONFIG=self.cluster.settings_of(RECORDER))

    def words(self, name):
        """What is run: the recorder of the extended format with its answers kept, the others as they are."""
        keeps = name == "extended" and self.scenario.keeps_answers
        program = [sys.executable, f"{PARTS}/captured.py", f"{self.folder}/answers.jsonl"] if keeps else [RECORD]
        source = [] if name == "kubectl" else ["--kubelet", KUBELET, "--curl", f"{self.machine.folder}/curl.conf"]
        return [*program, "--node", NODE, "--for", str(self.scenario.seconds), *source,
                "--standard" if name == "standard" else "--extended"]

    def act(self, passed):
        """They record by themselves."""

    def end(self, seconds=60):
        """Waits for each; {name: processor seconds a minute, its children's with it}."""
        found, until = {}, time.monotonic() + seconds
        while len(found) < len(self.processes) and time.monotonic() < until:
            for name, process in self.processes.items():
                if name in found:
                    continue
                identity, status, usage = os.wait4(process.pid, os.WNOHANG)
                if identity:
                    process.returncode = os.waitstatus_to_exitcode(status)
                    minutes = (time.monotonic() - self.begun[name]) / 60
                    found[name] = (usage.ru_utime + usage.ru_stime) / minutes
            time.sleep(0.1)
        for name, process in self.processes.items():
            if process.returncode != 0:
                print(f"real_node: the recorder {name} failed; {self.folder}/{name}.log has the reason",
                      file=sys.stderr)
        return found


def run_once(kit, scenario):
    """One run, from an empty cluster to its end; what each recorder cost."""
    machine = Machine(kit, KUBELET)
    cluster, costs = Cluster(machine, scenario.is_deployed), {}
    recorders = (Deployed if scenario.is_deployed else Recorders)(machine, cluster, scenario)
    try:
        recorders.prepare()
        machine.start_runtime()
        machine.start("exits", ["ctr", "-n", "k8s.io", "events"])
        cluster.start()
        if scenario.has_small_disk:
            make_small_disk(kit.folder)
        machine.start_kubelet(configuration_of(scenario), f"--kubeconfig={cluster.settings_of(ADMIN)}",
                              f"--node-ip={ADDRESS}", "--register-node=true")
        recorders.start()
        changes = Changes(cluster, scenario.changes)
        machine.watch(scenario.seconds, lambda passed: (changes.act(passed), recorders.act(passed)))
        costs = recorders.end()
    finally:
        ending.hear_no_interrupts()
        machine.end()
        cluster.end()
        recorders.leave()
        if os.path.exists(f"{kit.folder}/disk"):
            os.remove(f"{kit.folder}/disk")
    ending.hear_interrupts()
    for name in KEPT:
        shutil.copy(f"{kit.folder}/{name}", f"{kit.folder}/{scenario.name}/{name}")
    return costs


def measured(folder, names, replay, show):
    """Builds, and runs, records and counts each; whether all was found that is needed of the extended format. Without a
    program that replays they are recorded, and counted another time."""
    os.makedirs(folder, exist_ok=True)
    kit = Kit(folder, has_api=True)
    ending.adopt_orphans()
    ending.hear_interrupts()
    try:
        kit.build()
    except ending.Interrupted:
        ending.hear_no_interrupts()
        ending.end_descendants()
        raise
    outcome = Outcome(replay, show)
    for name in names:
        keep_about(f"{folder}/{name}", name, run_once(kit, RUNS[name]))
        if is_ready(replay):
            outcome.add(f"{folder}/{name}")
        else:
            show(f"{name} is recorded; once there is a program bench/real_node --again {folder}/{name} counts it")
    return outcome.end()
