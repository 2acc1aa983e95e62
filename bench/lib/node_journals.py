"""Makes journals of a node by chance: of a kubelet of some version at some verbosity and of a runtime. Pods come,
crash, are killed, evicted, rejected and deleted, and come again under their names. A seed settles each. The messages
have the forms that tools/import reads; those from 1.21 on and of CRI-O are from knowledge."""
import bisect
import json
import random
import time

BEGIN = 1795824000
ERAS = "1.20", "1.21", "1.27", "1.34"
RUNTIMES = "containerd-1.6", "containerd-1.7", "crio", "docker", "none"
NAMES = "web", "db", "cache", "job", "hook", "fixed-n1"
CONTAINERS = "app", "side", "log"
INITS = "schema", "copy"
CODES = 0, 0, 1, 2, 137, 143, 128
NODE, STATIC = "n1", "fixed-n1"
FIRST_PROCESS = 4000
BACK_OFFS = 0, 10, 20, 40, 80, 160, 300
# a message of a kubelet: whether it is an error, its level of verbosity, and its words
SEVERITY = {True: "E", False: "I"}


class Pod:
    """A pod of the simulated node, and when its containers run."""

    def __init__(self, chance, number, name):
        self.name, self.number = name, number
        self.is_static = name == STATIC
        digits = f"{chance.getrandbits(128):032x}"
        self.uid = digits if self.is_static else "-".join(
            (digits[:8], digits[8:12], digits[12:16], digits[16:20], digits[20:]))
        self.containers = list(CONTAINERS[:chance.choice((1, 1, 1, 2, 3))])
        self.inits = list(INITS[:chance.choice((0, 0, 0, 1, 2))])
        self.policy = chance.choice(("Always", "Always", "Always", "OnFailure", "Never"))
        self.probed = chance.random() < 0.4
        self.running = {}
        self.exits = {name: 0 for name in (*self.inits, *self.containers)}
        self.sandbox = ""

    @property
    def key(self):
        return f"shop/{self.name}"

    @property
    def placed(self):
        return f"{self.name}_shop({self.uid})"

    def manifest(self):
        probe = {"periodSeconds": 5, "failureThreshold": 2}
        probes = {"readinessProbe": probe, "livenessProbe": probe} if self.probed else {}
        metadata = {"name": self.name, "namespace": "shop", "uid": self.uid}
        if self.is_static:
            metadata["annotations"] = {"kubernetes.io/config.hash": self.uid, "kubernetes.io/config.source": "file"}
        inits = {"initContainers": [{"name": name} for name in self.inits]} if self.inits else {}
        return {"kind": "Pod", "metadata": metadata, "spec": {
            "nodeName": NODE, "restartPolicy": self.policy, **inits,
            "containers": [{"name": name, **probes} for name in self.containers]}}


class Play:
    """One node for some minutes, and what its kubelet and its runtime write."""

    def __init__(self, seed, number):
        self.chance = chance = random.Random(f"{seed} {number}")
        self.era, self.runtime = chance.choice(ERAS), chance.choice(RUNTIMES)
        self.verbosity = chance.randrange(5)
        self.until = chance.choice((300, 900, 2400, 5000))
        self.turns = 0
        # when a process of the kubelet begins after another one
        self.restarts = []
        self.of_kubelet, self.of_runtime = [], []
        self.pods, self.made, self.due = [], [], []

    # --- what is written ---

    def say(self, at, level, printed, keyed, is_error=False):
        """A message of the kubelet, as its era has it."""
        if level > self.verbosity:
            return
        stamp = time.strftime("%m%d %H:%M:%S", time.gmtime(BEGIN + at)) + f".{int(at % 1 * 1e6):06d}"
        self.of_kubelet.append((at, f"{SEVERITY[is_error]}{stamp}", printed if self.era == ERAS[0] else keyed))

    def lines_of_kubelet(self):
        """The messages, each of the process that runs then: one that has ended writes nothing more."""
        for at, head, said in self.of_kubelet:
            process = FIRST_PROCESS + bisect.bisect_right(self.restarts, at)
            yield at, process, f"{head} {process:7d} a.go:1] {said}"

    def tell(self, at, containerd, crio):
        """A line of the runtime."""
        said = crio if self.runtime == "crio" else containerd if self.runtime.startswith("containerd") else None
        if said is not None:
            stamp = time.strftime("%Y-%m-%dT%H:%M:%S", time.gmtime(BEGIN + at)) + f".{int(at % 1 * 1e9):09d}Z"
            self.of_runtime.append((at, 77, f'time="{stamp}" level=info msg={said}'))

    def look(self, at, pod, what, identity):
        """The kubelet's look finds that something started or died, up to a second later."""
        at += self.chance.random()
        event = json.dumps({"ID": pod.uid, "Type": what, "Data": identity}, separators=(",", ":"))
        if self.era == "1.21":
            event = f"&{{ID:{pod.uid} Type:{what} Data:{identity}}}"
        self.say(at, 2, f'SyncLoop (PLEG): "{pod.placed}", event: &pleg.PodLifecycleEvent{{ID:"{pod.uid}", '
                 f'Type:"{what}", Data:"{identity}"}}',
                 f'"SyncLoop (PLEG): event for pod" pod="{pod.key}" event={event}')
        return at

    def loop(self, at, what, pod, source="api", uid=None):
        placed = pod.placed if uid is None else f"{pod.name}_shop({uid})"
        self.say(at, 2, f'SyncLoop ({what}, "{source}"): "{placed}"',
                 f'"SyncLoop {what}" source="{source}" pods=["{pod.key}"]')

    def wait(self, at, pod, name, reason, message):
        said = f'failed to "StartContainer" for "{name}" with {reason}: "{message}"'
        quoted = said.replace('"', '\\"')
        self.say(at, 0, f'Error syncing pod {pod.uid} ("{pod.placed}"), skipping: {said}',
                 f'"Error syncing pod, skipping" err="{quoted}" pod="{pod.key}" podUID="{pod.uid}"', True)

    def patch(self, at, pod, status):
        """A status that the kubelet sends."""
        text = json.dumps({"metadata": {"uid": pod.uid}, "status": status}, separators=(",", ":"))
        quoted = json.dumps(text)
        self.say(at, 3, f'Patch status for pod "{pod.placed}" with {quoted}',
                 f'"Patch status for pod" pod="{pod.key}" podUID="{pod.uid}" patch={quoted}')

    # --- what happens ---

    def identity(self):
        return f"{self.chance.getrandbits(256):064x}"

    def play(self):
        """All of it: pods come at first, and then one thing follows the other."""
        chance = self.chance
        if chance.random() < 0.8:
            self.say(0.2, 0, "Started kubelet", '"Started kubelet"')
        for name in chance.sample(NAMES, chance.randrange(1, len(NAMES) + 1)):
            self.due.append((chance.uniform(0.5, 20), self.come, name))
        for _ in range(chance.randrange(4)):
            self.due.append((chance.uniform(60, self.until), self.restart, None))
        for _ in range(chance.randrange(3)):
            self.due.append((chance.uniform(60, self.until), self.evict, None))
        while self.due:
            self.due.sort(key=lambda each: each[0])
            at, what, of = self.due.pop(0)
            if at < self.until and len(self.made) < 40:
                what(at, of)
        return self

    def later(self, at, what, of):
        self.due.append((at, what, of))

    def come(self, at, name):
        """A pod comes, is rejected, or waits for its image."""
        chance, pod = self.chance, Pod(self.chance, len(self.made), name)
        self.made.append(pod)
        source = "file" if pod.is_static else "api"
        self.loop(at, "ADD", pod, source)
        if pod.is_static:
            self.loop(at + 0.2, "ADD", pod, "api", "0" * 8 + pod.uid[8:16] + "-" + pod.uid[16:])
        if chance.random() < 0.06 and not pod.is_static:
            self.refuse(at + 0.1, pod)
            return
        self.pods.append(pod)
        pod.sandbox = self.identity()
        self.tell(at + 0.5, f'"RunPodSandbox for &PodSandboxMetadata{{Name:{pod.name},Uid:{pod.uid},Namespace:shop,'
                  f'Attempt:0,}} returns sandbox id \\"{pod.sandbox}\\""',
                  f'"Ran pod sandbox {pod.sandbox} with infra container: {pod.key}/POD"')
        names = pod.inits or pod.containers
        seen = self.look(at + 0.6, pod, "ContainerStarted", pod.sandbox) if chance.random() < 0.9 else at + 1
        for name_of in names[:1] if pod.inits else names:
            self.start(at + 0.7, (pod, name_of))
        if chance.random() < 0.7:
            self.later(seen + chance.expovariate(1 / 400), self.delete, pod)

    def refuse(self, at, pod):
        said = "Node didn't have enough resource: cpu, requested: 100000, used: 3400, capacity: 4000"
        self.say(at, 2, f"Predicate failed on Pod: {pod.placed}, for reason: {said}",
                 f'"Pod admission denied" podUID="{pod.uid}" pod="{pod.key}" reason="OutOfcpu" message="{said}"')
        self.later(at + 20, self.come, pod.name)

    def start(self, at, of):
        """A container starts, or can't be started; it exits some time later."""
        pod, name = of
        chance = self.chance
        if pod not in self.pods or name in pod.running:
            return
        if chance.random() < 0.05:
            self.wait(at, pod, name, "ImagePullBackOff", "Back-off pulling image")
            self.later(at + 15, self.start, of)
            return
        identity = self.identity()
        self.tell(at, f'"CreateContainer within sandbox \\"{pod.sandbox}\\" for &ContainerMetadata{{Name:{name},'
                  f'Attempt:{pod.exits[name]},}} returns container id \\"{identity}\\""',
                  f'"Created container {identity}: {pod.key}/{name}" id=1')
        if chance.random() < 0.05:
            self.fail(at + 0.1, pod, name, identity)
            return
        self.tell(at + 0.1, f'"StartContainer for \\"{identity}\\" returns successfully"',
                  f'"Started container" PID=1 containerID={identity} description={pod.key}/{name} id=1')
        pod.running[name] = identity
        lasts = chance.expovariate(1 / chance.choice((0.4, 5, 60, 600)))
        if lasts > 1 or chance.random() < 0.5:
            self.look(at + 0.1, pod, "ContainerStarted", identity)
        if pod.probed:
            self.probe(at, pod, name, lasts)
        self.later(at + 0.2 + lasts, self.exit, (pod, name, identity, None))

    def probe(self, at, pod, name, lasts):
        """Results of a probe while an instance runs."""
        probe = self.chance.choice(("Liveness", "Readiness"))
        for place in range(min(int(lasts // 5), 12)):
            is_bad, moment = self.chance.random() < 0.2, at + 5 * place + 2
            word = "failed (failure): HTTP probe failed with statuscode: 503" if is_bad else "succeeded"
            keyed = f'"Probe failed" probeType="{probe}" pod="{pod.key}" podUID="{pod.uid}" containerName="{name}" ' \
                f'probeResult="failure" output="HTTP probe failed with statuscode: 503"' if is_bad else \
                f'"Probe succeeded" probeType="{probe}" pod="{pod.key}" podUID="{pod.uid}" containerName="{name}"'
            self.say(moment, 1 if is_bad else 3, f'{probe} probe for "{pod.placed}:{name}" {word}', keyed)

    def fail(self, at, pod, name, identity):
        """A container could not be started."""
        self.wait(at, pod, name, "RunContainerError", "failed to create containerd task: no such file or directory")
        pod.running[name] = identity
        self.exit(at + 0.1, (pod, name, identity, 128))

    def exit(self, at, of):
        """An instance exits, and comes again as the pod's policy has it."""
        pod, name, identity, code = of
        chance = self.chance
        if pod.running.get(name) != identity:
            return
        del pod.running[name]
        code = chance.choice(CODES) if code is None else code
        self.end(at, pod, name, identity, code)
        pod.exits[name] += 1
        is_init = name in pod.inits
        if pod not in self.pods:
            return
        if is_init and code == 0:
            place = pod.inits.index(name) + 1
            for following in pod.inits[place:place + 1] or pod.containers:
                self.later(at + 1.2, self.start, (pod, following))
        elif pod.policy == "Always" and not is_init or code != 0 and pod.policy != "Never":
            back_off = BACK_OFFS[min(pod.exits[name] - 1, 6)]
            if back_off:
                said = f"back-off {back_off}s restarting failed container={name} pod={pod.placed}"
                self.wait(at + 1.1, pod, name, "CrashLoopBackOff", said)
            self.later(at + 1.2 + back_off, self.start, (pod, name))

    def end(self, at, pod, name, identity, code):
        """The lines of an exit."""
        stamp = time.strftime("%Y-%m-%dT%H:%M:%SZ", time.gmtime(BEGIN + at))
        said = f'"received exit event container_id:\\"{identity}\\" id:\\"{identity}\\" pid:1 exit_status:{code} ' \
            f'exited_at:{{seconds:{int(BEGIN + at)} nanos:{int(at % 1 * 1e9)}}}"'
        if self.runtime == "containerd-1.6":
            said = f'"shim disconnected" id={identity}'
        self.tell(at + 0.05, said, f'"Stopped container {identity}: {pod.key}/{name}" id=1')
        seen = at + self.chance.random()
        if self.era != ERAS[0]:
            self.say(seen, 2, "", f'"Generic (PLEG): container finished" podID="{pod.uid}" containerID="{identity}" '
                     f"exitCode={code}")
        if self.chance.random() < 0.95:
            self.look(seen, pod, "ContainerDied", identity)
        ended = {"exitCode": code, "reason": "Error" if code else "Completed", "finishedAt": stamp,
                 "containerID": f"containerd://{identity}"}
        self.patch(seen + 1, pod, {"containerStatuses": [{
            "name": name, "restartCount": pod.exits[name], "containerID": f"containerd://{identity}",
            "state": {"terminated": ended}}]})

    def stop(self, at, pod, has_order=True):
        """What a pod is running is stopped."""
        self.pods.remove(pod)
        for name, identity in list(pod.running.items()):
            if has_order:
                self.say(at, 2, f'Killing container "containerd://{identity}" with a 30 second grace period',
                         f'"Killing container with a grace period" pod="{pod.key}" podUID="{pod.uid}" containerName='
                         f'"{name}" containerID="containerd://{identity}" gracePeriod=30')
            self.exit(at + self.chance.uniform(0.1, 12), (pod, name, identity, None))
        if self.chance.random() < 0.8:
            self.look(at + 12, pod, "ContainerDied", pod.sandbox)

    def delete(self, at, pod):
        """A pod is deleted, by force or not, or ends for another reason; another one may come under its name."""
        chance = self.chance
        if pod not in self.pods:
            return
        kind = chance.choice(("delete", "delete", "delete", "force", "preempt", "deadline", "shutdown"))
        is_deleted = kind in ("delete", "force") or pod.is_static
        if is_deleted and not pod.is_static:
            self.loop(at, "DELETE", pod)
        elif kind == "preempt":
            self.say(at + 0.3, 0, f"preemption: pod {pod.placed} evicted successfully",
                     f'"Pod evicted successfully" pod="{pod.key}"')
        elif kind == "shutdown":
            self.say(at, 1, f'Shutdown manager killing pod "{pod.placed}" with gracePeriod: 30 seconds',
                     f'"Shutdown manager killing pod with gracePeriod" pod="{pod.key}" gracePeriod=30')
        elif kind == "deadline":
            self.patch(at, pod, {"phase": "Failed", "reason": "DeadlineExceeded",
                                 "message": "Pod was active on the node longer than the specified deadline"})
        self.stop(at + 0.01, pod, kind != "force")
        if is_deleted and chance.random() < 0.9:
            self.loop(at + (0.02 if kind == "force" else 13), "REMOVE", pod, "file" if pod.is_static else "api")
        if is_deleted and chance.random() < 0.8:
            self.later(at + chance.choice((0.05, 1, 13, 14, 60)), self.come, pod.name)

    def evict(self, at, _):
        """The kubelet evicts a pod, and cleans up after that."""
        if not self.pods:
            return
        pod = self.chance.choice(self.pods)
        others = ", ".join(each.placed for each in self.pods)
        keys = ",".join(f'"{each.key}"' for each in self.pods)
        self.say(at, 0, "eviction manager: attempting to reclaim memory",
                 '"Eviction manager: attempting to reclaim" resourceName="memory"')
        self.say(at + 0.1, 0, f"eviction manager: pods ranked for eviction: {others}",
                 f'"Eviction manager: pods ranked for eviction" pods=[{keys}]')
        self.stop(at + 0.2, pod)
        after = at + self.chance.choice((0.5, 3, 13))
        self.say(after, 0, f"eviction manager: pod {pod.placed} is evicted successfully",
                 f'"Eviction manager: pod is evicted successfully" pod="{pod.key}"')
        if self.chance.random() < 0.7:
            self.say(after + 1, 0, f"eviction manager: pods {pod.placed} successfully cleaned up",
                     f'"Eviction manager: pods successfully cleaned up" pods=["{pod.key}"]')
        if self.chance.random() < 0.5:
            self.later(after + 5, self.delete_object, pod)

    def delete_object(self, at, pod):
        """The object of a pod that was evicted is deleted, and one of its name comes."""
        self.loop(at, "DELETE", pod)
        self.loop(at + 0.1, "REMOVE", pod)
        self.later(at + 1, self.come, pod.name)

    def restart(self, at, _):
        """Another process of the kubelet begins, and finds what runs."""
        bisect.insort(self.restarts, at)
        self.say(at, 0, "Started kubelet", '"Started kubelet"')
        for pod in self.pods:
            self.loop(at + 0.5, "ADD", pod, "file" if pod.is_static else "api")
            for identity in (pod.sandbox, *pod.running.values()):
                self.look(at + 0.6, pod, "ContainerStarted", identity)
            self.patch(at + 2, pod, {"conditions": [{
                "type": "Ready", "status": "False",
                "message": f"containers with unready status: [{' '.join(pod.containers)}]"}]})


# --- journals ---


def worn(lines, chance):
    """Lines as a journal may have them: all, or some of them lost, or from the middle on."""
    lines = sorted(lines, key=lambda line: line[0])
    kind = chance.choice(("whole", "whole", "whole", "lost", "middle", "twice"))
    if kind == "lost":
        return [line for line in lines if chance.random() > 0.1]
    if kind == "middle":
        return lines[chance.randrange(len(lines) + 1):]
    if kind == "twice":
        return [line for line in lines for _ in range(1 + (chance.random() < 0.1))]
    return lines


def as_json(lines, unit):
    """As `journalctl -o json` prints them."""
    return "".join(json.dumps({
        "__REALTIME_TIMESTAMP": str(int((BEGIN + at) * 1e6)), "_HOSTNAME": NODE, "SYSLOG_IDENTIFIER": unit,
        "_SYSTEMD_UNIT": f"{unit}.service", "_PID": str(process), "MESSAGE": said}) + "\n"
        for at, process, said in lines)


def journals_of(seed, number):
    """The files of a journal by their names: kubelet, runtime and pods, each as text; and what it is."""
    play = Play(seed, number).play()
    chance = play.chance
    is_json = chance.random() < 0.6
    found = {}
    for name, unit, lines in (("kubelet", "kubelet", play.lines_of_kubelet()),
                              ("runtime", "crio" if play.runtime == "crio" else "containerd", play.of_runtime)):
        kept = worn(lines, chance)
        text = as_json(kept, unit) if is_json else "".join(f"{said}\n" for _, _, said in kept)
        if text:
            found[name] = text
    known = play.made if chance.random() < 0.6 else [pod for pod in play.made if chance.random() < 0.5]
    if known and chance.random() < 0.8:
        found["pods"] = json.dumps({"kind": "PodList", "items": [pod.manifest() for pod in known]})
    return found, f"{play.era} -v={play.verbosity} {play.runtime}"
