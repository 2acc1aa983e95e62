"""Answers tools/record as a node: by a script of what happens at which moment, or by answers that were captured."""

import gzip
import json
import re
import time
from bisect import bisect

from replay_tools.record.sources import Failed

RESULTS = {"success": "successful", "failure": "failed", "unknown": "unknown"}


def moment_text(moment):
    """A moment as Go writes it, to a thousandth; its zero for None."""
    if moment is None:
        return "1970-01-01T00:00:00Z"
    return time.strftime("%Y-%m-%dT%H:%M:%S", time.gmtime(moment)) + f".{round(moment % 1 * 1000):03}Z"


def kind_of(words):
    """Which answer a command asks for, and of which container."""
    if "logs" in words:
        return "logs", words[-1]
    if words[0] == "crictl":
        return ("ps", None) if words[1] == "ps" else ("inspect", words[-1])
    text = " ".join(words)
    if re.search("/api/v1/nodes/[^/]+$", text):
        return "node", None
    kinds = [kind for kind in ("cadvisor", "events", "configz", "summary", "probes", "pods", "metrics")
             if kind in text]
    return kinds[0], text.rpartition("%3D")[2] if kinds[0] == "events" else None


class Play:
    """A script: its moments are seconds from `begin` on. It has
    clock       what the clock shows at each poll, where it is no good one, and `true` the moments of these polls
    pods        {key: {"from", "until", "spec", "annotations", "deleted", "grace", "evicted", "refused", "failed",
                "reason", "message", "condition", "waits"}}; a key may have a list of them, one after the other;
                `grace` is its deletion's, `failed` since when the kubelet has ended it, for `reason`, with its
                containers as they are; `condition` the moment that an evicted pod's status has, and `waits` a list of
                {"container", "from", "until", "count", "reason", "message"}, of its status too, with its count of
                restarts; `says` is a list of {"from", "status"}: members that its status has from then on; `resized` is
                a list of {"from", "resources"}: the resources of containers of its spec from then on, by their names
    containers  {"id", "pod", "name", "attempt", "created", "started", "exited", "code", "removed", "lost", "told",
                "reason", "message", "env", "told_reason", "told_message", "shown", "wrote"}: `lost` is when
                `crictl inspect` no longer knows it while a list still has it, and `told` when its pod's status has its
                exit, for `told_reason` and with `told_message` where they are others; until then that has `shown` of it
                too; `wrote` are its lines
    probes      {"pod", "container", "probe", "result", "at": [moments that rise]}
    samples     {moment: {signal: value}} of the node, as the kubelet takes them; `pods` has the memory of each uid, and
                `containers` {uid: {name: [working set, usage, nanocores, moment]}}
    throttled   {moment: {container id: [seconds, moment]}}: for how long processors were throttled
    events      [{"at"}]: Events of the API, as they are from a moment on
    ready       [{"at", "status", "reason"}]: the condition Ready of the node's object
    started     [moments] at which the kubelet was started; its counts of probes begin again with each
    lists       [{"from", "until", "pods": [keys]}]: when a list of pods has these alone
    fails       {"kind", "from", "until", "text"}: answers that do not come
    slow        {kind: seconds}: how long an answer takes, for which the clock goes on
    empty       [from, until]: when no probe is counted
    configz     the object `kubeletconfig`
    """

    def __init__(self, path):
        with open(path, encoding="utf-8") as file:
            self.script = json.load(file)
        self.begin = self.script["begin"]
        self.clock = [self.begin + moment for moment in self.script.get("clock", [0])]
        self.said_last, self.look = None, -1

    def answer(self, words, now):
        moment, (kind, identity) = self.true_moment(now), kind_of(words)
        for fault in self.script.get("fails", []):
            if fault["kind"] == kind and fault["from"] <= moment < fault["until"]:
                raise Failed(fault["text"])
        if kind == "inspect":
            return self.inspected(identity, moment)
        if kind == "events":
            return self.events(identity, moment)
        if kind == "logs":
            [each] = [each for each in self.script["containers"] if each["id"] == identity]
            return "\n".join(each.get("wrote", [])[-int(words[-2]):])
        return getattr(self, kind)(moment)

    def seconds(self, words):
        """How long the answer to a command takes."""
        return self.script.get("slow", {}).get(kind_of(words)[0], 0)

    def true_moment(self, now):
        """The moment that the clock shows; a poll of its own each time that it shows something else."""
        if "true" not in self.script:
            return now - self.begin
        if now != self.said_last:
            self.said_last = now
            self.look += 1
        return self.script["true"][self.look]

    # --- the runtime ---

    def is_there(self, each, moment):
        """Whether a list has an instance. One that is lost at a moment is in the first list from then on, and in none
        after it."""
        if "lost" in each and moment >= each["lost"]:
            return not each.get("was_listed")
        return each.get("created", each.get("started", 0)) <= moment < each.get("removed", float("inf"))

    def state(self, each, moment):
        if each.get("exited", float("inf")) <= moment:
            return "CONTAINER_EXITED"
        return "CONTAINER_RUNNING" if each.get("started", float("inf")) <= moment else "CONTAINER_CREATED"

    def uid(self, each):
        return each.get("uid", f"uid-{each['pod'].split('/')[1]}")

    def ps(self, moment):
        listed = [each for each in self.script["containers"] if self.is_there(each, moment)]
        for each in listed:
            each["was_listed"] = "lost" in each and moment >= each["lost"]
        return json.dumps({"containers": [{
            "id": each["id"], "metadata": {"name": each["name"], "attempt": each["attempt"]},
            "state": self.state(each, moment),
            "createdAt": str(round((self.begin + each.get("created", each.get("started", 0))) * 1e9)),
            "labels": {"io.kubernetes.container.name": each["name"], "io.kubernetes.pod.uid": self.uid(each),
                       **dict(zip(("io.kubernetes.pod.namespace", "io.kubernetes.pod.name"), each["pod"].split("/")))}}
            for each in listed]})

    def inspected(self, identity, moment):
        [each] = [each for each in self.script["containers"] if each["id"] == identity]
        if "lost" in each and moment >= each["lost"] or not self.is_there(each, moment):
            raise Failed(f"failed with status 1: container \"{identity}\": not found")
        state = self.state(each, moment)
        started, exited = (None if name not in each else self.begin + each[name] for name in ("started", "exited"))
        status = {"id": identity, "state": state, "startedAt": moment_text(started),
                  "finishedAt": moment_text(exited if state == "CONTAINER_EXITED" else None),
                  "reason": "", "message": ""}
        if state == "CONTAINER_EXITED":
            status |= {"exitCode": each["code"], "reason": each.get("reason", ""), "message": each.get("message", "")}
        return json.dumps({"status": status, "info": {"runtimeSpec": {"process": {"env": each.get("env", [])}}}})

    # --- the kubelet ---

    def probes(self, moment):
        if any(since <= moment < until for since, until in self.script.get("empty", [])):
            return ""
        counts, started = {}, self.started(moment) if "started" in self.script else float("-inf")
        for each in self.script.get("probes", []):
            labels = (each["container"], self.uid(each), each["probe"].capitalize(), RESULTS[each["result"]])
            counts[labels] = counts.get(labels, 0) + bisect(each["at"], moment) - bisect(each["at"], started)
        lines = [f'prober_probe_total{{container="{container}",pod_uid="{uid}",probe_type="{probe}",'
                 f'result="{result}"}} {count}' for (container, uid, probe, result), count in counts.items() if count]
        return "".join(f"{line}\n" for line in lines)

    def started(self, moment):
        """When the kubelet was started last."""
        return max(each for each in self.script.get("started", [-3600]) if each <= moment)

    def metrics(self, moment):
        """The kubelet's own metrics, among them when it was started."""
        return f"go_threads 20\nprocess_start_time_seconds {self.begin + self.started(moment):.11e}\n"

    def pods(self, moment):
        items = []
        kept = [each["pods"] for each in self.script.get("lists", []) if each["from"] <= moment < each["until"]]
        for key, lives in self.script["pods"].items():
            if kept and key not in kept[-1]:
                continue
            for life in lives if isinstance(lives, list) else [lives]:
                if life.get("from", 0) <= moment < life.get("until", float("inf")):
                    items.append(self.pod(key, life, moment))
        return json.dumps({"kind": "PodList", "items": items or (None if kept else [])})

    def pod(self, key, life, moment):
        namespace, name = key.split("/")
        metadata = {"namespace": namespace, "name": name, "uid": life.get("uid", f"uid-{name}")}
        if life.get("deleted", float("inf")) <= moment:
            metadata["deletionTimestamp"] = moment_text(self.begin + life["deleted"] + life.get("grace", 0))
            metadata |= {"deletionGracePeriodSeconds": life["grace"]} if "grace" in life else {}
        if "annotations" in life:
            metadata["annotations"] = life["annotations"]
        return {"metadata": metadata, "spec": self.spec(life, moment),
                "status": self.status(life, metadata["uid"], moment)}

    def spec(self, life, moment):
        """A pod's spec, whose containers may have been resized."""
        found = {name: resources for each in life.get("resized", []) if each["from"] <= moment
                 for name, resources in each["resources"].items()}
        return {member: [each | ({"resources": found[each["name"]]} if each["name"] in found else {}) for each in value]
                if member in ("initContainers", "containers") else value for member, value in life["spec"].items()}

    def status(self, life, uid, moment):
        """A pod's status; a pod that the kubelet ended has no containers in it."""
        ended = min(life.get("evicted", float("inf")), life.get("refused", float("inf")))
        if ended <= moment:
            status = {"phase": "Failed", "reason": "Evicted", "message": life.get("message", "")}
            if "condition" in life:
                status["conditions"] = [{"type": "DisruptionTarget", "status": "True", "reason": "TerminationByKubelet",
                                         "lastTransitionTime": moment_text(self.begin + life["condition"])}]
            return status
        told = [each for each in self.script["containers"] if self.uid(each) == uid and "told" in each]
        listed = [self.told(each, moment) for each in told]
        listed += [{"name": each["container"], **({"restartCount": each["count"]} if "count" in each else {}),
                    "state": {"waiting": {"reason": each["reason"], "message": each.get("message", "")}}}
                   for each in life.get("waits", []) if each["from"] <= moment < each.get("until", float("inf"))]
        has_failed = life.get("failed", float("inf")) <= moment
        phase = {"phase": "Failed", "reason": life["reason"], "message": life.get("message", "")} if has_failed else {
            "phase": "Running"}
        says = [each["status"] for each in life.get("says", []) if each["from"] <= moment]
        return {**phase, **({"containerStatuses": listed} if listed else {}), **(says[-1] if says else {})}

    def told(self, each, moment):
        """What a pod's status has of an instance."""
        if moment < each["told"]:
            return {"name": each["name"], "state": {"running": {}}, **each.get("shown", {})}
        started = self.begin + each["started"] if "started" in each else None
        return {"name": each["name"], "state": {"terminated": {
            "containerID": f"containerd://{each['id']}", "startedAt": moment_text(started),
            "finishedAt": moment_text(self.begin + each["exited"]), "exitCode": each["code"],
            "reason": each.get("told_reason", each.get("reason", "")), "message": each.get("told_message", "")}}}

    def summary(self, moment):
        samples = {float(at): sample for at, sample in self.script["samples"].items()}
        newest = max(at for at in samples if at <= moment)
        sample, sampled = samples[newest], moment_text(self.begin + newest)
        node = {"memory": {"time": sampled, "availableBytes": sample["memory"], "workingSetBytes": 2 ** 30}}
        pods = [{"podRef": {"uid": uid}, "memory": {"time": sampled, "workingSetBytes": used},
                 **self.stats(sample.get("containers", {}).get(uid))} for uid, used in sample.get("pods", {}).items()]
        return json.dumps({"node": node, "pods": pods})

    def stats(self, containers):
        """What a pod's containers used, where the script has it."""
        if containers is None:
            return {}
        return {"containers": [{"name": name, "cpu": {"usageNanoCores": cores}, "memory": {
            "time": moment_text(self.begin + at), "workingSetBytes": working_set, "usageBytes": usage}}
            for name, (working_set, usage, cores, at) in containers.items()]}

    def cadvisor(self, moment):
        """What the kubelet's /metrics/cadvisor has of throttling, among other metrics."""
        answers = {float(at): answer for at, answer in self.script.get("throttled", {}).items()}
        newest = max((at for at in answers if at <= moment), default=None)
        made = {each["id"]: each for each in self.script["containers"]}
        lines = ["# TYPE container_cpu_usage_seconds_total counter"]
        for identity, (seconds, at) in answers.get(newest, {}).items():
            namespace, pod = made[identity]["pod"].split("/")
            group = f"/kubepods.slice/kubepods-pod{pod}.slice/cri-containerd-{identity}.scope"
            labels = (f'container="{made[identity]["name"]}",id="{group}",image="web:1",name="{identity}",'
                      f'namespace="{namespace}",pod="{pod}"')
            sampled = round((self.begin + at) * 1000)
            lines += [f'container_cpu_usage_seconds_total{{{labels},cpu="total"}} 1 {sampled}',
                      f"container_cpu_cfs_throttled_seconds_total{{{labels}}} {seconds} {sampled}"]
        return "\n".join(lines) + "\n"

    def events(self, uid, moment):
        """The Events of a pod, each as it was last."""
        newest = {each["metadata"]["uid"]: each for each in self.script.get("events", [])
                  if each["involvedObject"]["uid"] == uid and each["at"] <= moment}
        return json.dumps({"kind": "EventList", "items": [
            {**each, "lastTimestamp": moment_text(self.begin + each["at"])} for each in newest.values()]})

    def node(self, moment):
        """The node's object, with its condition Ready."""
        conditions = [each for each in self.script.get("ready", []) if each["at"] <= moment]
        return json.dumps({"kind": "Node", "status": {"conditions": [{
            "type": "Ready", "lastTransitionTime": moment_text(self.begin + each["at"]),
            **{name: each[name] for name in ("status", "reason") if name in each}} for each in conditions[-1:]]}})

    def configz(self, moment):
        return json.dumps({"kubeletconfig": self.script.get("configz", {})})


class Captured:
    """Answers that were captured, a line of JSON for each look: its moment, and the answers that were others than at
    the look before: {"at": moment, "answers": {kind or container id: text, or {"failed": text}}}."""

    def __init__(self, path):
        with gzip.open(path, "rt", encoding="utf-8") as file:
            self.entries = [json.loads(line) for line in file]
        self.looks = [entry["at"] for entry in self.entries]
        self.now = {}
        self.next = 0

    def answer(self, words, now):
        kind, identity = kind_of(words)
        while self.next < len(self.entries) and self.entries[self.next]["at"] <= now:
            self.now.update(self.entries[self.next]["answers"])
            self.next += 1
        answer = self.now.get(identity or kind)
        if answer is None:
            raise Failed("failed with status 1: no such answer was captured")
        if isinstance(answer, dict) and "failed" in answer:
            raise Failed(answer["failed"])
        return answer if isinstance(answer, str) else json.dumps(answer)
