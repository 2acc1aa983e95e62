"""The kubelet and the runtime of a run whose whole watch was kept, asked again at any moment: what /pods showed twice a
second, the summary of each second, the runtime's events, and the results of probes and the starts of the kubelet by its
log. tools/record can so be tried on a run that is over, at any --look.

    kept_run.py FOLDER WORD..                           the trace of `tools/record WORD..`, begun PHASE seconds later
    kept_run.py FOLDER --count TRACE REPORT                 what a report has of what the kubelet did
    kept_run.py FOLDER --answers FROM UNTIL OUT.jsonl.gz    all answers of twice a second, as a recording of tools/tests
"""

import bisect
import calendar
import gzip
import json
import lzma
import os
import re
import sys
import time

HERE = os.path.dirname(os.path.realpath(__file__))
sys.dont_write_bytecode = True
sys.path.insert(0, os.path.join(HERE, "..", "..", "..", "tools"))
from replay_tools.record import program, sources  # noqa: E402
import counted  # noqa: E402
import trimmed  # noqa: E402

PROBE = re.compile(r"[IW](\d\d)(\d\d) (\d\d):(\d\d):(\d\d\.\d+).*prober\.go:\d+\] (Readiness|Liveness|Startup) probe "
                   r'for "[^"(]*\(([-0-9a-f]+)\):([-a-z0-9]+)" (succeeded|failed|errored)')
STARTED = re.compile(r"I(\d\d)(\d\d) (\d\d):(\d\d):(\d\d\.\d+) .*flags\.go:59\] FLAG: --add-dir-header")
LISTENS = re.compile(r"I(\d\d)(\d\d) (\d\d):(\d\d):(\d\d\.\d+) .*\] Starting to listen on ")
EVENT = re.compile(r"(\S+ \d\d:\d\d:\d\d\.\d+) \+0000 UTC \S+ (\S+) (\{.*\})")
RESULTS = {"succeeded": "successful", "failed": "failed", "errored": "unknown"}
SANDBOX = "pause"


def lines_of(folder, name):
    """The lines of a kept file, as it was packed."""
    for end, opened in ((".xz", lzma.open), (".gz", gzip.open), ("", open)):
        if os.path.exists(f"{folder}/{name}{end}"):
            with opened(f"{folder}/{name}{end}", "rt", encoding="utf-8", errors="replace") as file:
                return file.read().splitlines()
    return []


def seconds(text):
    whole, _, part = text.partition(".")
    return calendar.timegm(time.strptime(whole, "%Y-%m-%d %H:%M:%S")) + float(f"0.{part or 0}")


def run_moment(text):
    return seconds(text.rstrip("Z").replace("T", " "))


def moment_text(moment):
    if moment is None:
        return "1970-01-01T00:00:00Z"
    return time.strftime("%Y-%m-%dT%H:%M:%S", time.gmtime(moment)) + f".{int(moment % 1 * 10 ** 6):06}Z"


class Runtime:
    """The containers of the runtime's events, each with its pod by the statuses that named it."""

    def __init__(self, folder, shown):
        self.found = {}
        for name in ("ctr-events", "ctr-events.log"):
            for line in lines_of(folder, name):
                event = EVENT.match(line)
                if event:
                    self.take(seconds(event[1][:26]), event[2], json.loads(event[3]))
        self.name(shown)

    def take(self, moment, topic, said):
        identity = said.get("container_id", said.get("id"))
        each = self.found.setdefault(identity, {"id": identity})
        if topic == "/containers/create" and SANDBOX in said.get("image", ""):
            each["sandbox"] = True
        if topic == "/tasks/exit" and said.get("id") == identity:
            each.update(exited=seconds(said["exited_at"].rstrip("Z").replace("T", " ")[:26]),
                        code=said.get("exit_status", 0))
        elif topic == "/tasks/oom":
            each["oom"] = True
        elif topic in ("/containers/create", "/tasks/start", "/containers/delete"):
            each[topic.rpartition("/")[2]] = moment

    def name(self, shown):
        count = {}
        for entry in shown:
            for pod in entry["pods"]:
                status = pod["status"]
                for container in (status.get("initContainerStatuses") or []) + (status.get("containerStatuses") or []):
                    for state in ("lastState", "state"):
                        self.name_one(pod["metadata"], container, container.get(state) or {}, count)
                    self.name_running(pod["metadata"], container, count)

    def name_one(self, metadata, container, state, count):
        ended = state.get("terminated")
        if ended and ended.get("containerID"):
            self.label(ended["containerID"].rpartition("//")[2], metadata, container["name"], count, ended)

    def name_running(self, metadata, container, count):
        if container.get("containerID"):
            self.label(container["containerID"].rpartition("//")[2], metadata, container["name"], count, {})

    def label(self, identity, metadata, name, count, ended):
        each = self.found.setdefault(identity, {"id": identity})
        if "uid" not in each:
            place = metadata["uid"], name
            each.update(uid=metadata["uid"], namespace=metadata["namespace"], pod=metadata["name"], name=name,
                        attempt=count.get(place, 0))
            count[place] = each["attempt"] + 1
        each.update({key: ended[key] for key in ("reason", "message") if ended.get(key)})
        if "exitCode" in ended and "exited" not in each:
            # it never ran, so the runtime had no event of its end
            each.update(code=ended["exitCode"], exited=each.get("create", run_moment(ended["finishedAt"])))

    def listed(self, moment):
        return [each for each in self.found.values() if "uid" in each and not each.get("sandbox")
                and each.get("create", each.get("start", 0)) <= moment < each.get("delete", float("inf"))]

    @staticmethod
    def state(each, moment):
        if each.get("exited", float("inf")) <= moment:
            return "CONTAINER_EXITED"
        return "CONTAINER_RUNNING" if each.get("start", float("inf")) <= moment else "CONTAINER_CREATED"

    def ps(self, moment):
        return json.dumps({"containers": [{
            "id": each["id"], "metadata": {"name": each["name"], "attempt": each["attempt"]},
            "state": self.state(each, moment),
            "createdAt": str(round(each.get("create", each.get("start", 0)) * 10 ** 9)),
            "labels": {"io.kubernetes.container.name": each["name"], "io.kubernetes.pod.uid": each["uid"],
                       "io.kubernetes.pod.namespace": each["namespace"], "io.kubernetes.pod.name": each["pod"]}}
            for each in self.listed(moment)]})

    def inspect(self, identity, moment):
        each = self.found.get(identity)
        if each is None or each not in self.listed(moment):
            raise sources.Failed(f'failed with status 1: container "{identity}": not found')
        state = self.state(each, moment)
        status = {"id": identity, "state": state, "startedAt": moment_text(each.get("start"))}
        if state == "CONTAINER_EXITED":
            reason = "OOMKilled" if each.get("oom") else each.get("reason", "Error" if each["code"] else "Completed")
            status.update(finishedAt=moment_text(each["exited"]), exitCode=each["code"], reason=reason)
        return json.dumps({"status": status})


class Kubelet:
    """What a kubelet answered, or would have."""

    def __init__(self, folder, shown):
        self.shown, self.shown_at = shown, [each["at"] for each in shown]
        self.year = time.gmtime(shown[0]["at"]).tm_year
        self.watch = [json.loads(line) for line in lines_of(folder, "watch.jsonl")]
        self.watch_at = [each["at"] for each in self.watch]
        self.summaries = [json.loads(line) for line in lines_of(folder, "summary.jsonl")]
        self.summary_at = [each["at"] for each in self.summaries]
        self.specs = self.specs_of(self.watch)
        with open(f"{folder}/configz.json", encoding="utf-8") as file:
            self.configz = file.read()
        log = lines_of(folder, "kubelet.log")
        self.starts = [self.moment(found.groups()) for found in map(STARTED.match, log) if found]
        self.listens = [self.moment(found.groups()) for found in map(LISTENS.match, log) if found]
        self.ends = [each[0] for each in map(json.loads, lines_of(folder, "did.jsonl")) if each[1] == "kubelet ended"]
        self.results = self.results_of(log)

    def moment(self, parts):
        month, day, hour, minute, second = parts[:5]
        return calendar.timegm((self.year, int(month), int(day), int(hour), int(minute), 0)) + float(second)

    def specs_of(self, watch):
        """The manifest and the annotations of each pod, by its uid; of a static pod by its file's."""
        found = {}
        for each in watch:
            metadata = each["object"]["metadata"]
            annotations = metadata.get("annotations") or {}
            found[annotations.get("kubernetes.io/config.mirror", metadata["uid"])] = each["object"]["spec"], {
                name: value for name, value in annotations.items() if not name.endswith("config.mirror")}
        return found

    def results_of(self, log):
        """The results of each probe, by the start of the kubelet that had them: {series: [moments]} of each."""
        found = [{} for _ in range(len(self.starts) or 1)]
        for line in log:
            probe = PROBE.match(line)
            if probe:
                moment = self.moment(probe.groups())
                kubelet = max(bisect.bisect(self.starts, moment) - 1, 0)
                series = probe[7], probe[8], probe[6], RESULTS[probe[9]]
                found[kubelet].setdefault(series, []).append(moment)
        return found

    def check(self, moment):
        """A kubelet that does not listen refuses the connection."""
        ended = bisect.bisect(self.ends, moment)
        if ended and self.listens[ended] > moment:
            raise sources.Failed("gave no answer: Connection refused")

    def run_of(self, moment):
        return max(bisect.bisect(self.starts, moment) - 1, 0)

    def metrics(self, moment):
        return f"go_threads 20\nprocess_start_time_seconds {self.starts[self.run_of(moment)]:.11e}\n"

    def probes(self, moment):
        return "".join(f'prober_probe_total{{container="{name}",pod_uid="{uid}",probe_type="{probe}",'
                       f'result="{result}"}} {count}\n'
                       for (uid, name, probe, result), at in self.results[self.run_of(moment)].items()
                       if (count := bisect.bisect(at, moment)))

    def at(self, moments, moment):
        """The newest kept answer, of the kubelet that runs."""
        place = bisect.bisect(moments, moment) - 1
        ended = bisect.bisect(self.ends, moment)
        if place < 0 or (ended and moments[place] < self.ends[ended - 1]):
            place += 1
        return min(place, len(moments) - 1)

    def pods(self, moment):
        items = []
        for pod in self.shown[self.at(self.shown_at, moment)]["pods"]:
            uid = pod["metadata"]["uid"]
            spec, annotations = self.specs.get(uid, ({"containers": []}, {}))
            metadata = {**pod["metadata"], "annotations": annotations, **self.deletion(uid, moment)}
            items.append({"metadata": metadata, "spec": spec, "status": pod["status"]})
        return json.dumps({"kind": "PodList", "items": items or None})

    def deletion(self, uid, moment):
        newest = [each["object"]["metadata"] for each in self.watch
                  if each["at"] <= moment and each["object"]["metadata"]["uid"] == uid]
        return {name: newest[-1][name] for name in ("deletionTimestamp", "deletionGracePeriodSeconds")
                if newest and newest[-1].get(name) is not None}

    def of_api_server(self, moment):
        """The pods that the API server has, which a restart of the kubelet does not change."""
        newest = {}
        for each in self.watch[:bisect.bisect(self.watch_at, moment)]:
            newest[each["object"]["metadata"]["uid"]] = each
        return json.dumps({"kind": "PodList", "items": [each["object"] for each in newest.values()
                                                        if each["type"] != "DELETED"]})

    def summary(self, moment):
        kept = self.summaries[self.at(self.summary_at, moment)]
        uids = {pod["metadata"]["name"]: pod["metadata"]["uid"]
                for pod in self.shown[self.at(self.shown_at, moment)]["pods"]}
        pods = [{"podRef": {"uid": uids.get(name, name)}, "memory": {"time": at, "workingSetBytes": used},
                 "containers": [{"name": "app", "memory": {"time": at, "workingSetBytes": used}}],
                 "volume": [{"name": volume, "usedBytes": of_volume, "time": volume_at}
                            for volume, of_volume, volume_at in volumes]}
                for name, (used, at, volumes) in kept["pods"].items()]
        return json.dumps({"node": {"memory": kept["memory"], "fs": kept["fs"],
                                    "runtime": {"imageFs": kept["imageFs"]}, "startTime": "2026-01-01T00:00:00Z"},
                           "pods": pods})


class KeptRun:
    """Answers as the commands of tools/record would have been answered at a moment."""

    def __init__(self, folder):
        shown = [json.loads(line) for line in lines_of(folder, "shown.jsonl")]
        shown = [{**each, "pods": each["pods"] or []} for each in shown]
        self.runtime, self.kubelet = Runtime(folder, shown), Kubelet(folder, shown)
        self.events = [json.loads(line) for line in lines_of(folder, "events.jsonl")]
        self.nodes = [json.loads(line) for line in lines_of(folder, "nodes.jsonl")]
        self.begin, self.end = shown[0]["at"], shown[-1]["at"]
        self.asked = {}

    def answer(self, words, moment):
        text = " ".join(words)
        if words[0] == "crictl":
            return self.runtime.ps(moment) if words[1] == "ps" else self.runtime.inspect(words[-1], moment)
        if words[:3] == ["kubectl", "get", "pods"]:
            return self.kubelet.of_api_server(moment)
        if "/events?" in text:
            return self.events_of(re.search("%3D([-0-9a-f]+)", text)[1], moment)
        if re.search("/api/v1/nodes/[^/ ]+( |$)", text):
            found = [each["object"] for each in self.nodes if each["at"] <= moment] or [self.nodes[0]["object"]]
            return json.dumps(found[-1])
        kind = next(kind for kind in ("configz", "summary", "metrics/probes", "metrics", "pods") if kind in text)
        self.asked[kind] = self.asked.get(kind, 0) + 1
        self.kubelet.check(moment)
        answer = getattr(self.kubelet, kind.rpartition("/")[2])
        return answer if isinstance(answer, str) else answer(moment)


    def events_of(self, uid, moment):
        """The Events of a pod, each as the watch had it last."""
        newest = {each["object"]["metadata"]["uid"]: each["object"] for each in self.events
                  if each["at"] <= moment and each["object"]["involvedObject"].get("uid") == uid}
        return json.dumps({"kind": "EventList", "items": list(newest.values())})


class Clock:
    """The clock of a run that is over, which moves by waits alone."""

    def __init__(self, moment):
        self.moment = moment

    def now(self):
        return self.moment

    def wait(self, duration):
        self.moment += duration


ASKED = ("metrics/probes", "pods", "stats/summary", "configz", "metrics")
STEP = 0.5


def looks_of(run, since, until):
    """Each moment with all that is answered then, by its kind."""
    moment = since
    while moment <= until:
        answers = {}
        for words in [["crictl", "ps"], *(["curl", f"/{path}"] for path in ASKED),
                      *(["crictl", "inspect", each["id"]] for each in run.runtime.listed(moment))]:
            kind = trimmed.kind_of(words)
            try:
                answers[kind] = trimmed.TRIMS.get(kind, json.loads)(run.answer(words, moment))
            except sources.Failed as failed:
                answers[kind] = {"failed": str(failed)}
        yield moment, answers
        moment = round(moment + STEP, 3)


def count(folder, trace, report):
    """Prints what a recording of the run has of what the kubelet did."""
    texts = ["\n".join(lines_of(folder, name)) for name in ("shown.jsonl", "kubelet.log")]
    exits = "\n".join(lines_of(folder, "ctr-events") or lines_of(folder, "ctr-events.log"))
    with open(report, encoding="utf-8") as file:
        rows, codes = counted.counts_of(counted.real_facts(*texts, exits), trace, file.read())
    differences = [f"  {row.name}: {each}" for row in rows for each in row.differences]
    for line in [*counted.table_of(rows), *codes, *differences]:
        print(line)
    return 0


def main(folder, words):
    if words[:1] == ["--count"]:
        return count(folder, *words[1:])
    run = KeptRun(folder)
    if words[:1] == ["--answers"]:
        trimmed.pack(looks_of(run, float(words[1]), float(words[2])), words[3])
        return 0
    clock = Clock(run.begin + float(os.environ.get("PHASE", 0.3)))
    # the recorder looks whether the commands are there, and asks none of them here
    os.environ["PATH"] += os.pathsep + os.path.join(HERE, "..", "..", "..", "tools", "tests", "commands")

    def take(words, _, take_part):
        take_part(run.answer(words, clock.now()).encode())

    lasts = str(int(run.end - run.begin) - 1)
    return program.main([*words, "--for", lasts], clock, lambda *asked: sources.Sources(
        *asked, run=lambda words, _: run.answer(words, clock.now()), read=take, beside=lambda work: work()))


if __name__ == "__main__":
    sys.exit(main(sys.argv[1], sys.argv[2:]))
