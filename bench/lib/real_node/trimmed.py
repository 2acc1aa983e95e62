"""Makes the answers that captured.py kept into a recording of tools/tests: trimmed.py FILE OUT.jsonl.gz. It has for
each look those answers that differ from the look before, with the fields that tools/record reads and a few next to
them."""

import gzip
import json
import sys

POD_FIELDS = ("name", "namespace", "uid", "annotations", "deletionTimestamp", "deletionGracePeriodSeconds")
STATUS_FIELDS = ("phase", "reason", "message")
STATUSES = ("initContainerStatuses", "containerStatuses")
END_FIELDS = ("containerID", "startedAt", "finishedAt", "exitCode", "reason")
WAIT_FIELDS = ("reason", "message")
CONDITION_FIELDS = ("type", "status", "reason", "lastTransitionTime")
CONTAINER_STATUS_FIELDS = ("name", "resources", "ready", "started", "restartCount")
SPEC_FIELDS = ("restartPolicy", "priority", "terminationGracePeriodSeconds", "nodeName", "volumes", "readinessGates",
               "resources")
CONTAINER_FIELDS = ("name", "image", "resources", "restartPolicy", "restartPolicyRules", "startupProbe",
                    "livenessProbe", "readinessProbe")
SAMPLES = ("time", "startTime", "availableBytes", "capacityBytes", "usageBytes", "usedBytes", "workingSetBytes",
           "usageNanoCores", "inodes", "inodesFree", "inodesUsed", "maxpid", "curproc", "process_count", "name")


def picked(fields, names):
    return {name: fields[name] for name in names if name in fields}


def list_of(answer):
    return {"containers": [{**picked(each, ("id", "metadata", "state", "createdAt")),
                            "labels": picked(each["labels"], ("io.kubernetes.container.name", "io.kubernetes.pod.uid"))}
                           for each in answer["containers"]]}


def pods_of(answer):
    return {"kind": answer["kind"], "items": [
        {"metadata": picked(pod["metadata"], POD_FIELDS), "status": status_of(pod),
         "spec": {**picked(pod["spec"], SPEC_FIELDS), **{
             role: [picked(container, CONTAINER_FIELDS) for container in pod["spec"][role]]
             for role in ("initContainers", "containers") if role in pod["spec"]}}} for pod in answer["items"] or []]}


def status_of(pod):
    """A pod's status, with how its containers ended, why they wait, and whether its readiness gates are true."""
    status = pod.get("status", {})
    gates = pod["spec"].get("readinessGates") or []
    types = {"DisruptionTarget", "Ready", *(each.get("conditionType") for each in gates)}
    conditions = [picked(each, CONDITION_FIELDS) for each in status.get("conditions") or []
                  if each.get("type") in types]
    return {**picked(status, STATUS_FIELDS), **({"conditions": conditions} if conditions else {}),
            **{role: list(map(container_status, status[role])) for role in STATUSES if status.get(role)}}


def container_status(status):
    """How a container ended and why it waits; a message of its end may be its own words."""
    states = {}
    for state in ("lastState", "state"):
        for kind, fields in (("terminated", END_FIELDS), ("waiting", WAIT_FIELDS), ("running", ("startedAt",))):
            if (status.get(state) or {}).get(kind):
                states[state] = {kind: picked(status[state][kind], fields)}
    return {**picked(status, CONTAINER_STATUS_FIELDS), **states}


def sample_of(value):
    """A summary without the samples that are not read."""
    if isinstance(value, list):
        return [sample_of(each) for each in value]
    if not isinstance(value, dict):
        return value
    return {name: sample_of(each) if isinstance(each, (dict, list)) else each for name, each in value.items()
            if (isinstance(each, (dict, list)) and name not in ("network", "systemContainers", "swap"))
            or name in SAMPLES or name == "uid"}


def configuration_of(answer):
    """A configuration without the machine's own places."""
    return {"kubeletconfig": {name: value for name, value in answer["kubeletconfig"].items()
                              if not (isinstance(value, str) and value.startswith("/"))}}


def counts_of(text):
    return "".join(f"{line}\n" for line in text.split("\n") if line.startswith("prober_probe_total{"))


def start_of(text):
    """When the kubelet was started, of its metrics."""
    return "".join(f"{line}\n" for line in text.split("\n") if line.startswith("process_start_time_seconds "))


TRIMS = {"metrics": start_of, "ps": lambda text: list_of(json.loads(text)),
         "pods": lambda text: pods_of(json.loads(text)),
         "summary": lambda text: sample_of(json.loads(text)), "probes": counts_of,
         "configz": lambda text: configuration_of(json.loads(text))}


def kind_of(words):
    if words[0] == "crictl":
        return "ps" if words[1] == "ps" else words[-1]
    return next(kind for kind in ("configz", "summary", "probes", "pods", "metrics") if kind in " ".join(words))


def looks_of(lines):
    """The moment of each look with the answers asked in it: (moment, {kind: answer})."""
    moment, answers = None, {}
    for entry in map(json.loads, lines):
        if "now" not in entry:
            kind = kind_of(entry["words"])
            trim = TRIMS.get(kind, json.loads)
            answers[kind] = trim(entry["answer"]) if "answer" in entry else {"failed": entry["failed"]}
        else:
            if answers:
                yield moment, answers
            moment, answers = entry["now"], {}
    if answers:
        yield moment, answers


def main(path, out):
    with open(path, encoding="utf-8") as file:
        pack(looks_of(file), out)


def pack(looks, out):
    """Writes the answers of each look that are others than at the look before."""
    last = {}
    with gzip.GzipFile(out, "wb", mtime=0) as packed:
        for moment, answers in looks:
            changed = {kind: answer for kind, answer in answers.items() if last.get(kind) != answer}
            last.update(changed)
            entry = {"at": moment, "answers": changed}
            packed.write(json.dumps(entry, separators=(",", ":")).encode() + b"\n")


if __name__ == "__main__":
    sys.exit(main(*sys.argv[1:]))
