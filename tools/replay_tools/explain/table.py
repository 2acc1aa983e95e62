"""The faults that docs/formats.md lists: what each is, and what to do most often."""

from __future__ import annotations

from typing import Any

# number: what it is, what to do, the part of docs/formats.md
FAULTS = {
    31: ("the line has more than 1 MiB", "leave out of manifests what the formats do not read, as env and "
         "annotations; a tick of very many samples is no line", "The trace"),
    32: ("the line is no JSON value, or not UTF-8", "write each object in one line: jq -c", "The trace"),
    33: ("the line is no object, or its kind is none of node, pod and tick", "leave the line out, or mend its kind; "
         'for gone lines write "version":3 in the node line and give --extended', "The first fault of a text"),
    34: ("the line is not in its turn", 'the order is node, pods, ticks; for pods that arrive late write "version":2 '
         "in the node line", "The first fault of a text"),
    35: ("the pod's manifest is invalid", "take it as kubectl get pod -o json prints it", "Pod line"),
    36: ("a field of the node line has another value than the formats take, or a percentage has no capacity",
         "give the capacity, or a quantity for the percentage", "Node line"),
    37: ("a soft threshold has no grace period", "give evictionSoftGracePeriod the time of each soft threshold",
         "Node line"),
    38: ("an earlier pod line gave this key", "keep one line for each pod; where it went and came again, write "
         "version 3 with a gone line before the new one", "Pod line"),
    39: ("a key is no pod's, or belongs to a pod whose line comes later", "write NAMESPACE/NAME, and put the pod line "
         "before the tick", "Tick line"),
    40: ("a name is no container's of its pod", "name the containers of the pod's manifest alone", "Tick line"),
    41: ("the line names a pod, a container or a probe twice", "keep one of the two", "Tick line"),
    42: ("at is missing, no whole number, or not later than the last tick's", "keep one tick of each second",
         "Tick line"),
    43: ("a listing is not acceptable after the earlier ones", "record every tick whole", "Tick line"),
    44: ("an exited container has no valid exitCode", "ask for it with crictl inspect", "Tick line"),
    45: ("there are more than 256 pods or 20,000 ticks", "cut the trace in two", "The first fault of a text"),
    46: ("a field of the tick line has another value than the formats take", "write it as docs/formats.md has it",
         "Tick line"),
}
MANIFEST_FAULTS = {
    11: ("a required field is missing", "put the whole object of kubectl get pod -o json under pod"),
    12: ("a field has another value than the formats take", "take the manifest as kubectl get pod -o json prints it"),
    13: ("a quantity is invalid", "write it as kubectl prints it, as 100Mi or 500m"),
    14: ("a number of a probe is out of its range", "write it as kubectl prints it"),
    15: ("an init container has a probe", 'leave it out, or make it a sidecar: "restartPolicy":"Always"'),
    16: ("a request is above its limit", "the API server takes no such pod: mend one of the two"),
    17: ("two containers have one name", "give each a name of its own"),
    18: ("a container has a restartPolicy, or rules of restarts, that it may not have", "leave it out"),
    19: ("the pod has more than 16 containers or readiness gates, a container more than 20 rules of restarts, or a "
         "rule more than 255 exit codes", "leave the pod, or what is too many, out"),
}


def row(number: int, manifest: Any) -> tuple[str, str, str]:
    """What a fault is, what to do, and the part of docs/formats.md."""
    says, advice, part = FAULTS.get(number, ("the program rejects it", "docs/formats.md has the faults", "The trace"))
    if manifest in MANIFEST_FAULTS:
        what, advice = MANIFEST_FAULTS[manifest]
        says = f"{says}: {what}"
    return says, advice, part
