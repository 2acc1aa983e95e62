"""The kinds of workloads, as kubectl names them."""

from __future__ import annotations

import re

# of each kind the names by which kubectl knows it, and how the names of its pods end
KINDS = {
    "deployment": (("deploy", "deployment"), r"[a-z0-9]{1,10}-[a-z0-9]{5}"),
    "statefulset": (("sts", "statefulset"), r"\d+"),
    "daemonset": (("ds", "daemonset"), r"[a-z0-9]{5}"),
    "replicaset": (("rs", "replicaset"), r"[a-z0-9]{5}"),
    "job": (("job",), r"(?:\d+-)?[a-z0-9]{5}"),
    "cronjob": (("cj", "cronjob"), r"\d+-(?:\d+-)?[a-z0-9]{5}"),
    "pod": (("po", "pod"), ""),
}
TYPES = {name + several: kind for kind, (names, _) in KINDS.items() for name in names for several in ("", "s")}
# as kubectl takes a kind with its version and group: deployment.v1.apps
QUALIFIED = re.compile(r"([a-z]+)(?:[.]v[0-9][a-z0-9]*)?(?:[.](?:apps|batch))?")


def kind_of(word: str) -> str | None:
    """The kind that a word is: Deploy, deploys and deployment.v1.apps are deployments."""
    found = QUALIFIED.fullmatch(word.lower())
    return TYPES.get(found[1]) if found else None


def kind_and_name(word: str) -> tuple[str, str] | None:
    """The kind and the name of a word as deploy/web; None of one that names no kind."""
    head, slash, name = word.partition("/")
    kind = kind_of(head) if slash else None
    return (kind, name) if kind is not None else None
