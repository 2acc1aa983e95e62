"""Candidates for a completion that a cluster has: its namespaces, nodes, recorders, contexts and workloads. Where
kubectl does not answer in time there are none."""

from __future__ import annotations

from argparse import Namespace

from replay_tools import entry, outside
from replay_tools.cli import options
from replay_tools.cluster import kinds, recorders
from replay_tools.cluster.kubectl import NoAnswer
from replay_tools.plugin import words

SECONDS = 5
MOST = 1 << 20


def cluster_of(found: Namespace) -> recorders.Cluster:
    return recorders.Cluster(found.kubectl, found.recorders or recorders.NAMESPACE, SECONDS)


def lines(found: Namespace, *asked: str) -> list[str]:
    """The words that kubectl answers, without the kind before a slash."""
    answer = bytearray()
    try:
        cluster_of(found).ask(*asked, most=MOST, take=answer.extend)
    except (NoAnswer, entry.Fault):
        return []
    return [line.rpartition("/")[2] for line in answer.decode("utf-8", "replace").split()]


def namespaces(found: Namespace) -> list[str]:
    return [name for name in lines(found, "get", "namespaces", "-o", "name") if outside.is_label(name)]


def nodes(found: Namespace) -> list[str]:
    """The nodes; those that record if the nodes may not be listed."""
    names = lines(found, "get", "nodes", "-o", "name")
    return [name for name in names if outside.is_name(name)] or recording(found)


def recording(found: Namespace) -> list[str]:
    """The nodes that record."""
    try:
        return [name for name in cluster_of(found).recorders() if outside.is_name(name)]
    except entry.Fault:
        return []


def of_recorders(found: Namespace) -> list[str]:
    """The namespaces that have recorders."""
    names = lines(found, "get", "pods", "--all-namespaces", "-l", recorders.LABEL, "-o",
                  "jsonpath={.items[*].metadata.namespace}")
    return [name for name in names if outside.is_label(name)]


def contexts(found: Namespace) -> list[str]:
    return [name for name in lines(found, "config", "get-contexts", "-o", "name") if name.isprintable()]


def targets(found: Namespace, last: str) -> list[str]:
    """What the last argument may become where no file and no node is named: kinds, and the names of one."""
    kind, slash, _ = last.partition("/")
    if not slash:
        return [f"{names[0]}/" for names, _ in kinds.KINDS.values()]
    if kinds.kind_of(kind) is None:
        return []
    namespace = found.namespace or words.current_namespace(found.kubectl)
    names = lines(found, "get", kinds.kind_of(kind) or "", "-n", namespace, "-o", "name")
    return [f"{kind}/{name}" for name in names if outside.is_name(name)]


def values(option: str, found: Namespace) -> list[str]:
    """The values of an option that a cluster has."""
    if option in options.NAMESPACE.names:
        return namespaces(found)
    return {"--node": nodes, "--recorders": of_recorders, options.CONTEXT: contexts}.get(option, lambda _: [])(found)
