"""A tool that is to report several traces: traces of files and folders, or traces that a cluster's recorder holds."""

from __future__ import annotations

import glob
import os
from argparse import Namespace
from collections.abc import Callable

from replay_tools import entry, tree
from replay_tools.cli import parsing
from replay_tools.cli.specification import Command
from replay_tools.cli.statuses import Status
from replay_tools.joined import asked
from replay_tools.plugin import words


def is_meant(found: Namespace) -> bool:
    """Whether the arguments are of several traces, or of a time of them."""
    return (len(found.files) > 1 or any(os.path.isdir(file) or is_pattern(file) for file in found.files)
            or bool(found.traces) or any(value is not None for value in (
                found.node, found.since, found.at, found.recorders)))


def is_pattern(file: str) -> bool:
    return glob.has_magic(file) and not os.path.exists(file)


def run(command: Command, found: Namespace) -> int:
    """Runs a tool on several traces; its status."""
    pods = found.named if command.pods == "none" else words.pods_meant(command, found)
    if pods is None:
        pods = [f"{found.namespace}/"]
    has_pod = command.name == "story" and not found.traces and bool(pods) and not pods[0].endswith("/")
    found = parsing.changed(found, named=pods, **({"without_why": True} if has_pod else {}))
    named = [*found.traces, *found.files]
    if named:
        if found.recorders is not None:
            raise entry.Fault("--recorders is for the traces of a cluster, and files are named")
        return tree.work(command.name, parsing.changed(found, traces=named))
    if found.node is None:
        raise entry.Fault("it needs -f FILE or FOLDER for traces that are here, or --node NODE for a cluster's")
    return run_fetched(found, lambda folder: tree.work(command.name, parsing.changed(found, traces=[folder])))


def run_fetched(found: Namespace, run_on: Callable[[str], int]) -> int:
    """Fetches the traces of the node into a folder that goes again, and runs a tool on it; its status."""
    from replay_tools.cluster import fetching, recorders
    from replay_tools.cluster.waiting import Waiting
    from replay_tools.plugin import workload
    cluster = workload.cluster_of(found)
    first, last = asked.span_of(found.since, found.at, fetching.now())
    [recorder] = recorders.on_nodes(cluster.recorders(), [found.node])
    with workload.folder_for_traces() as path:
        with Waiting(cluster.seconds) as waiting:
            [came] = fetching.coming(cluster, [recorder], path, fetching.Wanted(first, last), waiting)
        if not came.copied:
            raise entry.Fault(f"{found.node}: {'; '.join(came.faults)}", Status.FAILED)
        for said in came.faults:
            entry.say(f"{found.node}: {said}")
        return run_on(path)
