"""A tool over the nodes that a workload's pods are and were on: why of each pod, the page or the picture of the node
with the worst one, the records of all."""

from __future__ import annotations

import contextlib
import io
import json
import sys
from argparse import Namespace
from typing import TYPE_CHECKING

from replay_tools import entry, tree
from replay_tools.cli import parsing
from replay_tools.cli.statuses import Status
from replay_tools.plugin import workload

if TYPE_CHECKING:
    from replay_tools.cluster import told

def run(name: str, found: Namespace, is_of_kubectl: bool) -> int:
    """Runs a tool on what was recorded of a workload; the status."""
    if name == "json" and found.sqlite is not None:
        raise entry.Fault("--sqlite is for traces that are here: kubectl replay fetch copies the traces of nodes")
    with workload.gathering(found, is_of_kubectl) as (story, folder, time):
        if not story.recorded:
            raise entry.Fault(f"{story.members.target.words()}: no trace has a pod of it; kubectl replay story prints "
                              "what the API server has", Status.FAILED, workload.missing_words(story))
        for missing, why in story.missing.items():
            entry.say(f"{missing}: {why}")
        of_tool = parsing.changed(found, named=[], traces=[folder], since=time.since, at=time.at)
        if name == "why":
            return run_why(story, of_tool)
        return run_json(story, of_tool) if name == "json" else run_of_worst(name, story, of_tool)


def run_why(story: told.Story, given: Namespace) -> int:
    """Prints why of each pod, by its node."""
    status, is_first = int(Status.DONE), True
    for one in story.found:
        for key in dict.fromkeys(pod.key for pod in one.pods):
            sys.stdout.write("" if is_first else "\n")
            sys.stdout.flush()
            status = max(status, tree.work("why", parsing.changed(given, named=[key], node=one.node)))
            is_first = False
    return status


def run_of_worst(name: str, story: told.Story, given: Namespace) -> int:
    """Makes the page of the node on which the worst of the pods was, or the picture of the pods there."""
    from replay_tools.cluster import told
    worst = told.ranked(story)[0][0]
    others = [one.node for one in story.found if one.pods and one is not worst]
    if others:
        entry.say(f"the {name} is of {worst.node}, where the worst pod was; --node chooses one of {', '.join(others)}")
    pods = [] if name == "page" else list(dict.fromkeys(pod.key for pod in worst.pods))
    return tree.work(name, parsing.changed(given, named=pods, node=worst.node))


def run_json(story: told.Story, given: Namespace) -> int:
    """Writes the records of the nodes and of the workload's pods."""
    for one in story.found:
        keys, held = {pod.key for pod in one.pods}, io.StringIO()
        with contextlib.redirect_stdout(held):
            status = tree.work("json", parsing.changed(given, node=one.node))
        if status != Status.DONE:
            return status
        for line in held.getvalue().splitlines(True):
            if json.loads(line).get("pod", None) in {None, *keys}:
                sys.stdout.write(line)
    return Status.DONE
