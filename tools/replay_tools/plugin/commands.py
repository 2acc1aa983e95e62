"""Runs a command of kubectl replay and of kubelet-replay: the program, or the tool of its name."""

from __future__ import annotations

from argparse import Namespace
from dataclasses import dataclass
from typing import IO

from replay_tools import entry, tree
from replay_tools.cli import parsing
from replay_tools.cli.definition import COMMANDS
from replay_tools.cli.specification import Command
from replay_tools.plugin import files, several, words


@dataclass(frozen=True)
class Caller:
    """What was started: its name, and whether it is kubectl's plugin."""

    name: str
    is_of_kubectl: bool


def run(given: list[str], caller: Caller) -> int:
    """Runs a command with its arguments, by the program or a tool; the status, where it comes back."""
    command = COMMANDS[given[0]]
    if command.parses_itself:
        return tree.work(command.name, given[1:])
    found = parsing.parsed(command, given[1:], caller.is_of_kubectl)
    if command.is_of_program or command.name == "explain":
        return run_on_traces(command, found, caller)
    words.take_files(found)
    found.files = [files.kept_input() if file == "-" else file for file in found.files]
    if command.name == "what-if":
        return run_what_if(found)
    found.asks_all = found.is_everywhere
    if not caller.is_of_kubectl and found.namespace is None:
        # there is no context, and a pod may be of any namespace
        found.is_everywhere = True
    return run_asking(command, found, caller)


def run_on_traces(command: Command, found: Namespace, caller: Caller) -> int:
    """Runs a command on each of the traces that are named; its status."""
    from replay_tools.plugin import proved
    paths = proved.paths_of(found)
    if command.is_of_program:
        return proved.run(command.name, paths, found, caller.name)
    return max(tree.work(command.name, parsing.changed(found, path=path, is_of_several=len(paths) > 1))
               for path in paths)


def run_what_if(found: Namespace) -> int:
    """Runs the tool on a trace, which becomes its standard input; its status."""
    file = words.one_file(found)
    if file is not None:
        from replay_tools.plugin import proved
        traces = proved.in_folder(file)
        if len(traces) > 1:
            raise entry.Fault(f"it takes one trace, and {file} has {len(traces)} (see --help)")
        [file] = traces
        if files.is_report(file):
            raise entry.Fault(f"{file} is a report, and it needs a trace")
        files.make_input(open(file, "rb"))
    return tree.work("what-if", found)


def run_asking(command: Command, found: Namespace, caller: Caller) -> int:
    """Runs a tool on files, or on what a cluster has; its status."""
    if command.name == "story" and found.follow is not None:
        check_no_workload(found)
        pods = words.pods_meant(command, found) or []
        return tree.work(command.name, parsing.changed(found, named=pods))
    if not found.files and is_of_cluster(command, found, caller):
        return run_of_cluster(command, found, caller)
    check_no_workload(found)
    if command.pods == "none":
        check_none_of_cluster(command, found)
    if several.is_meant(found):
        return several.run(command, found)
    return run_tool(command, found)


def is_of_cluster(command: Command, found: Namespace, caller: Caller) -> bool:
    """Whether a tool is asked for pods of a cluster, and not of files or of a report."""
    from replay_tools.plugin import target
    return target.is_meant(command.name, found, caller.is_of_kubectl)


def run_of_cluster(command: Command, found: Namespace, caller: Caller) -> int:
    """Runs a tool on pods of a cluster; its status."""
    from replay_tools.plugin import each_node, workload
    if command.name == "story":
        return workload.run(found, caller.is_of_kubectl)
    return each_node.run(command.name, found, caller.is_of_kubectl)


def check_no_workload(found: Namespace) -> None:
    """Rejects options that only what a cluster has of a workload takes, where none is asked for."""
    for option, value in (("--all", getattr(found, "all", False)), ("-o", getattr(found, "output", None)),
                          ("-l", found.selector)):
        if value:
            raise entry.Fault(f"{option} goes with a workload, a namespace or all pods of a cluster (see --help)")
    if found.timeout is not None and (found.node is None or found.files or found.traces):
        raise entry.Fault("--timeout is for the traces of a cluster, and none is asked (see --help)")


def check_none_of_cluster(command: Command, found: Namespace) -> None:
    """Rejects what belongs to a workload, which isn't named."""
    if found.namespace is not None:
        raise entry.Fault(f"-n is for a workload, as {command.name} deploy/web (see --help)")
    if found.named and not command.names_files:
        raise entry.Fault(parsing.unknown(found.named[0], command.options_of(None)))


def run_tool(command: Command, found: Namespace) -> int:
    """Runs a tool on one report, with the values that it takes in place of kubectl's; its status."""
    file = words.one_file(found)
    report = files.open_report(file)
    pods = found.named
    if command.pods != "none":
        pods, report = keys(command, found, file, report)
    of_trace = trace_of(command.name, found, file, pods)
    files.make_input(report)
    return tree.work(command.name, parsing.changed(found, named=pods, **of_trace))


def keys(command: Command, found: Namespace, file: str | None, report: IO[bytes]) -> tuple[list[str], IO[bytes]]:
    """The pods that are meant, and the report, which was read where a namespace alone shows which."""
    named = words.pods_meant(command, found)
    if named is not None or found.namespace is None:
        return named or [], report
    report = files.whole(report, "standard input" if file is None else "the report")
    named = files.pods_in(report, found.namespace)
    if not named:
        raise entry.Fault(f"the report has no pod in the namespace {found.namespace}")
    return named, report


def trace_of(name: str, found: Namespace, file: str | None, pods: list[str]) -> dict[str, object]:
    """What passes the trace on to a tool that looks into it, or that shows what the kubelet did."""
    if name == "page" and found.named:
        return {}
    if file is None or found.trace is not None or files.is_report(file):
        return {}
    has_pod = name == "story" and bool(pods) and not pods[0].endswith("/")
    return {"trace": file, "is_replayed": True, **({"without_why": True} if has_pod else {})}
