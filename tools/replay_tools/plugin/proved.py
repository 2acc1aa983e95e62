"""Runs the proved program on traces: of each format, packed or not, of a pipe."""

from __future__ import annotations

import os
import sys
from argparse import Namespace

from replay_tools import entry, outside, program as programs
from replay_tools.joined import files as traces_of
from replay_tools.plugin import files

STANDARD_INPUT = "/dev/stdin"


def paths_of(found: Namespace) -> list[str]:
    """The traces that -f and other arguments name, the traces of a folder in the order of their names; standard input
    without any."""
    paths = [path for named in [*found.files, *found.named] for path in in_folder(named)]
    if not paths and entry.standard_input().isatty():
        raise entry.Fault("it needs -f FILE, or a trace on standard input (see --help)")
    return [STANDARD_INPUT if path == "-" else path for path in paths] or [STANDARD_INPUT]


def in_folder(path: str) -> list[str]:
    """The traces of a folder; any other path itself, also of a folder without a trace."""
    if not os.path.isdir(path):
        return [path]
    try:
        names = sorted(name for name in os.listdir(path) if name.endswith(traces_of.ENDINGS))
    except OSError as fault:
        raise entry.Fault(f"{outside.visible(path)}: {fault.strerror}") from None
    return [os.path.join(path, name) for name in names] or [path]


def run(name: str, paths: list[str], found: Namespace, caller: str) -> int:
    """Runs the program on each trace; the greatest status. Of several traces its lines have their names."""
    if len(paths) == 1:
        return run_on(name, paths[0], found, caller)
    return max(run_on(name, path, found, caller, f"{shown(path)}: ") for path in paths)


def run_on(name: str, path: str, found: Namespace, caller: str, label: str = "") -> int:
    """Runs the program on a trace, with the option for the format that its node line shows; its status."""
    path = files.plain(path)
    check_readable(path)
    named, copy, of_format = (path, None, ["--extended"]) if found.extended else files.with_format(path)
    of_workers = ["--workers", found.workers] if name == "run" and found.workers is not None else []
    words = [name, named, *of_workers, *of_format]
    path = files.path_of(copy) if copy else path
    if name == "run" and found.fail_on is not None:
        from replay_tools.plugin import failing
        return failing.run(words, path, copy, f"{caller}: {label}", found.fail_on)
    if name == "run" or not label:
        return files.run_beside(programs.path(), words, path, copy, f"{caller}: {label}", label)
    answer = files.temporary()
    status = files.run_beside(programs.path(), words, path, copy, f"{caller}: {label}", label, answer)
    answer.seek(0)
    sys.stdout.write("".join(f"{label}{line}\n" for line in answer.read().decode("utf-8", "replace").splitlines()))
    sys.stdout.flush()
    return status


def shown(path: str) -> str:
    """A trace's name for the operator."""
    return "standard input" if path == STANDARD_INPUT else outside.visible(path)


def check_readable(path: str) -> None:
    """Raises Fault where the trace can't be opened: the program's own words name neither the file nor the reason."""
    if os.path.isdir(path):
        endings = ", ".join(traces_of.ENDINGS)
        raise entry.Fault(f"{outside.visible(path)} has no trace: no file in it ends with {endings}")
    try:
        with open(path, "rb"):
            pass
    except OSError as fault:
        raise entry.Fault(f"{outside.visible(path)}: {fault.strerror}") from None
