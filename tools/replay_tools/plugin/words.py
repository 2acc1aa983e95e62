"""Arguments as kubectl takes them: a namespace, a file, names of pods."""

from __future__ import annotations

import os
import subprocess
from argparse import Namespace
from collections.abc import Callable

from replay_tools import entry
from replay_tools.cli import options
from replay_tools.cli.specification import Command
from replay_tools.joined import files

POD_TYPES = ("pod", "pods", "po")
SECONDS_OF_KUBECTL = 10


def take_files(found: Namespace) -> None:
    """Puts the traces among a tool's arguments to the files of -f, for a pattern that the shell has replaced."""
    if found.files:
        more = [word for word in found.named if word.endswith(files.ENDINGS) and os.path.isfile(word)]
        found.files += more
        found.named = [word for word in found.named if word not in more]


def one_file(found: Namespace) -> str | None:
    """The one file that is named, or None."""
    if len(found.files) > 1:
        raise entry.Fault(f"it takes one file, not {len(found.files)} (see --help)")
    return found.files[0] if found.files else None


def key_of(name: str, given: str | None, otherwise: Callable[[], str]) -> str:
    """NAMESPACE/NAME of a pod as kubectl names it: web, pod/web, or shop/web. `given` is the namespace that was asked
    for, `otherwise` answers the one that holds without it."""
    head, slash, tail = name.partition("/")
    if slash and head not in POD_TYPES:
        if given not in (None, head):
            raise entry.Fault(f"{name} is not in the namespace {given}")
        return name
    return f"{given or otherwise()}/{tail if slash else name}"


def pods_meant(command: Command, found: Namespace) -> list[str] | None:
    """The pods that arguments name for a tool; None where they name a namespace alone, whose pods the tool does not
    list itself. A name without a namespace is for the tool to find among all, where all are meant."""
    if found.is_everywhere:
        return [name_of(name) for name in found.named]
    named = [key_of(name, found.namespace, lambda: current_namespace(found.kubectl)) for name in found.named]
    if named or found.namespace is None:
        return named
    if command.pods == "one":
        return [f"{found.namespace}/"] if command.lists_pods else []
    return None


def name_of(name: str) -> str:
    """A pod's name without kubectl's type before it."""
    head, slash, tail = name.partition("/")
    return tail if slash and head in POD_TYPES else name


def current_namespace(of_kubectl: list[str]) -> str:
    """The namespace of the context that kubectl's options name, else `default`."""
    words = ["kubectl", *of_kubectl, "config", "view", "--minify", "--output", "jsonpath={..namespace}"]
    try:
        done = subprocess.run(words, capture_output=True, check=False, timeout=SECONDS_OF_KUBECTL,
                              stdin=subprocess.DEVNULL)
    except (OSError, subprocess.TimeoutExpired):
        return "default"
    context = options.context_of(of_kubectl)
    if context and done.returncode != 0:
        raise entry.Fault(f"kubectl has no context {context}")
    said = done.stdout.decode("utf-8", "replace").split()
    return said[0] if done.returncode == 0 and said else "default"
