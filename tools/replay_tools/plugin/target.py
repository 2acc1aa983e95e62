"""What the arguments name in a cluster: a workload, a pod, the pods of a label, of a namespace, or all."""

from __future__ import annotations

import fcntl
import os
import select
import stat
import sys
import termios
from argparse import Namespace
from typing import TYPE_CHECKING

from replay_tools import entry, outside
from replay_tools.cluster import kinds
from replay_tools.plugin import words

if TYPE_CHECKING:
    from replay_tools.cluster import workloads

# a report that takes longer to come is reported to be waited for
SECONDS_UNSAID = 5


def plain_of(found: Namespace) -> list[str]:
    """The arguments that are no option; `deploy web` is deploy/web, as for kubectl."""
    given = found.named
    if len(given) == 2 and "/" not in given[0] + given[1] and kinds.kind_of(given[0]) is not None:
        return [f"{given[0]}/{given[1]}"]
    return given


def names_workload(found: Namespace) -> bool:
    """Whether a workload or a label is named."""
    return found.selector is not None or any(
        kinds.kind_and_name(word) is not None and not os.path.exists(word) and not (
            word.partition("/")[0].lower() in words.POD_TYPES) for word in plain_of(found))


def is_meant(name: str, found: Namespace, is_of_kubectl: bool) -> bool:
    """Whether a tool is asked for what a cluster has: no file is named, and a workload is, or else a story, or a time
    of one, of a namespace, and no report comes on standard input."""
    if found.files or found.trace is not None or found.traces:
        return False
    if names_workload(found):
        return True
    if name not in ("story", "why") or found.node is not None:
        return False
    if name == "why" and not found.named:
        return False
    if any(value is not None for value in (found.since, found.at, found.recorders, found.timeout)):
        return True
    if name == "story" and (found.all or found.output is not None):
        return True
    is_named = found.namespace is not None or found.asks_all or is_of_kubectl and bool(found.named)
    return is_named and not has_report()


def has_report() -> bool:
    """Whether standard input is a file or a pipe in which something comes, and no terminal."""
    try:
        kind = os.fstat(0).st_mode
    except OSError:
        return False
    if stat.S_ISREG(kind):
        return os.lseek(0, 0, os.SEEK_CUR) < os.fstat(0).st_size
    if not stat.S_ISFIFO(kind) and not stat.S_ISSOCK(kind):
        return False
    if not select.select([0], [], [], SECONDS_UNSAID)[0]:
        entry.say("waiting for a report on standard input, which is a pipe; < /dev/null asks the cluster")
        select.select([0], [], [])
    # at its end there is nothing to read; what there is stays for the tool
    return bool(int.from_bytes(fcntl.ioctl(0, termios.FIONREAD, bytes(4)), sys.byteorder))


def target_of(found: Namespace) -> workloads.Target:
    """What the arguments name. Each part of it is a name of Kubernetes, so that kubectl reads none as an option."""
    from replay_tools.cluster import workloads
    selector, given = found.selector, plain_of(found)
    if len(given) + (selector is not None) > 1:
        raise entry.Fault("it takes one workload, pod or label (see --help)")
    if not given:
        return workloads.Target(None if found.is_everywhere else namespace_of(found), selector=selector)
    [word] = given
    named = kinds.kind_and_name(word)
    if named is None:
        key = words.key_of(word, found.namespace, lambda: namespace_of(found))
        namespace, _, name = key.partition("/")
        named = "pod", name
    elif not named[1]:
        raise entry.Fault(f"{word} names none: {word}NAME (see --help)")
    else:
        namespace = namespace_of(found)
    # a pod's name may be cut, also after a dash
    if not outside.is_name(named[1].rstrip("-.") if named[0] == "pod" else named[1]):
        raise entry.Fault(f"'{named[1]}' is no name of a {named[0]}")
    return workloads.Target(checked(namespace), *named)


def namespace_of(found: Namespace) -> str:
    return checked(found.namespace or words.current_namespace(found.kubectl))


def checked(namespace: str) -> str:
    if not outside.is_label(namespace):
        raise entry.Fault(f"'{namespace}' is no name of a namespace")
    return namespace
