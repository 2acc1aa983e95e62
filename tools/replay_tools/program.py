"""The program that replays traces: where it is, and whether it answers."""

from __future__ import annotations

import hashlib
import json
import os
import subprocess
from collections.abc import Iterable

from replay_tools import entry
from replay_tools.cli.statuses import Status

TOP = os.path.dirname(os.path.dirname(os.path.dirname(os.path.realpath(__file__))))
# in a release it is aside, so that its users see one command, kubelet-replay
RELEASED = "lib/kubelet_replay"
# in a checkout ./kubelet_replay is a script that builds this program, and checks at each run whether it is current
BUILT = "crates/replay_program/out/replay_program"
SMALLEST = b'{"kind":"node","name":"n1"}\n'


def path() -> str:
    """The absolute path of the program: KUBELET_REPLAY, or the program of the release or the checkout."""
    released = os.path.join(TOP, RELEASED)
    own = released if os.path.exists(released) else os.path.join(TOP, "kubelet_replay")
    return os.path.abspath(os.environ.get("KUBELET_REPLAY") or own)


def checked_path() -> str:
    """The path of a program that writes reports. In a checkout this builds it where that is due, once and before
    many processes ask for it; so what it shows is not held back. What is given is then the built program itself, whose
    sum is another one where it is another program."""
    found = path()
    try:
        done = subprocess.run([found, "run", "/dev/stdin"], input=SMALLEST, stdout=subprocess.PIPE, check=False)
    except OSError as fault:
        raise entry.Fault(missing(found, fault), Status.MISSING) from None
    if done.returncode != 0 or not done.stdout.startswith(b"node n1 "):
        raise entry.Fault(f"{found} writes no report (status {done.returncode})", Status.MISSING)
    built = os.path.join(TOP, BUILT)
    return built if found == os.path.join(TOP, "kubelet_replay") and os.access(built, os.X_OK) else found


def missing(found: str, fault: OSError) -> str:
    """Why the program can't be started, and, in the tools' own archive, where it is."""
    if not os.environ.get("KUBELET_REPLAY") and os.path.exists(os.path.join(TOP, "BUILD")):
        return ("this needs the program, which is not in the tools' archive: it is in the archive for Linux on x86-64; "
                "KUBELET_REPLAY names it. A report needs no program")
    return f"{found} is missing or can't be started: {fault.strerror}"


def format_words(lines: Iterable[bytes]) -> list[str]:
    """The words for the format of a trace, of which the lines are given as bytes: --extended where its node line shows
    version 3. Whatever else it shows, the program has to show why it is rejected."""
    node_line = next((line for line in lines if line.strip(b" \t\r\n")), b"")
    try:
        node = json.loads(node_line)
    except (ValueError, RecursionError):
        return []
    return ["--extended"] if isinstance(node, dict) and node.get("version") == 3 else []


def sum_of(found: str) -> str:
    """The SHA-256 of the program's file, in hexadecimal digits."""
    with open(found, "rb") as file:
        return hashlib.sha256(file.read()).hexdigest()
