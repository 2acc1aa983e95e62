"""What is at fault in the readiness gates of a manifest of version 3, and in the statuses of their conditions."""

from __future__ import annotations

import re
from collections.abc import Iterator
from typing import Any

from replay_tools.outside import NAME
from replay_tools.record.gates import MOST_GATES

from .found import Found, at, is_

MISSING, WRONG_KIND, TOO_MANY = 11, 12, 19
TYPE = re.compile(rf"({NAME.pattern}/)?[A-Za-z0-9]([-A-Za-z0-9_.]{{0,61}}[A-Za-z0-9])?")
WANTED = "it is a qualified name, as example.com/ready"


def faults_of(spec: Any) -> Iterator[tuple[int, Found]]:
    """Each fault with its number, in the order in which the program finds them."""
    gates, path = spec.get("readinessGates"), ("pod", "spec", "readinessGates")
    if gates is not None and not isinstance(gates, list):
        yield WRONG_KIND, is_(path, gates, "it is an array of objects with conditionType")
    types: set[str] = set()
    for index, gate in enumerate(gates if isinstance(gates, list) else ()):
        yield from gate_faults(gate, (*path, index))
        if isinstance(gate, dict) and isinstance(gate.get("conditionType"), str):
            types.add(gate["conditionType"])
        if len(types) > MOST_GATES:
            yield TOO_MANY, at((*path, index), f"is the {MOST_GATES + 1}th different gate: a pod has at most "
                               f"{MOST_GATES}", "leave the gate out")
            return


def gate_faults(gate: Any, path: tuple[Any, ...]) -> Iterator[tuple[int, Found]]:
    if not isinstance(gate, dict):
        yield WRONG_KIND, is_(path, gate, "it is an object with conditionType")
    elif gate.get("conditionType") is None:
        yield MISSING, at((*path, "conditionType"), f"is missing: {WANTED}")
    elif not isinstance(gate["conditionType"], str) or TYPE.fullmatch(gate["conditionType"]) is None:
        yield WRONG_KIND, is_((*path, "conditionType"), gate["conditionType"], WANTED)


def status_faults(entry: dict[str, Any], path: tuple[Any, ...]) -> Iterator[Found]:
    """The faults of an entry's conditions, the member that a path leads to."""
    found = entry.get(path[-1])
    if found is not None and not isinstance(found, dict):
        yield is_(path, found, "it is an object of condition types, each with true or false")
    for name, status in found.items() if isinstance(found, dict) else ():
        if status is not None and not isinstance(status, bool):
            yield is_((*path, name), status, "it is true or false, without quotes; Unknown is false")
