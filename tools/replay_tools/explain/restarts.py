"""What is at fault in the restart policy and the restart rules of a container, in the order in which the program looks
for it."""

from __future__ import annotations

from collections.abc import Iterator
from typing import Any

from replay_tools.record import formats
from replay_tools.record.restarts import LEAST_CODE, MOST_CODE, MOST_RULES, MOST_VALUES, is_sidecar
from replay_tools.restarting import OPERATORS, POLICIES, POLICY, RESTART, RULES

from .found import Found, at, is_

MISSING, WRONG_KIND, ROLE, TOO_MANY = 11, 12, 18, 19
Path = tuple[Any, ...]


def of_sidecars(container: Any, path: Path, is_init: bool) -> Iterator[tuple[int, Found]]:
    """The faults in versions 1 and 2, which take the policy of a sidecar alone."""
    policy = container.get(POLICY)
    if policy is not None and not is_sidecar(container, is_init):
        yield ROLE, is_((*path, POLICY), policy,
                        "an init container has Always, which makes it a sidecar, or none" if is_init else
                        "a container of containers has none of its own",
                        'leave it out, or write "version":3 in the node line and give --extended')


def faults_of(container: Any, path: Path, is_init: bool) -> Iterator[tuple[int, Found]]:
    """The faults in version 3."""
    policy, rules, place = container.get(POLICY), container.get(RULES), (*path, RULES)
    if policy is not None and policy not in POLICIES:
        yield WRONG_KIND, is_((*path, POLICY), policy, f"there are {', '.join(POLICIES)}")
    if rules is not None and not isinstance(rules, list):
        yield WRONG_KIND, is_(place, rules, "it is an array of rules")
    if not isinstance(rules, list):
        return
    if len(rules) > MOST_RULES:
        yield TOO_MANY, at(place, f"has {len(rules)} rules: a container has at most {MOST_RULES}")
    for index, rule in enumerate(rules):
        yield from rule_faults(rule, (*place, index))
    if rules and (policy is None or is_sidecar(container, is_init)):
        yield ROLE, at(place, "is of a sidecar, which is always restarted" if policy is not None else
                       f"needs a {POLICY} of the container", "leave the rules out" if policy is not None else
                       f"give the container a {POLICY}, as Never")


def rule_faults(rule: Any, path: Path) -> Iterator[tuple[int, Found]]:
    """The first fault of a rule."""
    if not isinstance(rule, dict):
        yield WRONG_KIND, is_(path, rule, "it is an object, a rule")
        return
    codes = rule.get("exitCodes")
    found = [*word_faults(rule, (*path, "action"), (RESTART,)), *kind_faults(rule, (*path, "exitCodes"), dict)]
    if isinstance(codes, dict):
        place = (*path, "exitCodes")
        found += [*word_faults(codes, (*place, "operator"), OPERATORS), *kind_faults(codes, (*place, "values"), list)]
        found += code_faults(codes["values"], (*place, "values")) if isinstance(codes.get("values"), list) else []
    yield from found[:1]


def word_faults(around: dict[str, Any], path: Path, words: tuple[str, ...]) -> Iterator[tuple[int, Found]]:
    value = around.get(path[-1])
    if value is None:
        yield MISSING, at(path, f"is missing: {' or '.join(words)}")
    elif value not in words:
        yield WRONG_KIND, is_(path, value, f"it is {' or '.join(words)}")


def kind_faults(around: dict[str, Any], path: Path, kind: type) -> Iterator[tuple[int, Found]]:
    value = around.get(path[-1])
    wanted = "an object with operator and values" if kind is dict else "an array of exit codes"
    if value is None:
        yield MISSING, at(path, f"is missing: {wanted}")
    elif not isinstance(value, kind):
        yield WRONG_KIND, is_(path, value, f"it is {wanted}")


def code_faults(values: list[Any], path: Path) -> Iterator[tuple[int, Found]]:
    if not values:
        yield MISSING, at(path, "is empty: a rule has at least one exit code")
    elif len(values) > MOST_VALUES:
        yield TOO_MANY, at(path, f"has {len(values)} exit codes: a rule has at most {MOST_VALUES}")
    for index, value in enumerate(values):
        if formats.whole_fault(value, LEAST_CODE, MOST_CODE):
            yield WRONG_KIND, is_((*path, index), value, f"it is a whole number from {LEAST_CODE} to {MOST_CODE}",
                                  "write it without quotes and point")
