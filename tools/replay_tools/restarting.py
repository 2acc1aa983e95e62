"""After which exits a container is restarted: by its pod's policy, by its own, or by one of its rules, which version 3
of the formats reads (docs/extended.md)."""

from __future__ import annotations

from dataclasses import dataclass
from typing import Any, Optional

ALWAYS, ON_FAILURE, NEVER = POLICIES = "Always", "OnFailure", "Never"
IN, NOT_IN = OPERATORS = "In", "NotIn"
RESTART = "Restart"
# the codes of exits are seldom above these
MOST_CODES = 256
POLICY, RULES = MEMBERS = "restartPolicy", "restartPolicyRules"


@dataclass(frozen=True)
class Rule:
    """The exit codes after which a rule restarts a container."""
    operator: str
    values: frozenset[float]

    def matches(self, code: int) -> bool:
        return (code in self.values) == (self.operator == IN)


@dataclass(frozen=True)
class Restarting:
    """What decides whether a container is restarted: the pod's policy, its own if it has one, and its rules."""
    of_pod: str = ALWAYS
    own: Optional[str] = None
    rules: tuple[Rule, ...] = ()
    is_init: bool = False

    @property
    def is_sidecar(self) -> bool:
        return self.is_init and self.own == ALWAYS

    @property
    def policy(self) -> str:
        """The policy of an exit that no rule matches."""
        return self.own or self.of_pod

    @property
    def is_own(self) -> bool:
        """Whether the container has a policy or rules of its own. A sidecar's policy is its role."""
        return bool(self.rules) or (self.own is not None and not self.is_sidecar)

    def rule(self, code: int) -> int | None:
        """The number of the first rule that matches an exit code, from 1 on."""
        return next((number for number, rule in enumerate(self.rules, 1) if rule.matches(code)), None)

    def wants(self, code: int) -> bool:
        """Whether a restart follows an exit with a code."""
        policy = self.policy if self.rule(code) is None else ALWAYS
        if policy == ALWAYS and (not self.is_init or self.is_sidecar):
            return True
        return policy != NEVER and code != 0

    def may_want(self) -> bool:
        """Whether a restart may follow an exit whose code is not known."""
        return self.is_sidecar or self.policy != NEVER or bool(self.rules)

    def restarted_code(self, otherwise: int) -> int:
        """A code after which a restart follows, or another one if there is none."""
        values = (int(value) for rule in self.rules for value in sorted(rule.values))
        return next(filter(self.wants, (otherwise, *values, *range(MOST_CODES))), otherwise)

    def clause(self, code: int) -> str:
        """What decides about a restart after an exit with a code, and how."""
        number = self.rule(code)
        if number is not None and self.wants(code):
            return f"rule {number} of its {RULES} restarts it"
        how = "restarts it" if self.wants(code) else "does not restart it"
        none = f"no rule of its {RULES} matches, and " if self.rules and number is None else ""
        return f"{none}its own {POLICY} {self.own} {how}"

    def sentence(self, name: str, code: int) -> str:
        """The same of a container as a sentence."""
        number = self.rule(code)
        if number is not None and self.wants(code):
            return f"{name} exited with {code}, which rule {number} of its {RULES} restarts"
        return f"{name} exited with {code}: {self.clause(code)}"

    def policy_words(self) -> str:
        """The policy, and how many rules go before it."""
        if not self.is_own:
            return self.of_pod
        count = len(self.rules)
        rules = f", after {count} rule{'' if count == 1 else 's'}" if count else ""
        return f"{self.own} of its own{rules}"


def restarting_of(container: dict[str, Any], of_pod: Any, is_init: bool, reads_own: bool = True) -> Restarting:
    """What decides about a container of a manifest. Versions 1 and 2 read a sidecar's policy alone."""
    own = container.get(POLICY)
    own = own if own in POLICIES and (reads_own or (is_init and own == ALWAYS)) else None
    rules = container.get(RULES) if reads_own else None
    found = map(rule_of, rules) if isinstance(rules, list) else ()
    return Restarting(of_pod if of_pod in POLICIES else ALWAYS, own, tuple(rule for rule in found if rule is not None),
                      is_init)


def rule_of(value: Any) -> Rule | None:
    """A rule of a manifest that a trace has, so that the program has taken it."""
    codes = value.get("exitCodes") if isinstance(value, dict) else None
    if not isinstance(codes, dict) or codes.get("operator") not in OPERATORS:
        return None
    values = codes.get("values")
    numbers: list[float] = [each for each in values if isinstance(each, (int, float))] \
        if isinstance(values, list) else []
    return Rule(codes["operator"], frozenset(numbers))


def restartings_in(spec: dict[str, Any], reads_own: bool = True) -> dict[str, Restarting]:
    """What decides about each container of a spec, by their names, init containers first."""
    of_pod = spec.get(POLICY)
    return {each["name"]: restarting_of(each, of_pod, member == "initContainers", reads_own)
            for member in ("initContainers", "containers") for each in spec.get(member) or []}
