"""The eviction thresholds that a journal shows, by the processes of the kubelet; and what its rounds show of how
long a condition stays, and of how much has to be reclaimed."""

from __future__ import annotations

from collections.abc import Callable
from dataclasses import dataclass, field
from typing import Any, Optional

from replay_tools import amounts
from replay_tools.record.formats import DURATION, is_percentage, without_nones

from . import configured, facts

HARD, SOFT, GRACE = "evictionHard", "evictionSoft", "evictionSoftGracePeriod"
RECLAIM, PERIOD = "evictionMinimumReclaim", "evictionPressureTransitionPeriod"
MEMBERS = HARD, SOFT, GRACE, RECLAIM, PERIOD
# a kubelet's own, of flags that nobody gave and of the transition period
OWN_HARD = ("imagefs.available<15%,memory.available<100Mi,nodefs.available<10%",
            "imagefs.available<15%,memory.available<100Mi,nodefs.available<10%,nodefs.inodesFree<5%",
            "imagefs.available<15%,imagefs.inodesFree<5%,memory.available<100Mi,nodefs.available<10%,"
            "nodefs.inodesFree<5%")
OWN = {"eviction-hard": OWN_HARD, "eviction-pressure-transition-period": ("5m0s",)}
OWN_PERIOD = 300
# a period is set in round numbers of seconds
ROUND = (3600, 600, 300, 60, 30, 10, 5, 1)
# limits that are no further apart are one: a kubelet works parts of a capacity out with less precision
NEAR = 1e-6


@dataclass
class Configuration:
    """What one process of the kubelet reports. Limits that its rounds show are in whole units, by signal."""
    begun: float
    hard: Optional[dict[str, str]] = None
    soft: dict[str, tuple[str, str]] = field(default_factory=dict)
    flags: dict[str, str] = field(default_factory=dict)
    shown: dict[str, set[int]] = field(default_factory=dict)
    # by how much a signal was above its limit while that was not reclaimed
    unreclaimed: dict[str, int] = field(default_factory=dict)
    # when a round met a condition last; how long one was true after that, and after how long it was not
    met: dict[str, int] = field(default_factory=dict)
    held: int = 0
    over: Optional[int] = None

    def has_begun(self) -> bool:
        return self.hard is not None or bool(self.soft or self.shown or self.flags or self.met)

    def take_round(self, second: int, met: frozenset[str], true: frozenset[str]) -> None:
        """A round, the conditions that it met, and those that are true by it."""
        for condition in met:
            self.met[condition] = second
        for condition, since in list(self.met.items()):
            if condition in true:
                self.held = max(self.held, second - since)
            else:
                self.over = min(second - since, self.over or second)
                del self.met[condition]

    # --- the members of a node line ---

    def flag(self, name: str) -> Optional[str]:
        """The value of a flag that counts. Without a file of a configuration each flag counts, next to one the flags
        that were given: their values are not a kubelet's defaults."""
        value = self.flags.get(name)
        is_own = value in OWN.get(name, ("",)) and self.flags.get("config") != ""
        return None if is_own else value

    def is_whole(self) -> bool:
        """Whether all its hard thresholds are known."""
        return self.hard is not None or self.flag("eviction-hard") is not None

    def soft_limits(self) -> dict[str, tuple[str, str]]:
        limits = configured.limits_of_flag(self.flag("eviction-soft") or "")
        graces = configured.durations_of_flag(self.flag("eviction-soft-grace-period") or "")
        return {signal: (limit, graces[signal]) for signal, limit in limits.items() if signal in graces} | self.soft

    def hard_limits(self, capacity: dict[str, int]) -> dict[str, str]:
        """The limits of its configuration or its flags, else the limits that rounds show and that are not soft."""
        if self.hard is not None:
            return self.hard
        if self.is_whole():
            return configured.limits_of_flag(self.flag("eviction-hard") or "")
        soft = {signal: amount_of(limit, capacity.get(signal)) for signal, (limit, _) in self.soft_limits().items()}
        return {signal: str(limit) for signal, limits in self.shown.items() for limit in sorted(limits)
                if not is_near(limit, soft.get(signal))}

    def reclaims(self) -> tuple[dict[str, str], bool]:
        """How much has to be reclaimed, and whether that is what rounds show."""
        given = configured.limits_of_flag(self.flag("eviction-minimum-reclaim") or "")
        least = {signal: str(above + 1) for signal, above in self.unreclaimed.items()}
        return (given, False) if given or not least else (least, True)

    def period(self) -> tuple[Optional[str], bool]:
        """The transition period, None of a kubelet's own, and whether that is what rounds show: the roundest that fits
        how long conditions were true."""
        given = self.flag("eviction-pressure-transition-period")
        if given is not None and DURATION.fullmatch(given):
            return (None if given in OWN["eviction-pressure-transition-period"] else given), False
        if self.held < OWN_PERIOD <= (self.over or OWN_PERIOD):
            return None, False
        most = self.over if self.over is not None else (self.held // ROUND[3] + 1) * ROUND[3]
        fits = (most // step * step for step in ROUND if most // step * step > self.held)
        return f"{next(fits, most)}s", True

    def fields(self, capacity: dict[str, int]) -> dict[str, Any]:
        """Its members of a node line. A part of a capacity that is not known sets no threshold there."""
        def known(limits: dict[str, str]) -> dict[str, str]:
            return {signal: limit for signal, limit in limits.items() if signal in capacity or not is_percentage(limit)}

        soft = {signal: both for signal, both in self.soft_limits().items() if known({signal: both[0]})}
        reclaims, are_shown = self.reclaims()
        period, is_shown = self.period()
        guessed = [name for name, is_guessed in ((RECLAIM, are_shown), (PERIOD, is_shown)) if is_guessed]
        return without_nones({
            HARD: known(self.hard_limits(capacity)),
            SOFT: {signal: limit for signal, (limit, _) in soft.items()} or None,
            GRACE: {signal: grace for signal, (_, grace) in soft.items()} or None, RECLAIM: known(reclaims) or None,
            PERIOD: period, "guessed": guessed or None})


def amount_of(limit: str, capacity: Optional[int]) -> Optional[float]:
    """A limit in whole units; None of a part of a capacity that is not known."""
    found = amounts.limit(limit, None if capacity is None else capacity * 1000)
    return None if found is None else found / 1000


def is_near(limit: int, other: Optional[float]) -> bool:
    return other is not None and abs(limit - other) <= max(NEAR * other, 1)


@dataclass
class Round:
    """A round of the eviction manager: the moment of its first observation, the signals of which it has one, and the
    conditions."""
    at: float
    signals: set[str] = field(default_factory=set)
    met: frozenset[str] = frozenset()
    true: frozenset[str] = frozenset()


class Thresholds:
    """The configurations of the kubelet's processes, one after the other, and the round that is read now."""

    def __init__(self) -> None:
        self.configurations = [Configuration(0.0)]
        self.round = Round(0.0)
        # the members that were asked for last, until a line changes them: of which configuration and capacity they are
        self.asked: Optional[tuple[Configuration, dict[str, int], dict[str, Any]]] = None
        self.readers: dict[type, Callable[[Any], None]] = {
            facts.HardThresholds: self.take_hard, facts.SoftThreshold: self.take_soft, facts.Flag: self.take_flag,
            facts.Below: self.take_below, facts.Pressure: self.take_pressure}

    @property
    def newest(self) -> Configuration:
        return self.configurations[-1]

    def take(self, fact: facts.Fact) -> None:
        self.asked = None
        self.readers[type(fact)](fact)

    def begin(self, at: float) -> None:
        """A process of the kubelet begins."""
        self.asked = None
        self.round = Round(0.0)
        if self.newest.has_begun():
            self.configurations.append(Configuration(at))

    def pause(self) -> None:
        """Lines are missing: what the rounds before show of conditions is over."""
        self.asked = None
        self.round = Round(0.0)
        self.newest.met.clear()

    def take_hard(self, fact: facts.HardThresholds) -> None:
        # a process reports it once; it may have the number of the one before, as in a container
        if self.newest.hard is not None:
            self.begin(fact.at)
        self.newest.hard = fact.limits

    def take_flag(self, fact: facts.Flag) -> None:
        if self.newest.hard is not None:
            self.begin(fact.at)
        self.newest.flags[fact.name] = fact.value

    def take_soft(self, fact: facts.SoftThreshold) -> None:
        self.newest.soft[fact.signal] = fact.limit, fact.grace

    def take_below(self, fact: facts.Below) -> None:
        self.newest.shown.setdefault(fact.signal, set()).add(fact.limit)
        above = fact.observed - fact.limit
        if fact.is_unreclaimed and above >= 0:
            self.newest.unreclaimed[fact.signal] = max(above, self.newest.unreclaimed.get(fact.signal, 0))

    def take_pressure(self, fact: facts.Pressure) -> None:
        if fact.is_met:
            self.round.met = fact.conditions
        else:
            self.round.true = fact.conditions

    def end_round(self) -> None:
        """The round is over, as the next one begins."""
        self.asked = None
        if self.round.signals:
            self.newest.take_round(int(self.round.at), self.round.met, self.round.true)
        self.round = Round(0.0)

    # --- the members of a node line ---

    def of(self, second: int, capacity: dict[str, int]) -> dict[str, Any]:
        """The members of a node line of a trace that begins at a second."""
        begun = [each for each in self.configurations if int(each.begun) <= second]
        found = (begun or self.configurations[:1])[-1]
        if self.asked is None or self.asked[0] is not found or self.asked[1] != capacity:
            self.asked = found, dict(capacity), found.fields(capacity)
        return self.asked[2]

    def of_all(self, capacity: dict[str, int]) -> tuple[dict[str, Any], bool]:
        """The members of one trace of all processes, and whether one of these had other thresholds, which it lacks."""
        known = [(each, each.fields(capacity)) for each in self.configurations if each.has_begun()]
        if not known:
            return self.newest.fields(capacity), False
        members = dict(known[-1][1])
        has_others = False
        for name in (HARD, SOFT, GRACE):
            limits = {signal: limit for _, fields in known for signal, limit in fields.get(name, {}).items()}
            same = {signal: limit for signal, limit in limits.items() if all(
                fields.get(name, {}).get(signal, None if each.is_whole() else limit) == limit
                for each, fields in known)}
            has_others = has_others or same != limits
            members[name] = same
        members[SOFT] = {signal: limit for signal, limit in members[SOFT].items() if signal in members[GRACE]}
        return {name: value for name, value in members.items() if value or name == HARD}, has_others
