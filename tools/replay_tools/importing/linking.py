"""Which container an instance is of, if no line shows it: by exclusion, by the lines that name a container which
waits or is made, and by the order in which a kubelet starts them."""

from __future__ import annotations

import bisect
from typing import Optional

from replay_tools.restarting import ALWAYS, Restarting

from .chains import LOOK_SECONDS, MOST_CHAINS, MOST_NEXT, UNNAMED, Chain, Hints, Instance

# a line that names a container which is started comes so long before the poll that finds it
CREATED_SECONDS = 4.0
# containers that start so soon after an exit come one after the other
SOON_SECONDS = 3.0
# one that runs so long has not crashed at its start
LONG_SECONDS = 10.0
# a start comes at most so long after the line that an object has changed, if that had an ephemeral container added
UPDATED_SECONDS = 60.0


def serial(instances: list[Instance]) -> int:
    """How many instances came one after the other, each soon after the exit of the one before."""
    count = 1
    for before, after in zip(instances, instances[1:]):
        if before.gone is None or not 0 <= (after.seen or 0) - before.gone + LOOK_SECONDS < SOON_SECONDS:
            break
        count += 1
    return count


class Linking:
    """Puts instances into the chains of their containers, in the order of their starts."""

    def __init__(self, chains: list[Chain], names: list[str], decides: dict[str, Restarting], hints: Hints,
                 has_manifest: bool) -> None:
        # the containers that no manifest has, as ephemeral ones, are no candidates when one is found by exclusion
        self.has_manifest = has_manifest
        self.others = [chain for chain in chains if has_manifest and chain.name is not None and chain.name not in names]
        self.chains = [chain for chain in chains if chain not in self.others]
        self.names = names
        # what decides about the restarts of each container of its manifest
        self.decides = decides
        self.inits = [name for name, each in decides.items() if each.is_init]
        # the init containers that run on next to what comes after them, and come again
        self.sidecars = {name for name, each in decides.items() if each.is_sidecar}
        # of a container that is not known yet the pod's policy decides
        self.of_pod = Restarting(next((each.of_pod for each in decides.values()), ALWAYS))
        self.hints = hints
        self.created = sorted(hints.created)
        self.waits = sorted(hints.waits)
        # how many runs of init containers are runs again
        self.extra = 0

    def take(self, instance: Instance) -> None:
        name = instance.name if instance.name and not instance.is_found else self.created_name(instance)
        if self.is_other(instance, name):
            self.take_other(instance, name)
            return
        if name is None:
            name = self.init_name(instance)
        chain = self.named(name) if name is not None else self.chain_by_exclusion(instance)
        if chain is None:
            self.chains.append(Chain([instance], name))
        else:
            chain.instances.append(instance)

    def is_other(self, instance: Instance, name: Optional[str]) -> bool:
        """Whether it is of a container that the manifest has not, as an ephemeral one: by its name; else where the
        pod's object has changed shortly before, and all of its containers run."""
        if not self.has_manifest:
            return False
        if name is not None:
            return name not in self.names
        at = instance.seen or 0
        place = bisect.bisect_left(self.hints.updated, at - UPDATED_SECONDS)
        is_changed = place < len(self.hints.updated) and self.hints.updated[place] <= at
        apps = [chain for chain in self.chains if chain.name not in self.inits]
        is_whole = len(apps) >= len([each for each in self.names if each not in self.inits])
        return is_changed and is_whole and not any(chain.is_down(at) for chain in apps)

    def take_other(self, instance: Instance, name: Optional[str]) -> None:
        name = name or f"{UNNAMED}-{len(self.others) + 1}"
        chain = next((each for each in self.others if each.name == name), None)
        if chain is None and len(self.others) >= MOST_CHAINS:
            chain = self.others[-1]
        if chain is None:
            self.others.append(Chain([instance], name))
        else:
            chain.instances.append(instance)
        instance.name, instance.is_found = name, instance.is_found or instance.name is None

    def created_name(self, instance: Instance) -> Optional[str]:
        """The name in a line that a container is made, shortly before the poll that found it."""
        at = instance.seen or 0
        begin = bisect.bisect_left(self.created, (at - CREATED_SECONDS, ""))
        # one of several made before one look is taken away from them, so few are looked through
        near = self.created[begin:bisect.bisect_left(self.created, (at + LOOK_SECONDS, "~"))]
        # where two are made before one look, only exclusion shows which is which
        if len({name for _, name in near}) != 1:
            return None
        del self.created[begin]
        return near[0][1]

    def named(self, name: str) -> Optional[Chain]:
        """The chain of a container; where none has its name, the one that may be it."""
        found = next((chain for chain in self.chains if chain.name == name), None)
        unnamed = [chain for chain in self.chains if chain.name is None]
        if found is None and len(unnamed) == 1 and len(self.chains) >= len(self.names):
            unnamed[0].name = name
            return unnamed[0]
        return found

    def init_name(self, instance: Instance) -> Optional[str]:
        """The init container that starts next, while they do: the next one after an exit with 0, else the same. What
        ran before the journal begins is most likely none: they are short."""
        ran = [chain for chain in self.chains if chain.name in self.inits]
        if instance.is_met and not ran:
            return None
        if not self.inits or any(chain.name is None or chain.name not in self.inits for chain in self.chains):
            return None
        if not ran:
            return self.inits[0]
        last = max(ran, key=lambda chain: chain.newest.seen or 0)
        place = self.inits.index(str(last.name))
        next_name = self.inits[place + 1] if place + 1 < len(self.inits) else None
        if any(chain.name in self.sidecars and chain.is_down(instance.seen or 0) for chain in ran):
            return None
        if last.name in self.sidecars:
            return next_name
        since = last.newest.gone if last.newest.gone is not None else last.newest.seen
        if last.newest.code not in (0, None):
            return last.name
        if last.newest.code is None and (self.has_waited(str(last.name), since or 0, instance.seen or 0)
                                         or self.waits_next(instance) == last.name):
            return last.name
        if last.newest.code is None and self.extra > 0 and place >= len(self.inits) // 2:
            self.extra -= 1
            return last.name
        return next_name

    def has_waited(self, name: str, since: float, until: float) -> bool:
        """Whether a line shows that a container waits between two moments."""
        place = bisect.bisect_left(self.waits, (since, ""))
        return any(each == name and at <= until for at, each in self.waits[place:place + MOST_NEXT])

    def waits_next(self, instance: Instance) -> Optional[str]:
        """The container of which the next line from a start on shows that it waits: an init container that does so has
        not passed by then, so that nothing after it has run."""
        place = bisect.bisect_left(self.waits, (instance.seen or 0, ""))
        return self.waits[place][1] if place < len(self.waits) else None

    def count_extra(self, instances: list[Instance]) -> None:
        """How often an init container ran again without a code that shows it, by how many came one after the other up
        to the app's. Which of them it was is not known: the middle one leaves most of the others right."""
        apps = [name for name in self.names if name not in self.inits]
        if not self.inits or self.chains or not instances:
            return
        count = next((place for place, each in enumerate(instances) if each.name in apps and not each.is_found), None)
        if count is None:
            count = serial(instances) - 1
            last = instances[count]
            # where the last of them soon exited too, and the app is reported to wait, it was the app that came again
            is_short = last.gone is not None and last.gone - (last.seen or 0) < LONG_SECONDS
            has_crashed = is_short and any(name in apps and at >= (last.gone or 0) for at, name in self.hints.waits)
            count = 0 if has_crashed or len(apps) != 1 else count
        known = sum(each.code not in (0, None) for each in instances[:count])
        self.extra = max(count - known - len(self.inits), 0)

    def chain_by_exclusion(self, instance: Instance) -> Optional[Chain]:
        """The container that does not run, of which the next start is due about then; None where it is one that has not
        run yet."""
        at = instance.seen or 0
        apps = [chain for chain in self.chains if chain.name not in self.inits]
        down = [chain for chain in self.chains if (chain in apps or chain.name in self.sidecars)
                and chain.is_down(at) and self.comes_again(chain)]
        rest = len([name for name in self.names if name not in self.inits]) - len(apps)
        if rest > 0 and not any(chain.expected() <= at for chain in down):
            return None
        if down:
            return min(down, key=lambda chain: abs(chain.expected() - at))
        if len(self.chains) < MOST_CHAINS and (rest > 0 or not self.names or not apps):
            return None
        apps = apps or self.chains
        # the poll that found its exit is not in the journal
        return min(apps, key=lambda chain: chain.newest.seen or 0)

    def comes_again(self, chain: Chain) -> bool:
        code, decides = chain.newest.code, self.decides.get(str(chain.name), self.of_pod)
        return decides.may_want() if code is None else decides.wants(code)

    # --- names ---

    def name_all(self) -> None:
        """Names each chain: by a line that names one of its instances, or a container that waits while it alone is
        down; then in the order in which a kubelet starts them."""
        for chain in self.chains:
            said = [each.name for each in chain.instances if each.name and not each.is_found]
            if chain.name is None and said and not self.is_taken(said[-1]):
                chain.name = said[-1]
        if any(chain.name is None for chain in self.chains):
            self.name_by(self.hints.waits, True)
            self.name_by(self.hints.probed, False)
        left = sorted((name for name in self.names if not self.is_taken(name)), key=lambda name: name in self.inits)
        for chain in self.chains:
            if chain.name is None:
                chain.name = left.pop(0) if left else self.unnamed()
            for each in chain.instances:
                if each.name is None or each.is_found or each.name != chain.name:
                    each.name, each.is_found = chain.name, len(self.names) != 1

    def name_by(self, hints: list[tuple[float, str]], is_down: bool) -> None:
        """Names chains by moments at which a container is down, or runs, and just one chain does so."""
        for at, name in hints:
            if self.is_taken(name) or (self.names and name not in self.names):
                continue
            fits = [chain for chain in self.chains
                    if chain.is_down(at) == is_down and (chain.instances[0].seen or 0) <= at]
            if len(fits) == 1 and fits[0].name is None:
                fits[0].name = name

    def is_taken(self, name: Optional[str]) -> bool:
        return any(chain.name == name for chain in self.chains)

    def unnamed(self) -> str:
        number, name = 1, UNNAMED
        while self.is_taken(name):
            number += 1
            name = f"{UNNAMED}-{number}"
        return name

