"""What the lines show of one pod, gathered until it is settled: its instances, and which container each is of. A poll
of the kubelet's has an id and no name, so if no line has it, it is found by exclusion: the container that does not run
is the one that starts."""

from __future__ import annotations

import bisect
from collections.abc import Iterator
from typing import Optional, TYPE_CHECKING

from .chains import AFTER, FAILED_SECONDS, LOOK_SECONDS, MOST_CHAINS, MOST_NAMES, Chain, Hints, Instance
from .linking import Linking

if TYPE_CHECKING:
    from replay_tools.record.pods import Pod


class Instances:
    """The instances of a pod, and the names of their containers."""

    def __init__(self) -> None:
        self.by_id: dict[str, Instance] = {}
        self.chains: list[Chain] = []
        self.hints = Hints()
        self.names: list[str] = []
        # whether a line had something new since their containers were found
        self.is_news = False

    def of(self, identity: str) -> Instance:
        """The instance of an id that a line names."""
        self.is_news = True
        return self.by_id.setdefault(identity, Instance(identity))

    def note_name(self, name: str) -> None:
        """A container's name that a line has, of a pod without a manifest."""
        self.is_news = True
        if name not in self.names and len(self.names) < MOST_NAMES:
            self.names.append(name)

    def forget(self, before: float) -> None:
        """Forgets what was settled and is over, but for the newest instance of each container."""
        newest = {id(chain.newest) for chain in self.chains}
        self.by_id = {identity: each for identity, each in self.by_id.items() if id(each) in newest
                      or not (each.has_ended or each.is_sandbox) or (each.gone or before) >= before}
        for chain in self.chains:
            chain.instances = [each for each in chain.instances if each.id in self.by_id] or [chain.newest]
        self.hints.forget(before)

    def lost(self) -> list[tuple[Instance, Instance]]:
        """The instances whose exit no line has, each with the next one of its container."""
        return [(each, after) for chain in self.chains for each, after in zip(chain.instances, chain.instances[1:])
                if each.end is None]

    def lose(self, horizon: float) -> None:
        """An instance whose exit no line has has exited all the same if a line shows that its container waits or starts
        again: with the first such line."""
        for chain in self.chains:
            lost = [(each, after) for each, after in zip(chain.instances, [*chain.instances[1:], None])
                    if each.end is None]
            waits = [at for at, name in self.hints.waits if name == chain.name] if lost else []
            for each, after in lost:
                self.lose_one(each, after, waits, horizon)

    @staticmethod
    def lose_one(each: Instance, after: Optional[Instance], waits: list[float], horizon: float) -> None:
        begin = each.begin
        if begin is None:
            return
        until = float("inf") if after is None else after.begin or 0.0
        place = bisect.bisect_right(waits, max(begin, each.seen or begin))
        ends = [at for at in waits[place:place + 1] if at < until] or ([] if after is None else [until - AFTER])
        if ends and ends[0] <= horizon:
            each.gone, each.is_lost = max(ends[0], begin), True

    def untangle(self) -> None:
        """An instance whose start no poll found ran after the instances that started and exited before its exit."""
        for chain in self.chains:
            guessed = [each for each in chain.instances if each.is_guess]
            if not guessed:
                continue
            starts = [each.seen or 0.0 for each in chain.instances]
            others = list(chain.instances)
            for each in guessed:
                begin, end = bisect.bisect_left(starts, each.seen or 0.0), bisect.bisect_left(starts, each.gone or 0.0)
                ends = [other.gone for other in others[max(begin, end - MOST_CHAINS):end] if other is not each
                        and other.gone is not None and other.gone < (each.gone or 0.0)]
                if ends:
                    each.seen, each.is_met = max(ends) + AFTER, False
            chain.instances.sort(key=lambda each: (each.written is None, each.seen or 0))

    def see_starts_that_failed(self) -> None:
        """What came and went between two polls never ran, if a line shows that the container could not be started."""
        for chain in self.chains:
            for each in chain.instances:
                if each.is_guess and each.gone is not None:
                    begin = bisect.bisect_left(self.hints.failed, (each.gone - FAILED_SECONDS, ""))
                    near = self.hints.failed[begin:begin + MOST_CHAINS]
                    each.never_ran = any(name == chain.name and at <= each.gone + LOOK_SECONDS for at, name in near)

    def in_holes(self) -> Iterator[tuple[Instance, float, float]]:
        """The instances that the kubelet's looks found, and whose exits no look found, though one found the next: each
        with the last moment at which a line showed that it ran, and the moment of the next start."""
        lost = [(each, after) for each, after in self.lost() if each.is_looked and after.is_looked]
        probed: dict[str, list[float]] = {}
        for at, name in self.hints.probed if lost else ():
            probed.setdefault(name, []).append(at)
        for each, after in lost:
            start, of_name = after.seen or 0.0, probed.get(str(each.name), [])
            place = bisect.bisect_left(of_name, start)
            killed = [] if each.killing is None else [each.killing.at]
            yield each, max([each.seen or 0.0, *of_name[max(place - 1, 0):place], *killed]), start

    def complete(self, added_at: float) -> None:
        """Instances that no poll found, and whose start a status has, ran all the same: from then on,
        or from before the pod was met."""
        for each in self.by_id.values():
            if each.gone is None and each.finished is not None:
                each.gone = each.finished
            is_over = each.gone is not None and each.gone < added_at
            if each.seen is None and each.started is not None and not each.is_sandbox and not is_over:
                each.is_met = each.started < added_at
                each.seen = max(each.started, added_at)

    # --- which is the sandbox ---

    def find_sandboxes(self, running: Optional[Instance]) -> None:
        """Of the starts that one look found, where no sandbox runs, the last is the sandbox's, or the first alone."""
        for look in self.looks():
            known = [each for each in look if each.is_sandbox]
            if known:
                running = known[-1]
            elif running is None or (running.gone is not None and running.gone <= look[0].looked_at):
                unknown = [each for each in look if each.name is None or each.is_found]
                # what has exited already is a container, if the sandbox that it had was found by then
                unknown = [each for each in unknown if not each.is_unseen] or unknown
                if unknown and unknown[-1].written is None:
                    running = unknown[-1]
                    running.is_sandbox, running.name, running.is_found = True, None, False

    def sandbox_before(self, most: int, is_ending: bool) -> Instance:
        """The sandbox of a pod that was there before the journal begins, whose start no line has: of what exits
        and was not seen to start the last one, if nothing of the pod runs after it, and it is one more than the pod
        has containers, or the pod ends. Until then none has a line."""
        unseen = sorted((each for each in self.by_id.values() if each.is_unseen), key=lambda each: each.gone or 0)
        last = unseen[-1] if unseen and (len(unseen) > most or is_ending) else None
        if last is None or last.name is not None and not last.is_found or last.written is not None or any(
                each.gone is None or each.gone > (last.gone or 0) for each in self.by_id.values()
                if each.seen is not None and each.seen <= (last.gone or 0)):
            return Instance("")
        last.is_sandbox, last.name, last.is_found = True, None, False
        return last

    def looks(self) -> list[list[Instance]]:
        """The instances that started, by the looks that found them."""
        found: list[list[Instance]] = []
        seen = (each for each in self.by_id.values() if each.seen is not None)
        for each in sorted(seen, key=lambda each: each.looked_at):
            if found and each.looked_at - found[-1][-1].looked_at <= LOOK_SECONDS:
                found[-1].append(each)
            else:
                found.append([each])
        return found

    # --- of which container an instance is ---

    def resolve(self, pod: Optional[Pod], added_at: float, is_listed: bool, is_ending: bool) -> None:
        """Finds the container of each instance that has not been written yet. A pod whose arrival no line has
        was there before."""
        if not self.is_news:
            return
        self.is_news = False
        self.complete(added_at)
        is_before = not is_listed and any(each.is_met or each.is_unseen for each in self.by_id.values())
        has_known = any(each.is_sandbox for each in self.by_id.values())
        most = 1 if pod is None else len(pod.containers())
        self.find_sandboxes(self.sandbox_before(most, is_ending) if is_before and not has_known else None)
        names = pod.containers() if pod is not None else list(self.names)
        decides = pod.restarting if pod is not None else {}
        kept = [Chain([each for each in chain.instances if each.written is not None], chain.name)
                for chain in self.chains]
        chains = [chain for chain in kept if chain.instances]
        linking = Linking(chains, names, decides, self.hints, pod is not None)
        unwritten = sorted((each for each in self.by_id.values() if each.written is None and not each.is_sandbox
                            and each.seen is not None), key=lambda each: each.seen or 0)
        linking.count_extra(unwritten)
        for each in unwritten:
            linking.take(each)
        linking.name_all()
        self.chains = linking.chains + linking.others
