"""The pods of a journal, and the instances of their containers: of which of them a line speaks."""

from __future__ import annotations

import re
from collections.abc import Callable
from dataclasses import replace
from typing import Any, Optional

from replay_tools.record.formats import without_nones

from . import facts
from .lives import HEARD, Life
from .manifests import Manifests
from .outputs import output_kept
from .placing import WITH_MANIFEST, Placing

# what a new process of the kubelet finds in its first looks ran before it
FIRST_LOOKS = 6
MOST_LOOSE = 100_000
# where static pods come from, and what a kubelet gives one in place of a uid
FILES = "file", "http"
HASH = re.compile(r"[0-9a-f]{32}")
# why a container waits that could not be started
STARTS_FAILED = ("RunContainerError", "StartError", "ContainerCannotRun")


class Pods:
    """Passes each fact of a pod, an instance or a probe to the pod that it is of."""

    def __init__(self, manifests: Manifests, placing: Placing, say: Callable[..., None], hold: float) -> None:
        self.manifests = manifests
        self.placing = placing
        self.say = say
        self.hold = hold
        self.lives: list[Life] = []
        self.by_uid: dict[str, Life] = {}
        self.by_key: dict[str, Life] = {}
        self.of_id: dict[str, Life] = {}
        # the uids of pods that have gone, of which a late line makes no other pod
        self.left: dict[str, None] = {}
        # what lines show of ids whose pod is not known yet
        self.loose: dict[str, list[facts.Known]] = {}
        for known in manifests.known:
            self.loose.setdefault(known.id, []).append(known)
        self.has_met_running = False
        self.node: Optional[str] = None
        self.begun: Optional[float] = None
        # the newest moment
        self.now = 0.0
        self.has_turned = False
        # when the kubelet was started, where the journal has that
        self.started_at: Optional[float] = None
        self.probed: dict[tuple[str, str, str], tuple[str, Optional[str]]] = {}
        self.handlers: dict[type, Callable[[Any], None]] = {
            facts.Added: self.on_added, facts.Deleted: self.on_deleted, facts.Removed: self.on_removed,
            facts.Turned: self.on_turned, facts.Known: self.on_known, facts.Created: self.on_created,
            facts.Probed: self.on_probed, facts.Turnover: self.on_turnover, facts.Killing: self.on_killing,
            facts.Waits: self.on_waits, facts.Updated: self.on_updated}

    # --- pods ---

    def life_of(self, pod: facts.Reference, at: float, is_new: bool = False) -> Optional[Life]:
        """The pod of a reference, which is met by it where it is new; None of a uid without a name."""
        found = self.by_uid.get(pod.uid) if pod.uid is not None else None
        found = self.of_copy(pod) if found is None else found
        before: Optional[Life] = None
        if found is None and pod.key is not None:
            found = self.by_key.get(pod.key)
            if found is not None and self.is_another(found, pod, is_new):
                found.replaced_at = at if found.replaced_at is None else found.replaced_at
                found.due_at = HEARD
                before, found = found, None
        if found is None and pod.key is not None and (is_new or pod.uid not in self.left):
            found = self.meet(pod, at)
            found.follows_at = 0.0 if before is None else at
        elif found is not None and found.uid is None and pod.uid is not None:
            found.uid = pod.uid
            self.by_uid[pod.uid] = found
        return self.heard(found)

    # --- static pods ---

    def of_copy(self, pod: facts.Reference) -> Optional[Life]:
        """The static pod whose copy in the API server a reference names, or which is met by its copy first: one of the
        hash that the copy's object has, else one of that name which the kubelet runs from a file."""
        if pod.uid is None:
            return None
        named = None if pod.key is None else self.by_key.get(pod.key)
        found = self.by_uid.get(self.manifests.mirrors.get(pod.uid, ""))
        if found is None and named is not None and named.uid is not None:
            is_file = HASH.fullmatch(pod.uid) is not None
            if named.is_static and not is_file and named.removed_at is None:
                found = named
            elif is_file and not named.is_static and not named.has_run() and named.deleted_at is None:
                found, named.uid, named.is_static = named, pod.uid, True
        if found is not None:
            self.by_uid[pod.uid] = found
            found.copies.add(pod.uid)
        return found

    def is_copy(self, pod: facts.Reference, source: str) -> bool:
        """Whether a line is of the copy of a static pod, which comes and goes as the pod of the file runs on."""
        if source in FILES:
            return False
        found = self.by_uid.get(pod.uid) if pod.uid is not None else self.by_key.get(pod.key or "")
        found = self.of_copy(pod) if found is None else found
        return found is not None and found.is_static and (
            found.removed_at is None if pod.uid is None else pod.uid != found.uid)

    def heard(self, life: Optional[Life]) -> Optional[Life]:
        """A pod of which a line speaks."""
        if life is not None:
            life.heard_at, life.due_at = self.now, HEARD
        return life

    @staticmethod
    def is_another(life: Life, pod: facts.Reference, is_new: bool) -> bool:
        """Whether a reference is of another pod of that name."""
        if life.uid is not None and pod.uid is not None:
            return life.uid != pod.uid and not life.is_copied_as(pod.uid)
        return is_new and (life.removed_at is not None or life.deleted_at is not None)

    def meet(self, pod: facts.Reference, at: float) -> Life:
        # a number is given once, also where pods were forgotten: items of a second are sorted by it
        life = Life(self.placing.counts["met"], str(pod.key), pod.uid, at)
        self.placing.counts["met"] += 1
        life.is_static = pod.uid is not None and HASH.fullmatch(pod.uid) is not None
        life.pod, life.is_template = self.manifests.of(pod)
        if life.pod is not None and life.pod.fault is not None:
            self.say(f"{life.key} is left out: {life.pod.fault}")
            life.is_refused = True
        if life.pod is not None:
            self.placing.count(WITH_MANIFEST)
        self.lives.append(life)
        self.by_key[life.key] = life
        if pod.uid is not None:
            self.by_uid[pod.uid] = life
        return life

    def meet_running(self) -> None:
        """Pods that ran before the journal begins, as their statuses show; the journal may have nothing of them."""
        self.has_met_running = True
        begun = self.begun or 0.0
        for known in self.manifests.known:
            pod, _ = self.manifests.of(known.pod)
            is_there = known.started is not None and known.started < begun and (known.finished or begun) >= begun
            if is_there and pod is not None and self.manifests.is_on(known.pod, self.node):
                life = self.by_uid.get(known.pod.uid or "") or self.by_key.get(known.pod.key or "")
                if life is None:
                    life = self.meet(known.pod, begun)
                if life.uid in (None, known.pod.uid) and not life.was_added and life.arrived is None:
                    life.added_at = begun
                    self.own(known.id, life)
                    self.tell(life, known)

    def known_life(self, pod: facts.Reference) -> Optional[Life]:
        found = self.by_uid.get(pod.uid) if pod.uid is not None else None
        found = self.of_copy(pod) if found is None else found
        found = self.by_key.get(pod.key) if found is None and pod.key is not None else found
        return None if found is not None and self.is_another(found, pod, False) else self.heard(found)

    def life_there_before(self, life: Optional[Life]) -> Optional[Life]:
        """A pod of which a line speaks that a kubelet writes where it writes too which pods come: without such a line
        it was there before the journal begins, or goes on after a gap."""
        if life is not None and not life.is_listed and life.arrived is None:
            since = max([self.begun or 0.0, life.follows_at, *self.placing.behind])
            life.added_at = min(life.added_at, since)
        return life

    def is_begin_of_process(self, at: float) -> bool:
        """Whether the kubelet was started just before."""
        return self.started_at is not None and at - self.started_at <= FIRST_LOOKS

    def forget(self, horizon: float) -> None:
        """Forgets the pods that are over, and instances."""
        over = {id(life): life for life in self.lives
                if life.is_over or (life.is_refused and life.added_at <= horizon)}
        if over:
            self.lives = [life for life in self.lives if id(life) not in over]
            self.of_id = {identity: life for identity, life in self.of_id.items() if id(life) not in over}
        for life in over.values():
            self.left.update(dict.fromkeys(uid for uid in (life.uid, *life.copies) if uid is not None))
            if self.by_key.get(life.key) is life:
                del self.by_key[life.key]
            for uid in {life.uid, *life.copies}:
                if uid is not None and self.by_uid.get(uid) is life:
                    del self.by_uid[uid]
        for life in self.lives:
            life.forget(horizon - self.hold)
        self.placing.silences.forget(horizon - self.hold)
        while len(self.loose) > MOST_LOOSE:
            del self.loose[next(iter(self.loose))]
        while len(self.left) > MOST_LOOSE:
            del self.left[next(iter(self.left))]

    def on_added(self, fact: facts.Added) -> None:
        if self.is_copy(fact.pod, fact.source):
            return
        life = self.life_of(fact.pod, fact.at, True)
        if life is None:
            return
        if life.is_listed and fact.pod.uid is not None and not life.has_left:
            life.come_back()
        life.is_static = life.is_static or fact.source in FILES
        life.is_listed = True
        # what a kubelet that is started again finds was there before
        life.was_added = life.was_added or not self.is_begin_of_process(fact.at)

    def on_deleted(self, fact: facts.Deleted) -> None:
        if self.is_copy(fact.pod, fact.source):
            return
        life = self.life_there_before(self.life_of(fact.pod, fact.at))
        if life is not None and life.deleted_at is None:
            life.deleted_at = fact.at
            self.placing.count("pods deleted")

    def on_removed(self, fact: facts.Removed) -> None:
        if self.is_copy(fact.pod, fact.source):
            return
        life = self.known_life(fact.pod)
        if life is not None and fact.source in FILES and life.deleted_at is None:
            # a static pod goes as its file does
            life.deleted_at = fact.at
            self.placing.count("pods deleted")
        if life is not None and life.removed_at is None:
            life.removed_at = fact.at

    # --- instances ---

    def on_turned(self, fact: facts.Turned) -> None:
        life = self.heard(self.of_id.get(fact.id)) or self.life_of(fact.pod, fact.at, fact.pod.uid in self.left
                                                                   and fact.what == facts.STARTED)
        if life is None:
            return
        if not fact.is_exact:
            self.life_there_before(life)
        self.own(fact.id, life)
        self.has_turned = True
        life.turn(fact, not life.was_added and self.is_begin_of_process(fact.at))

    def own(self, identity: str, life: Life) -> None:
        """An id is of a pod; the pod takes what lines reported of the id before."""
        if identity not in self.of_id:
            self.of_id[identity] = life
            for known in self.loose.pop(identity, ()):
                self.tell(life, known)

    def on_known(self, fact: facts.Known) -> None:
        life = self.heard(self.of_id.get(fact.id))
        if life is None and (fact.pod.key is not None or fact.pod.uid in self.by_uid):
            life = self.life_of(fact.pod, fact.at)
        if life is None:
            self.loose.setdefault(fact.id, []).append(fact)
            return
        self.own(fact.id, life)
        self.tell(life, fact)

    def tell(self, life: Life, known: facts.Known) -> None:
        name = None if known.container is None else life.placed_name(known.container, self.now, self.placing)
        life.instances.of(known.id).know(known if name == known.container else replace(known, container=name))
        if name is not None:
            life.instances.note_name(name)

    def on_created(self, fact: facts.Created) -> None:
        life = self.known_life(fact.pod) if fact.is_of_cluster else self.life_of(fact.pod, fact.at)
        if life is not None:
            name = life.placed_name(fact.container, fact.at, self.placing)
            life.instances.hints.created.append((fact.at, name))
            life.instances.note_name(name)

    def on_killing(self, fact: facts.Killing) -> None:
        life = self.heard(self.of_id.get(fact.id))
        if life is None:
            return
        instance = life.instances.of(fact.id)
        before = instance.killing
        instance.killing = fact if before is None else facts.Killing(
            before.at, fact.id, grace=fact.grace if before.grace is None else before.grace, why=before.why or fact.why)
        self.placing.count("kills" if before is None else "lines of kills")
        # the line with the reason precedes the line with the grace
        if fact.grace is not None and (before is None or before.grace is None):
            life.add(fact.at, "kill", (instance, fact.grace))

    def on_updated(self, fact: facts.Updated) -> None:
        life = self.known_life(fact.pod)
        if life is not None:
            life.instances.hints.updated.append(fact.at)

    def on_waits(self, fact: facts.Waits) -> None:
        life = self.life_of(fact.pod, fact.at)
        if life is not None:
            name = life.placed_name(fact.container, fact.at, self.placing)
            life.instances.hints.waits.append((fact.at, name))
            if fact.reason in STARTS_FAILED:
                life.instances.hints.failed.append((fact.at, name))
            life.instances.note_name(name)
            life.add(fact.at, "wait", life.entry_of_wait(fact, name))

    # --- probes ---

    def on_probed(self, fact: facts.Probed) -> None:
        life = self.life_of(fact.pod, fact.at)
        if life is None:
            return
        self.placing.has_successes = self.placing.has_successes or fact.result == "success"
        name = life.placed_name(fact.container, fact.at, self.placing)
        life.instances.hints.probed.append((fact.at, name))
        life.instances.note_name(name)
        life.add(fact.at, "result", (name, fact.probe, fact.result))
        place = life.key, fact.container, fact.probe
        said = fact.result, output_kept(fact.output) if fact.output else None
        if fact.result == "failure" and self.probed.get(place) != said:
            is_left_out = said[1] is None and bool(fact.output.strip())
            self.placing.say(life.key, fact.at, without_nones({
                "container": fact.container, "reason": "Unhealthy", "probe": fact.probe, "message": said[1],
                "messageLeftOut": is_left_out or None}))
        self.probed[place] = said

    def on_turnover(self, fact: facts.Turnover) -> None:
        """All results of a probe came to something; from then on its successes have lines."""
        life = self.life_of(fact.pod, fact.at)
        if life is None or life.pod is None or life.is_refused or fact.probe == "liveness":
            return
        self.placing.told_probes.add(fact.probe)
        if fact.status not in ("ready", "started"):
            return
        for container in life.pod.containers():
            if life.pod.has_probe(container, fact.probe):
                for back in reversed(range(min(life.pod.successes_wanted(container, fact.probe), 100))):
                    at = fact.at - back * life.pod.period(container, fact.probe)
                    life.add(at, "result", (container, fact.probe, "success"))
