"""Scripted nodes that are recorded into a folder, and the traces that result."""

import glob
import gzip
import json
import os
import shutil
import tempfile

from chance import BEGIN
from checks import HERE, run

from player import Play
from replay_tools.record.folder import Folder
from replay_tools.record.into import LastingRecording, Traces
from replay_tools.record.sources import Sources
from replay_tools.record.words import words_of


class Clock:
    """A clock that goes on only while somebody waits."""

    def __init__(self, moment):
        self.moment = moment

    def now(self):
        return self.moment

    def wait(self, seconds):
        self.moment += seconds


class Killed(Exception):
    """The recorder is no more."""


class ClockUntil(Clock):
    """One at whose moment the recorder is killed."""

    def __init__(self, moment, end):
        super().__init__(moment)
        self.end = end

    def wait(self, seconds):
        if self.moment + seconds > self.end:
            raise Killed
        super().wait(seconds)


class Into:
    """A folder into which scripted nodes are recorded."""

    def __init__(self, play, recording=None):
        self.run = tempfile.mkdtemp()
        self.recording = recording or self.run
        self.folder = f"{self.run}/traces"
        os.mkdir(self.folder, 0o755)
        with open(f"{self.run}/play.json", "w", encoding="utf-8") as file:
            json.dump(play, file)

    def record(self, *words, before=()):
        """The answer of a recording of the script, which another command may start."""
        return run([*before, f"{HERE}/commands/played_record", "--node", "n1", *words],
                   PATH=f"{HERE}/commands:{os.environ['PATH']}", RECORDING=self.recording, RUN=self.run)

    def into(self, *words, **how):
        return self.record("--into", self.folder, *words, **how)

    def put(self, name, data):
        with open(f"{self.folder}/{name}", "wb") as file:
            file.write(data)

    def names(self):
        return sorted(os.listdir(self.folder))

    def texts(self):
        """The traces in their order."""
        return self.texts_of("")

    def texts_of(self, begin):
        """Those whose names begin so."""
        return [unpacked(path) for path in sorted(glob.glob(f"{self.folder}/{begin}*.gz"))]

    def clean(self):
        shutil.rmtree(self.run)


def recorded_here(into, clock, *words):
    """Records a script in this process, which may replace the system; returns the messages."""
    play, said = Play(f"{into.run}/play.json"), []
    sources = Sources("n1", run=lambda asked, _: play.answer(asked, clock.now()))
    words = words_of(["--node", "n1", "--into", into.folder, *words])
    folder = Folder(into.folder, "n1", words.into.keep, words.into.most, said.append)
    output = Traces(folder, words.into.each, words.ticks, lambda text, subject=None: said.append(text))
    LastingRecording(words, sources, clock, output, lambda *_: None).run()
    os.close(folder.descriptor)
    return said


def unpacked(path):
    with gzip.open(path, "rt", encoding="utf-8") as file:
        return file.read()


def follows(text):
    return json.loads(text.split("\n", 1)[0]).get("follows")


def parts_of(text):
    """A trace as what it begins with, which shows what was known, and what comes after that."""
    lines = text.splitlines(True)
    known = follows(text)
    if known is None:
        return "", text
    ticks = [place for place, line in enumerate(lines) if '"kind":"tick"' in line]
    last = max(place for place in ticks if json.loads(lines[place])["at"] <= known["at"])
    return "".join(lines[:last + 1]), "".join(lines[last + 1:])


def laid(texts):
    """Traces as one, laid one after the other."""
    return "".join(parts_of(text)[1] for text in texts)


def series(pod, container, probe, moments, failures=()):
    """Results of a probe, as a script has them."""
    return [{"pod": pod, "container": container, "probe": probe, "result": result, "at": at} for result, at in (
        ("success", [moment for moment in moments if moment not in failures]), ("failure", list(failures))) if at]


DELAYED = {"initialDelaySeconds": 30, "periodSeconds": 5}
PROBED = {
    "slow": {"containers": [{"name": "app", "startupProbe": {"periodSeconds": 1, "failureThreshold": 30},
                             "readinessProbe": {"periodSeconds": 4}, "livenessProbe": {"periodSeconds": 4}}]},
    "never": {"containers": [{"name": "app", "startupProbe": {"periodSeconds": 2, "failureThreshold": 8}}]},
    "late": {"containers": [{"name": "app", "readinessProbe": DELAYED, "livenessProbe": DELAYED}]},
    "fails": {"containers": [{"name": "app", "livenessProbe": {"periodSeconds": 4, "failureThreshold": 4}}]},
    "twice": {"containers": [{"name": "app", "readinessProbe": {"periodSeconds": 3, "successThreshold": 2,
                                                                "failureThreshold": 3}}]},
    "inits": {"initContainers": [{"name": "setup"}], "containers": [{"name": "app"}]},
    "once": {"restartPolicy": "Never", "containers": [{"name": "app"}]},
    "aside": {"initContainers": [{"name": "side", "restartPolicy": "Always",
                                  "startupProbe": {"periodSeconds": 1, "initialDelaySeconds": 3}}],
              "containers": [{"name": "app"}]}}


def probed_play():
    """What a rotation could lose: startup that has passed, one that fails over it, a delay that is over, failures
    before it that order a kill after it, readiness that needs two successes, a sidecar that was started and has exited,
    a container that the runtime has removed, and one that is unknown."""
    made = [{"id": f"c{number}", "pod": f"shop/{name}", "name": "app", "attempt": 0, "created": 2, "started": 3}
            for number, name in enumerate(PROBED)]
    by_pod = {each["pod"]: each for each in made}
    by_pod["shop/fails"].update(exited=29, code=137)
    by_pod["shop/never"].update(exited=23, code=137)
    by_pod["shop/once"].update(exited=6, code=3, removed=8)
    made.append({"id": "d1", "pod": "shop/fails", "name": "app", "attempt": 1, "created": 29, "started": 30})
    made.append({"id": "s1", "pod": "shop/inits", "name": "setup", "attempt": 0, "created": 1, "started": 1.2,
                 "exited": 2, "code": 0, "removed": 12})
    made += [{"id": f"t{attempt}", "pod": "shop/aside", "name": "side", "attempt": attempt, "created": start,
              "started": start + 0.2, "exited": start + 8, "code": 4} for attempt, start in enumerate((1, 17, 36))]
    results = [*series("shop/aside", "side", "startup", (5, 20, 39)),
               *series("shop/slow", "app", "startup", range(4, 8), range(4, 7)),
               *series("shop/slow", "app", "readiness", range(8, 60, 4), (40, 44, 48)),
               *series("shop/slow", "app", "liveness", range(9, 60, 4)),
               *series("shop/never", "app", "startup", (), range(5, 21, 2)),
               *series("shop/late", "app", "readiness", range(34, 60, 5)),
               *series("shop/late", "app", "liveness", range(35, 60, 5), (50,)),
               *series("shop/fails", "app", "liveness", range(5, 28, 4), (13, 17, 21, 25)),
               *series("shop/twice", "app", "readiness", range(8, 60, 3), (26, 29, 32, 44))]
    return {"begin": BEGIN, "pods": {f"shop/{name}": {"from": 1, "spec": spec} for name, spec in PROBED.items()},
            "containers": made, "probes": results, "samples": {"-1": {"memory": 4294967296}},
            "fails": [{"kind": "ps", "from": 45, "until": 58, "text": "failed with status 1: no answer"}]}
