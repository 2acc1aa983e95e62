"""The tests of tools/story --follow: it prints what is written into a folder as it comes, over the rotation of two
traces, once, and not before it is written for good."""

import contextlib
import gzip
import json
import os
import queue
import shutil
import signal
import subprocess
import tempfile
import threading
import time

import cases
from checks import LONGEST, REPLAY, TOOLS, expect, expect_refused, run

from replay_tools.joined import following

load_tests = cases.loaded(__name__)

BEGIN = 1767225600
FIRST, SECOND = "n1.2026-01-01T00-00-00Z.trace", "n1.2026-01-01T00-01-00Z.trace"
NODE = {"kind": "node", "name": "n1", "version": 3, "recordsKubelet": True}


def pod(name):
    return {"kind": "pod", "pod": {"metadata": {"name": name, "namespace": "shop"},
                                   "spec": {"containers": [{"name": "app"}]}}}


def tick(at, web, calm=None, **more):
    found = {"web-7d-x": web, "calm": calm or RUNS}
    listings = [{"pod": f"shop/{name}", "containers": [listing]} for name, listing in found.items()]
    return {"kind": "tick", "at": BEGIN + at, "pods": listings, **more}


RUNS = {"name": "app", "state": "CONTAINER_RUNNING"}
DIED = {"name": "app", "state": "CONTAINER_EXITED", "exitCode": 3, "reason": "Error"}
AGAIN = {**RUNS, "attempt": 1}


class Followed:
    """A folder into which lines are written, and what a story that follows it prints."""

    def __init__(self, *words):
        self.path, self.told = tempfile.mkdtemp(), queue.Queue()
        self.words = words
        self.process, self.readers = None, []

    def write(self, name, *lines):
        with open(f"{self.path}/{name}", "a", encoding="utf-8") as file:
            file.write("".join(json.dumps(line, separators=(",", ":")) + "\n" for line in lines))

    def pack(self, name):
        with open(f"{self.path}/{name}.part", "rb") as part, gzip.open(f"{self.path}/.made", "wb") as whole:
            whole.write(part.read())
        os.rename(f"{self.path}/.made", f"{self.path}/{name}.gz")
        os.remove(f"{self.path}/{name}.part")

    def start(self):
        self.process = subprocess.Popen(
            [f"{TOOLS}/story", "--follow", self.path, *self.words], stdout=subprocess.PIPE,
            stderr=subprocess.PIPE, text=True, env={**os.environ, "KUBELET_REPLAY": REPLAY},
            # a shell has its jobs in the background ignore an interrupt
            preexec_fn=lambda: signal.signal(signal.SIGINT, signal.SIG_DFL))
        for stream in (self.process.stdout, self.process.stderr):
            self.readers.append(threading.Thread(target=self.take, args=(stream,), daemon=True))
            self.readers[-1].start()

    def take(self, stream):
        for line in stream:
            self.told.put(line.rstrip("\n"))

    def next(self, seconds=LONGEST):
        """The next line that is printed; None where none comes in this time, or once the story has ended."""
        until = time.monotonic() + seconds
        while time.monotonic() < until:
            has_ended = self.process.poll() is not None and not any(reader.is_alive() for reader in self.readers)
            with contextlib.suppress(queue.Empty):
                return self.told.get(timeout=min(0.1, seconds))
            if has_ended:
                break
        return None

    def __enter__(self):
        return self

    def __exit__(self, *_):
        if self.process is not None and self.process.poll() is None:
            self.process.kill()
            self.process.wait()
        shutil.rmtree(self.path)


def test_follow():
    """Over the end of one trace and the begin of the next, which has once more what was so before."""
    with Followed() as followed:
        followed.write(f"{FIRST}.part", NODE, pod("web-7d-x"), pod("calm"), tick(0, RUNS), tick(10, RUNS))
        followed.start()
        expect("follow: from when on", followed.next(), "story: it prints what is recorded after "
               "2026-01-01 00:00:00Z; an interrupt ends it")
        followed.write(f"{FIRST}.part", tick(20, DIED))
        expect("follow: what may be written otherwise is not told yet", followed.next(3), None)
        followed.write(f"{FIRST}.part", tick(30, AGAIN))
        wanted = ["2026-01-01 00:00:20Z  shop/web-7d-x app died with code 3: Error (attempt 0)",
                  "2026-01-01 00:00:20Z  shop/web-7d-x app unready",
                  "2026-01-01 00:00:20Z  shop/web-7d-x app restart (attempt 0)"]
        expect("follow: a death", [followed.next() for _ in wanted], wanted)
        followed.pack(FIRST)
        wanted = ["2026-01-01 00:00:30Z  shop/web-7d-x app started (attempt 1)",
                  "2026-01-01 00:00:30Z  shop/web-7d-x app ready"]
        expect("follow: the end of a trace", [followed.next() for _ in wanted], wanted)
        follows = {"trace": f"{FIRST}.gz", "until": BEGIN + 60, "at": BEGIN + 60}
        followed.write(f"{SECOND}.part", {**NODE, "follows": follows}, pod("web-7d-x"), pod("calm"), tick(60, AGAIN),
                       tick(70, AGAIN, DIED), tick(80, AGAIN, AGAIN))
        wanted = ["2026-01-01 00:01:10Z  shop/calm app died with code 3: Error (attempt 0)",
                  "2026-01-01 00:01:10Z  shop/calm app unready",
                  "2026-01-01 00:01:10Z  shop/calm app restart (attempt 0)"]
        expect("follow: the next trace", [followed.next() for _ in wanted], wanted)
        evicted = {"evicted": [{"pod": "shop/calm", "at": BEGIN + 75, "reason": "Evicted", "message": ""}]}
        followed.write(f"{SECOND}.part", tick(90, AGAIN, AGAIN, kubelet=evicted), tick(100, AGAIN, AGAIN))
        told = [followed.next() for _ in range(3)]
        expect("follow: what the kubelet did, which a later tick says", "2026-01-01 00:01:15Z  shop/calm the kubelet "
               "evicted it: Evicted" in told, True)
        followed.process.send_signal(signal.SIGINT)
        expect("follow: an interrupt", followed.process.wait(LONGEST), 130)
        expect("follow: nothing is told twice", [line for line in iter(lambda: followed.next(0.2), None)], [])


def test_follow_one_pod_since():
    with Followed("web", "--since", "1970-01-01T00:00Z", "--seconds") as followed:
        followed.start()
        expect("follow a folder without a trace", followed.next(), f"story: {followed.path} has no trace: no file in "
               "it ends with .trace, .trace.gz or .trace.part; it goes on")
        followed.write(f"{FIRST}.part", NODE, pod("web-7d-x"), pod("calm"), tick(0, RUNS), tick(10, DIED),
                       tick(20, AGAIN))
        wanted = ["story: it prints what is recorded after 1767225610; an interrupt ends it",
                  f"{BEGIN}  shop/web-7d-x app started (attempt 0)", f"{BEGIN}  shop/web-7d-x app ready",
                  f"{BEGIN}  shop/web-7d-x phase Running",
                  f"{BEGIN + 10}  shop/web-7d-x app died with code 3: Error (attempt 0)",
                  f"{BEGIN + 10}  shop/web-7d-x app unready", f"{BEGIN + 10}  shop/web-7d-x app restart (attempt 0)"]
        expect("follow since a moment", sorted(followed.next() for _ in wanted), sorted(wanted))


def test_follow_of_the_node():
    """That it was not Ready, by the moments of its condition, and that it was started again with what exited: once."""
    since = {"status": "False", "reason": "KubeletNotReady", "since": BEGIN + 17}
    with Followed("web", "--seconds") as followed:
        followed.write(f"{FIRST}.part", {**NODE, "bootedAt": BEGIN - 1000}, pod("web-7d-x"), pod("calm"),
                       tick(0, RUNS), tick(10, RUNS))
        followed.start()
        expect("follow of a node: from when on", followed.next(),
               f"story: it prints what is recorded after {BEGIN}; an interrupt ends it")
        followed.write(f"{FIRST}.part", tick(20, RUNS, nodeReady=since), tick(30, RUNS, nodeReady=since),
                       tick(40, RUNS, nodeReady=since))
        expect("follow of a node that is not Ready", followed.next(), f"{BEGIN + 17}  the node is NotReady: "
               "KubeletNotReady")
        followed.write(f"{FIRST}.part", tick(50, RUNS), tick(60, RUNS))
        expect("follow of a node that is Ready again", followed.next(), f"{BEGIN + 50}  the node is Ready again")
        followed.pack(FIRST)
        lost = {**DIED, "exitCode": 137, "reason": "Unknown"}
        followed.write(f"{SECOND}.part", {**NODE, "bootedAt": BEGIN + 80}, pod("web-7d-x"), pod("calm"),
                       tick(90, lost), tick(100, AGAIN), tick(110, AGAIN))
        told = [followed.next() for _ in range(2)]
        expect("follow of a node that is rebooted", f"{BEGIN + 80}  the node was rebooted: 1 container exited 137" in
               told, True)
        left = [line for line in iter(lambda: followed.next(5), None) if "node" in line]
        expect("follow of a node: nothing is told twice", left, [])


def test_follow_what_goes():
    """A link that leads nowhere, and a trace that goes between two looks, end no story."""
    with Followed() as followed:
        followed.write(f"{FIRST}.part", NODE, pod("web-7d-x"), pod("calm"), tick(0, RUNS), tick(10, RUNS))
        os.symlink("/nonexistent/trace", f"{followed.path}/{SECOND}.gz")
        expect("follow: a link that leads nowhere", following.looked_at(followed.path),
               [(f"{FIRST}.part", os.path.getsize(f"{followed.path}/{FIRST}.part")), (f"{SECOND}.gz", -1)])
        followed.start()
        followed.next()
        os.remove(f"{followed.path}/{SECOND}.gz")
        followed.write(f"{FIRST}.part", tick(20, DIED), tick(30, AGAIN))
        told = [followed.next() for _ in range(2)]
        expect("follow goes on", (followed.process.poll(), any("died with code 3" in str(line) for line in told)),
               (None, True))


def test_follow_refused():
    for words, said in ((["--follow", "/nonexistent"], "/nonexistent is no folder of kubelet-replay record --into"),
                        (["--follow", "/tmp", "--at", "03:10Z"], "--follow and --at exclude each other"),
                        (["--follow", "/tmp", "--traces", "/tmp"], "--follow and --traces exclude each other"),
                        (["--follow"], "--follow needs a value"),
                        (["--follow", "/tmp", "--since", "soon"], "--since takes a time")):
        expect_refused(f"story {' '.join(words)}", run([f"{TOOLS}/story", *words]), 2, said)
