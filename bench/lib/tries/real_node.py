"""Runs a real kubelet on a throw-away machine, records it with `kubelet-replay record`, and prints for each pod what the
kubelet showed next to what the report has. It fetches Debian's sources of Kubernetes and Debian's containerd, runc,
busybox and Go by apt-get into FOLDER, builds the kubelet (some 10 minutes), starts both, and runs thirteen static pods
for SECONDS. FOLDER keeps the trace, the report, each answer that the recorder was given and what /pods showed; the next
run uses again what is built there. bench/lib/real_node/trimmed.py makes the answers into a recording of tools/tests.

With --api it builds and starts Debian's etcd and API server too, whose pods the kubelet runs and evicts. The RUNs take
some minutes each; without a RUN it does all of them:

  hard      a hard threshold of memory, below which pods take it
  soft      a soft one with a grace period of 25 s and a minimum reclaim
  nodefs    a small file system that pods fill
  quiet     few pods and no pressure, for what a recording costs
  recorder  the recorder is a pod of the node: its image is made (deploy/image) and imported, its manifest applied, and
            the pod of its DaemonSet created; it writes a trace each minute, and is killed once

Each but the last is recorded in both formats from the kubelet, and with kubectl by a user who may do no more than that.
A table counts what the kubelet did: in each report within 2 s, later, missing, and what a report has that was not so;
and which restarts of it never came. Three more tables count what `kubelet-replay import` makes of the kubelet's log
with the pods' manifests: as it is, at -v=4, and cut to what it would have been at -v=3 and -v=2; one has all of them
side by side. FOLDER/RUN keeps what each recorder wrote and printed, its report, what /pods showed, the pods' manifests,
the runtime's exits and the kubelet's log. Without a program --api records all the same, and prints that.

With --again it makes the tables of kept runs again, by the program and the tools as they are now, and needs nothing of
what follows but the program.

You need Debian 12 with root, cgroup v1, 4 GB of disk (--api: 12), dpkg-source, ./kubelet_replay (KUBELET_REPLAY names
another program), and no other kubelet or containerd. --api also needs openssl, ip, mkfs.ext4, and 12 GB of memory; its
run recorder also mmdebstrap and umoci. crictl is a stand-in over the runtime's own endpoint, since Debian has none. At
its end, also at an interrupt, it ends all that descends from it. It removes the mounts that were made in FOLDER and by
the runtime, and with --api the address that it gave the machine; the kubelet's cgroups stay.

Status 0: it found each start, exit, code, kill and change of Ready within 2 s, but for the kills of startup probes, as
docs/profile.md has it. Of a RUN it found each start, exit and code in the extended format, and each eviction as what
the kubelet did, with no other pod ended as evicted, no restart that never came, and in what was imported no false code
that is not marked and no eviction by the rules; and of the run recorder each start, exit, kill and change of Ready but
for those while the recorder did not run. Status 1: it did not find one, something failed, or an interrupt; 2: a wrong
argument; 127: a command is missing.
"""
import argparse
import json
import os
import shutil
import subprocess
import sys

import script
from script import TOP

PARTS = f"{TOP}/bench/lib/real_node"
REPLAY = os.environ.get("KUBELET_REPLAY", f"{TOP}/kubelet_replay")
sys.path[:0] = [PARTS, f"{TOP}/tools"]
import deployed  # noqa: E402
import ending  # noqa: E402
import evictions  # noqa: E402
import outcome  # noqa: E402
from beside import facts_of, show_beside, text_of  # noqa: E402
from kit import Kit, read, write  # noqa: E402
from machine import KUBELET, NODE, Machine  # noqa: E402
from pods import pods  # noqa: E402
from scenario import RUNS  # noqa: E402

SECONDS = 320


def recorded(machine, seconds):
    """Runs the pods and records them; the trace and what was printed are in the folder."""
    folder, manifests = machine.folder, f"{machine.folder}/manifests"
    write(f"{folder}/curl.conf", "insecure\n")
    with open(f"{folder}/trace", "wb") as trace:
        recorder = machine.start("record", [
            sys.executable, f"{PARTS}/captured.py", f"{folder}/answers.jsonl", "--node", NODE, "--kubelet", KUBELET,
            "--curl", f"{folder}/curl.conf", "--for", str(seconds)], stdout=trace)
        changes = {3: lambda: [write(f"{manifests}/{each['metadata']['name']}.json", json.dumps(each))
                               for each in pods()],
                   200: lambda: os.remove(f"{manifests}/once-bad.json")}
        machine.watch(seconds, lambda passed: [changes.pop(second)() for second in list(changes) if second <= passed])
        recorder.wait(60)


def measured(folder, seconds):
    """Builds, runs, records and compares; whether all was found."""
    os.makedirs(folder, exist_ok=True)
    ending.adopt_orphans()
    machine = Machine(Kit(folder))
    ending.hear_interrupts()
    try:
        machine.kit.build()
        machine.start_runtime()
        machine.start_kubelet(read(f"{PARTS}/kubelet.yaml").replace("WORK", folder))
        recorded(machine, seconds)
    finally:
        ending.hear_no_interrupts()
        machine.end()
    ending.hear_interrupts()
    with open(f"{folder}/trace", "rb") as trace, open(f"{folder}/report", "wb") as report:
        subprocess.run([REPLAY], stdin=trace, stdout=report, check=True)
    facts = facts_of(read(f"{folder}/shown.jsonl"), read(f"{folder}/kubelet.log"))
    write(f"{folder}/shown", text_of(facts))
    return show_beside(facts, read(f"{folder}/report"), print)


def again(folders):
    """Shows the tables of kept runs again; the status."""
    others = [folder for folder in folders if not os.path.exists(f"{folder}/about.json")]
    if others:
        raise script.Fault(f"--again takes the folders of kept runs, not {' '.join(others)}", 2)
    if not outcome.is_ready(REPLAY):
        raise script.Fault(f"there is no program {REPLAY}", 127)
    return 0 if outcome.show_runs(list(map(os.path.abspath, folders)), REPLAY, print) else 1


def check_machine(runs):
    """Ends if the machine lacks what a run needs; `runs` are those of --api."""
    commands = ("apt-get", "dpkg", "dpkg-source", *(evictions.COMMANDS if runs else ()))
    if "recorder" in runs:
        commands += deployed.COMMANDS
    missing = [command for command in commands if shutil.which(command) is None]
    if missing:
        raise script.Fault(f"not on the PATH: {', '.join(missing)}", 127)
    if os.geteuid() != 0:
        raise script.Fault("it needs root, on a throw-away machine")


def add_to(arguments):
    arguments.usage = ("bench/try real_node FOLDER [SECONDS]\n       bench/try real_node --api FOLDER [RUN ..]\n"
                       "       bench/try real_node --again FOLDER/RUN ..")
    ways = arguments.add_mutually_exclusive_group()
    ways.add_argument("--api", action="store_true", help="pods of an API server, and evictions")
    ways.add_argument("--again", action="store_true", help="the tables of kept runs")
    arguments.add_argument("folder", metavar="FOLDER", help="where to build and keep, or with --again a kept run")
    arguments.add_argument("rest", nargs="*", default=[], help=argparse.SUPPRESS)


def main(given):
    runs = (given.rest or list(RUNS)) if given.api else []
    if not set(runs) <= set(RUNS):
        raise script.Fault(f"a RUN is one of {', '.join(RUNS)}, not {' '.join(run for run in runs if run not in RUNS)}",
                           2)
    if given.again:
        return again([given.folder, *given.rest])
    if not given.api and (len(given.rest) > 1 or not all(word.isdigit() for word in given.rest)):
        raise script.Fault(f"SECONDS is one whole number, not {' '.join(given.rest)}", 2)
    check_machine(runs)
    folder = os.path.abspath(given.folder)
    try:
        if given.api:
            return 0 if evictions.measured(folder, runs, REPLAY, print) else 1
        return 0 if measured(folder, int(given.rest[0]) if given.rest else SECONDS) else 1
    except ending.Interrupted as interrupted:
        raise script.Fault(f"ended by {interrupted}") from None
    except (OSError, RuntimeError, subprocess.SubprocessError) as error:
        raise script.Fault(error) from error
