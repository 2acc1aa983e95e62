"""The tests of what an import asks a cluster of a node, and of what becomes of it where the cluster answers less, late
or nothing. A script replaces kubectl."""

import json
import os
import shutil
import signal
import subprocess
import tempfile
import time

import cases
from checks import expect, expect_refused, read, run, wait_until
from test_import import FOLDER, IMPORT, YEAR, listings_of, precise

load_tests = cases.loaded(__name__)

# what is asked for is a file of this name, or of several parts of it; a file that is executable is run
KUBECTL = """#!/bin/sh
for word; do
    case $word in
    *query=kubelet*) name=log ;;
    *query=containerd*query=crio*) name=runtime ;;
    */proxy/logs/messages) name=messages ;;
    */proxy/logs/syslog) name=syslog ;;
    pods) name=pods ;;
    deployments,*) name=owners ;;
    events) name=events ;;
    esac
done
echo "$*" >> "$ANSWERS/asked"
[ ! -x "$ANSWERS/$name" ] || exec "$ANSWERS/$name"
[ -e "$ANSWERS/$name" ] || { echo "Error from server (Forbidden): $name is forbidden" >&2; exit 1; }
exec cat "$ANSWERS/$name"
"""
WORDS = [IMPORT, "worker-3", "--since", "3h", "--year", str(YEAR)]


class Answers:
    """A folder of what kubectl answers."""

    def __init__(self, **texts):
        self.folder = tempfile.mkdtemp()
        self.put("kubectl", KUBECTL, True)
        for name, text in texts.items():
            self.put(name, text)
        os.mkdir(f"{self.folder}/tmp")
        self.settings = {"PATH": f"{self.folder}:{os.environ['PATH']}", "ANSWERS": self.folder,
                         "TMPDIR": f"{self.folder}/tmp"}

    def put(self, name, text, is_run=False):
        with open(f"{self.folder}/{name}", "w", encoding="utf-8") as file:
            file.write(text)
        os.chmod(f"{self.folder}/{name}", 0o755 if is_run else 0o644)

    def imported(self, *words):
        found = run([*WORDS, *words], **self.settings)
        expect("import of a cluster leaves no file", os.listdir(f"{self.folder}/tmp"), [])
        return found


def logs():
    return {"log": precise(read(f"{FOLDER}/keyed.log")), "pods": read(f"{FOLDER}/pods.yaml")}


def test_import_of_a_node_without_pods():
    """A node that is drained, or whose pods may not be listed, has a trace all the same; owners are asked for too."""
    template = {"spec": {"containers": [{"name": "app", "readinessProbe": {"periodSeconds": 4}}]}}
    owner = {"kind": "Deployment", "metadata": {"name": "we", "namespace": "shop"}, "spec": {"template": template}}
    for name, pods in (("an empty list", '{"items":[]}'), ("a refusal", None)):
        answers = Answers(log=logs()["log"], **({} if pods is None else {"pods": pods}))
        status, trace, said = answers.imported()
        expect(f"import of a node with {name} of pods", (status, len(listings_of(trace)) > 5), (0, True))
        expect(f"import of a node with {name} of pods: what is said", "without the pods of worker-3: Error from server "
               "(Forbidden): pods is forbidden" in said, pods is None)
        answers.put("owners", json.dumps({"kind": "List", "items": [owner]}))
        answers.put("log", logs()["log"].replace("shop/web", "shop/we-7d4b9c8f6-x2x1z"))
        trace = answers.imported()[1]
        [probe] = [container.get("readinessProbe") for line in map(json.loads, trace.splitlines())
                   if line["kind"] == "pod" for container in line["pod"]["spec"]["containers"]
                   if line["pod"]["metadata"]["name"].startswith("we-")]
        expect(f"import of a node with {name} of pods: the owner's template", probe, {"periodSeconds": 4})


def test_import_of_a_node_and_its_runtime():
    """The runtime's log is asked for too; where a node knows no query, its files are."""
    runtime = read(f"{FOLDER}/containerd.log").splitlines()
    of_unit = "".join(f"Mar 01 10:{each[20:22]}:{each[23:25]}.000000 worker-3 containerd[71]: {each}\n"
                      for each in runtime if each.startswith('time="'))
    whole = logs()
    quiet = "".join(each for each in whole["log"].splitlines(keepends=True) if "SyncLoop" not in each)
    answers = Answers(**{**whole, "log": quiet, "runtime": of_unit})
    status, trace, _ = answers.imported()
    expect("import of a node and its runtime", (status, any("RUNNING" in row for row in listings_of(trace))), (0, True))
    for name in ("messages", "syslog"):
        for what in ({}, {"log": '<pre>\n<a href="messages">messages</a>\n</pre>\n'}):
            answers = Answers(**{"pods": whole["pods"], name: whole["log"], **what})
            status, trace, said = answers.imported()
            expect(f"import of a node's {name}", (status, trace), (0, read(f"{FOLDER}/keyed.trace")))
            expect(f"import of a node's {name}: what is said", f"taken is its file {name}" in said, True)
    answers = Answers(pods=whole["pods"])
    expect_refused("import of a node without a log", answers.imported(), 1, "the cluster gives no log of worker-3",
                   "on the node: journalctl")


def test_import_of_a_node_that_is_slow():
    """What the import waits for is reported within five seconds; it does not wait for what does not come within
    --timeout."""
    answers = Answers(**logs())
    answers.put("events", "#!/bin/sh\nexec sleep 60\n", True)
    begun = time.monotonic()
    status, trace, said = answers.imported("--timeout", "4")
    expect("import of a node whose Events don't come", (status, trace), (0, read(f"{FOLDER}/keyed.trace")))
    expect("import of a node whose Events don't come: what is said", (
        "waiting for the Events of pods, up to 4 s" in said, "without the Events of pods: kubectl has not" in said,
        time.monotonic() - begun < 40), (True, True, True))
    for word in ("0", "x", "1h"):
        expect_refused(f"import --timeout {word}", answers.imported("--timeout", word), 2, "--timeout takes a number")
    expect_refused("import --timeout without a node", run([IMPORT, "--timeout", "5"], "x"), 2,
                   "--timeout goes with NODE")
    shutil.rmtree(answers.folder)


def test_import_of_a_node_that_is_ended():
    """An end that is asked for leaves no file and no kubectl."""
    answers = Answers(**logs())
    answers.put("events", "#!/bin/sh\necho $$ > \"$ANSWERS/process\"\nexec sleep 600\n", True)
    with subprocess.Popen(WORDS, env={**os.environ, **answers.settings}, stdout=subprocess.DEVNULL,
                          stderr=subprocess.DEVNULL) as process:
        wait_until("kubectl is asked for Events", lambda: os.path.exists(f"{answers.folder}/process")
                   and read(f"{answers.folder}/process"))
        # it may still be within the start of kubectl
        time.sleep(1)
        process.send_signal(signal.SIGTERM)
        status = process.wait(60)
    expect("import of a node that is ended", (status, os.listdir(f"{answers.folder}/tmp")), (143, []))
    kubectl = int(read(f"{answers.folder}/process"))
    expect("import of a node that is ended: kubectl", os.path.exists(f"/proc/{kubectl}"), False)
    shutil.rmtree(answers.folder)
