"""The tests of tools/record: what it makes of answers that were captured, scripted or written, and of words."""

import gzip
import json
import os
import re
import shutil
import signal
import subprocess
import sys
import tempfile
import time
from concurrent.futures import ThreadPoolExecutor

import cases
from checks import (HERE, LONGEST, REPLAY, TOOLS, TOP, expect, expect_kept, expect_refused, read, replayed, run,
                    wait_until)

from replay_tools.record import formats
from replay_tools.record.lines import STANDARD
from replay_tools.record.node import node_line_of
from replay_tools.record.pods import pods_of
from replay_tools.record.program import Ended, Output
from replay_tools.record.runtime import inspected_of, instances_of
from replay_tools.record.sources import Failed
from replay_tools.record.summary import summary_of

load_tests = cases.loaded(__name__)

RECORDINGS = f"{HERE}/recordings"
COMMANDS = f"{HERE}/commands"
TEXTS = f"{TOP}/crates/case_runner/data/texts"
# what came up in an answer of another shape, and where
PLACED = re.compile(r" \(\w+, \w+\.py:\d+\)$")


class Recorder:
    """A run of tools/record over recorded answers, by a clock that the test sets, or by the node's."""

    def __init__(self, name, tool=f"{COMMANDS}/played_record", **settings):
        self.tool = tool
        self.folder = os.path.join(RECORDINGS, name)
        self.run = tempfile.mkdtemp()
        with open(f"{self.run}/curl", "w") as file:
            file.write('header = "Authorization: Bearer none"\n')
        stood_in = {"CURL": f"{self.run}/curl", "NODE": f"{self.folder}/node_line"}
        self.words = [stood_in.get(word, word) for word in read(f"{self.folder}/words").split()]
        self.settings = {"PATH": f"{COMMANDS}:{os.environ['PATH']}", "RECORDING": self.folder, "RUN": self.run,
                         "TMPDIR": self.run, **settings}

    def whole(self):
        return run([self.tool, *self.words], **self.settings)

    def start(self, *words, tool="record", **more):
        """Begins a run in a session of its own, as from a terminal, by the node's clock."""
        return subprocess.Popen([f"{TOOLS}/{tool}", *words], env={**os.environ, **self.settings},
                                stdout=subprocess.PIPE, stderr=subprocess.PIPE, start_new_session=True, bufsize=0,
                                preexec_fn=lambda: signal.signal(signal.SIGINT, signal.SIG_DFL), **more)

    def left(self):
        """The folders for its own use that a run has left."""
        return [name for name in os.listdir(self.run) if name.startswith(("tmp", "record-"))]

    def clean(self):
        shutil.rmtree(self.run)


def test_recordings():
    # a kubelet's journal has no words: test_import_real.py has it
    names = [name for name in sorted(os.listdir(RECORDINGS)) if os.path.exists(f"{RECORDINGS}/{name}/words")]
    recorders = list(map(Recorder, names))
    with ThreadPoolExecutor(4) as threads:
        answers = list(threads.map(Recorder.whole, recorders))
    for recorder, (status, trace, said) in zip(recorders, answers):
        name, folder = os.path.basename(recorder.folder), recorder.folder
        if not os.path.exists(f"{folder}/answers.jsonl.gz"):
            expect_kept(f"{name}: the trace", trace, f"{folder}/trace")
        expect_kept(f"{name}: what is said", f"{said}status {status}\n", f"{folder}/said")
        if status == 0:
            status, report, refused = replayed(trace)
            expect(f"{name}: the program accepts the trace", (status, refused), (0, ""))
            expect_kept(f"{name}: the report", report, f"{folder}/report")
        expect(f"{name}: nothing is left behind", recorder.left(), [])
        if name == "crash_loop":
            check_asked(recorder)
        recorder.clean()


def check_asked(recorder):
    """Each start and each end is asked for once, and the configuration too."""
    asked = read(f"{recorder.run}/asked").split("\n")
    inspected = [line for line in asked if line.startswith("crictl inspect")]
    expect("crash_loop: each start and each end is asked for once", (len(inspected), len(set(inspected))), (3, 2))
    expect("crash_loop: the configuration is asked for once", len([line for line in asked if "configz" in line]), 1)
    expect("crash_loop: the runtime is asked each time", asked.count("crictl ps -a -o json"), 5)


def test_node_lines():
    """Configurations that a kubelet answered: the node line, what the recorder prints, and whether the formats take it
    as it is."""
    folder = f"{HERE}/node_lines"
    for path in sorted(name for name in os.listdir(folder) if name.endswith(".json")):
        name, made = path.removesuffix(".json"), tempfile.mkdtemp()
        answer = {"kubeletconfig": json.loads(read(f"{folder}/{path}"))}
        shutil.copytree(f"{RECORDINGS}/static_pod", f"{made}/one")
        shutil.copy(f"{folder}/summary", f"{made}/one/1/summary.json")
        with open(f"{made}/one/1/configz.json", "w", encoding="utf-8") as file:
            json.dump(answer, file)
        recorder = Recorder(f"{made}/one")
        status, trace, said = recorder.whole()
        node, rest = trace.split("\n", 1)
        expect_kept(f"node line {name}", f"{node}\n{said}status {status}\n", f"{folder}/{name}.line")
        with_line = run([REPLAY], trace)
        expect(f"node line {name}: the program accepts it", (with_line[0], with_line[2]), (0, ""))
        whole = {**answer["kubeletconfig"], **{key: json.loads(node)[key] for key in ("kind", "name", "capacity")}}
        as_it_stands = run([REPLAY], f"{json.dumps(whole)}\n{rest}")
        wanted = (2, "", "line 1: 36 Config\n") if name in ("finepercent", "fraction") else with_line
        expect(f"node line {name}: the configuration as it stands", as_it_stands, wanted)
        recorder.clean()
        shutil.rmtree(made)


def paths_in(value, path=()):
    """Where there is something in a JSON value."""
    yield path
    items = value.items() if isinstance(value, dict) else enumerate(value) if isinstance(value, list) else ()
    for name, each in items:
        yield from paths_in(each, (*path, name))


def with_other(value, path, other):
    """A JSON value with another one at a path."""
    if not path:
        return other
    copy = value.copy()
    copy[path[0]] = with_other(value[path[0]], path[1:], other)
    return copy


def test_odd_answers():
    """Answers of which one part is another value: each is read, or it is no answer, with one line of why."""
    with gzip.open(f"{RECORDINGS}/real_static_pods/answers.jsonl.gz", "rt", encoding="utf-8") as file:
        answers = json.loads(file.readline())["answers"]
    summary = summary_of(json.dumps(answers["summary"]))
    identity = next(name for name in answers if len(name) == 64)
    instance = next(each for each in instances_of(json.dumps(answers["ps"])) if each.id == identity)
    for kind, reader, answer in (
        ("ps", instances_of, {"containers": answers["ps"]["containers"][:1]}),
        ("inspect", lambda text: inspected_of(text, instance), answers[identity]),
        ("pods", lambda text: pods_of(text, "pods"), {**answers["pods"], "items": answers["pods"]["items"][:2]}),
        ("summary", summary_of, {**answers["summary"], "pods": answers["summary"]["pods"][:1]}),
        ("configz", lambda text: node_line_of(text, "n1", summary, STANDARD), answers["configz"]),
    ):
        odd = [json.dumps(with_other(answer, path, other)) for path in paths_in(answer)
               for other in (None, "x", -1.5, 2 ** 70, True, [], {}, [None], ["x"], {"a": 1})]
        faults = []
        for text in odd:
            try:
                reader(text)
            except Failed as failed:
                said = str(failed)
                faults += [text] if "\n" in said or ("another shape" in said and not PLACED.search(said)) else []
            except Exception as error:  # noqa: BLE001 what a test looks for
                faults.append(f"{error!r}: {text}")
        expect(f"odd answers: {kind}", faults[:1], [])


def test_check():
    """--check shows for each source whether it works, and what it needs where it does not."""
    for name, recording, status in (("all", "crash_loop", 0), ("forbidden", "first_scrape_fails", 1),
                                    ("silent", "failed_scrape", 1)):
        recorder = Recorder(recording)
        if name == "silent":
            with open(f"{recorder.run}/now", "w", encoding="utf-8") as file:
                file.write("1767225610\n")
        answer = run([f"{TOOLS}/record", "--check", "--node", "worker-3"], **recorder.settings)
        expect(f"--check {name}", (answer[0], answer[2]), (status, ""))
        expect_kept(f"--check {name}: the lines", answer[1], f"{HERE}/checked/{name}")
        recorder.clean()


def test_check_without_a_command():
    """Where crictl is not there the other sources are asked all the same; a recording is not begun."""
    recorder, folder = Recorder("crash_loop"), tempfile.mkdtemp()
    for name in ("sh", "env", "python3", "cat", "dirname", "readlink", "uname", "awk"):
        path = sys.executable if name == "python3" else shutil.which(name)
        os.symlink(path, f"{folder}/{name}")
    for name in ("kubectl", "proxy", "recorded"):
        os.symlink(f"{COMMANDS}/{name}", f"{folder}/{name}")
    settings = {**recorder.settings, "PATH": folder}
    status, told, said = run([f"{TOOLS}/record", "--check", "--node", "worker-3"], **settings)
    expect("--check without crictl", (status, said), (1, ""))
    whole = read(f"{HERE}/checked/all").split("\n")
    expect("--check without crictl: the lines", told.split("\n"), [
        "missing  crictl ps can't be asked: crictl is not on the PATH; it needs root, on the node, and the runtime's "
        "socket (crictl --runtime-endpoint, /etc/crictl.yaml)",
        "unasked  crictl inspect: there is no container to ask for", *whole[2:]])
    expect_refused("a recording without crictl", run([f"{TOOLS}/record", "--node", "worker-3"], **settings), 127,
                   "not on the PATH: crictl (--check asks the other sources)")
    shutil.rmtree(folder)
    recorder.clean()


def test_nothing_told():
    """What a manifest gives its containers stays on the node."""
    for name in ("crash_loop", "whole_node"):
        trace, pods = read(f"{RECORDINGS}/{name}/trace"), read(f"{RECORDINGS}/{name}/1/pods.json")
        expect(f"{name}: no environment in the trace", ("secret" in pods, "secret" in trace), (True, False))


def test_limits():
    """A 257th pod, a line above 1 MiB, and a trace above a limit, which is 64 MiB, are not written."""
    folder = tempfile.mkdtemp()
    shutil.copytree(f"{RECORDINGS}/static_pod", f"{folder}/many")
    listed = json.loads(read(f"{folder}/many/1/pods.json"))
    [pod] = listed["items"]
    mirrored = pod["metadata"]["annotations"]["kubernetes.io/config.mirror"]
    listed["items"] = [json.loads(json.dumps(pod).replace(pod["metadata"]["uid"], f"uid-{number}")
                                  .replace(mirrored, f"mirrored-{number}")
                                  .replace("kube-proxy-worker-3", f"pod-{number:03}")) for number in range(257)]
    with open(f"{folder}/many/1/pods.json", "w") as file:
        json.dump(listed, file)
    recorder = Recorder(f"{folder}/many")
    status, trace, said = recorder.whole()
    expect("257 pods", (status, trace.count('"kind":"pod"'), said),
           (0, 256, "record: kube-system/pod-256 is left out: a trace has at most 256 pods\n"))
    recorder.clean()

    shutil.copytree(f"{RECORDINGS}/own_node_line", f"{folder}/long")
    with open(f"{folder}/long/node_line", "w") as file:
        json.dump({"name": "n1", "padding": " " * 1048576}, file)
    recorder = Recorder(f"{folder}/long")
    expect_refused("a line above 1 MiB", recorder.whole(), 1, "longer than the formats take")
    recorder.clean()

    shutil.rmtree(folder)
    try:
        Output(10, 30).write(["a line", "a line that reaches the limit"])
        expect("a trace above the limit", "written", "ended")
    except Ended as end:
        expect("a trace above the limit", (end.status, end.reason),
               (0, "the trace has reached 64 MiB, the most that one takes"))


def ended(process, name):
    """What a process that was interrupted leaves: its status, whether its last line is whole, its messages."""
    try:
        out, said = process.communicate(timeout=LONGEST)
    except subprocess.TimeoutExpired:
        os.killpg(process.pid, signal.SIGKILL)
        process.communicate()
        return expect(name, "it went on", "it ended")
    return process.returncode, out.decode(), said.decode()


def test_interrupts():
    """An interrupt ends it at the end of a line: what was seen by then is written."""
    for name, settings, number, whole_group in (
        ("an interrupt while it waits", {}, signal.SIGINT, True),
        ("an end while it waits", {}, signal.SIGTERM, False),
        ("an interrupt while it asks", {"WAITS": "crictl"}, signal.SIGINT, True),
    ):
        recorder = Recorder("crash_loop", **settings)
        process = recorder.start("--node", "worker-3", "--standard", "--look", "1" if settings else "60")
        first = process.stdout.readline().decode()
        if settings:
            wait_until("the command that waits", lambda: os.path.exists(f"{recorder.run}/waits"))
        (os.killpg if whole_group else os.kill)(process.pid, number)
        answer = ended(process, name)
        if answer:
            status, out, said = answer
            lines = (first + out).split("\n")
            kinds = [json.loads(line)["kind"] for line in lines[:-1]]
            expect(name, (status, said, kinds, lines[-1]), (0, "", ["node", "pod", "tick"], ""))
        expect(f"{name}: nothing is left behind", recorder.left(), [])
        recorder.clean()


def test_interrupts_at_first():
    """An interrupt in the first moments of a tool, while Python itself begins too, ends it without a word."""
    recorder = Recorder("crash_loop")
    for words in (["record", "--node", "worker-3", "--standard"], ["record", "--node", "worker-3", "--check"],
                  ["story", "shop/web"]):
        found = []
        for moment in range(20):
            process = recorder.start(*words[1:], tool=words[0], stdin=subprocess.PIPE)
            time.sleep(moment / 60)
            os.killpg(process.pid, signal.SIGINT)
            _, said = process.communicate(timeout=LONGEST)
            found += [(process.returncode, said)] * (said != b"" or process.returncode not in (-signal.SIGINT, 0, 130))
        expect(f"interrupts at first of {' '.join(words)}", found[:1], [])
    recorder.clean()


def test_interrupts_that_python_drops():
    """One that comes within a callback of Python's own ends a tool all the same, without a word."""
    program = """
import signal, sys, time
sys.path.insert(0, sys.argv[1])
from replay_tools import entry

class Dropping:
    def __del__(self):
        signal.raise_signal(signal.SIGINT)

def main():
    Dropping()
    time.sleep(100000)
    return 0

sys.exit(entry.run("story", main))
"""
    expect("an interrupt that Python drops", run([sys.executable, "-c", program, TOOLS]), (130, "", ""))
    naming = program.replace("__del__(self)", "__set_name__(self, *_)").replace("    Dropping()", """    class Made:
        name = Dropping()""")
    expect("an interrupt as a class is made", run([sys.executable, "-c", naming, TOOLS]), (130, "", ""))
    failing = naming.replace("signal.raise_signal(signal.SIGINT)", "raise ValueError('no interrupt')")
    answer = run([sys.executable, "-c", failing, TOOLS])
    expect("another fault as a class is made", (answer[0], "no interrupt" in answer[2]), (1, True))


def test_lost_outputs():
    """What standard output does not take is no success, and no recording begins where it is closed."""
    recorder = Recorder("crash_loop")
    for words, output, said in (("--help", ">/dev/full", "standard output takes no more: No space left on device"),
                                ("--node worker-3 --check", ">/dev/full", "standard output takes no more: No space"),
                                ("--help", ">&-", "standard output is closed"),
                                ("--node worker-3 --for 2", ">&-", "standard output is closed"),
                                ("--node worker-3 --check", ">&-", "standard output is closed")):
        answer = run(["sh", "-c", f"exec '{TOOLS}'/record {words} {output}"], **recorder.settings)
        expect_refused(f"record {words} {output}", answer, 1, f"record: {said}")
    trace = run(["sh", "-c", f"exec '{TOOLS}'/record --node worker-3 --standard --for 1 2>&-"], **recorder.settings)[1]
    expect("a recording with standard error closed", trace[:14], '{"kind":"node"')
    recorder.clean()


def test_closed_output():
    """A reader that goes away ends the recorder."""
    recorder = Recorder("crash_loop")
    process = recorder.start("--node", "worker-3")
    process.stdout.close()
    said = process.stderr.read().decode()
    process.stderr.close()
    expect("standard output is closed", (process.wait(LONGEST), said), (1, "record: standard output takes no more\n"))
    recorder.clean()


def test_texts():
    """The recorder takes a text if the program does, by the tables of the program's own tests."""
    for kind in ("quantity", "percentage", "duration", "name"):
        rows = [line.split("\t") for line in read(f"{TEXTS}/{kind}.table").split("\n") if line and line[0] != "#"]
        wanted = [verdict[0].isdigit() or verdict == "true" for _, verdict in rows]
        got = [getattr(formats, f"{kind}_fault")(text) is None for text, _ in rows]
        different = [row[0] for row, a, b in zip(rows, got, wanted) if a != b]
        expect(f"texts of a {kind}", different, [])


def test_words_of_the_recorder():
    for words, said in (
        (["--metrics", f"{HERE}/run.py"], "is there and has no metrics of kubelet-replay record"),
        (["--metrics", "/nowhere/it.prom"], "'/nowhere' is no folder that can be written"),
        (["--events", "http://api"], "--events takes a URL as https://kubernetes.default.svc, or kubectl"),
        (["--logs", "1001"], "--logs takes a whole number from 1 to 1000"),
        (["--standard", "--simulate"], "--simulate goes with --extended"),
        (["--ship", "cp {} x"], "--ship goes with --into"),
        (["--into", HERE, "--node", "n1", "--ship", ""], "--ship takes words as 'rclone copy {} far:traces'"),
    ):
        expect_refused(f"record {' '.join(words)[:40]}", run([f"{TOOLS}/record", *words]), 2, said)
