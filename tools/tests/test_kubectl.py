"""The tests of kubectl replay: its words and its completion with stand-ins for the tools, and both by a kubectl where
there is one."""

import json
import os
import re
import shutil
import subprocess
import sys
import tempfile

import cases
from checks import HERE, REPLAY, TOOLS, TOP, expect, expect_refused, read, run

load_tests = cases.loaded(__name__)

KEPT = f"{HERE}/kubectl"
# the plugin with a stand-in for each tool
PLUGIN = [sys.executable, f"{KEPT}/with_stand_ins.py"]
TRACE = ('{"kind":"node","name":"made"}\n'
         '{"kind":"pod","pod":{"metadata":{"name":"web","namespace":"shop"},"spec":{"containers":[{"name":"app"}]}}}\n'
         '{"kind":"pod","pod":{"metadata":{"name":"other","namespace":"shop"},'
         '"spec":{"containers":[{"name":"app"}]}}}\n'
         '{"kind":"pod","pod":{"metadata":{"name":"plain"},"spec":{"containers":[{"name":"app"}]}}}\n')
# a plugin completes its words by itself since then
FIRST_WITH_COMPLETION = 26


def make_folder():
    """A folder with a stand-in for the program, a trace, a report, and a text that is rejected."""
    folder = tempfile.mkdtemp()
    shutil.copy(f"{KEPT}/commands/show", f"{folder}/kubelet_replay")
    report = run([REPLAY], TRACE)[1]
    extended = "\n" + TRACE.replace('"made"', '"v3","version":3') + '{"kind":"gone","pod":"shop/web"}\n'
    for name, text in (("trace", TRACE), ("report", report.replace("node made", "node kept")), ("refused", "{}\n"),
                       ("extended", extended)):
        with open(f"{folder}/{name}", "w") as file:
            file.write(text)
    os.mkfifo(f"{folder}/pipe")
    return folder


def rows(table):
    """The rows of a table in which FOLDER is the name of a folder."""
    return [line.split("\t") for line in read(f"{KEPT}/{table}.table").split("\n")[1:-1]]


def with_stand_ins(folder, program=None, namespace=""):
    return {"PATH": f"{KEPT}/commands:{os.environ['PATH']}", "CONTEXT_NAMESPACE": namespace,
            "KUBELET_REPLAY": program or f"{folder}/kubelet_replay"}


def test_kubectl_words():
    folder = make_folder()
    report = read(f"{HERE}/lines/came_again.report")
    for words, called in rows("words"):
        given = words.replace("FOLDER", folder).split()
        # a trace of -f is replayed by the program itself, else its stand-in shows what it is called with
        program = None if given[0] in ("run", "check") else REPLAY
        status, out, said = run([*PLUGIN, *given], report, **with_stand_ins(folder, program))
        expect(f"kubectl replay {words}", (status, out.replace(folder, "FOLDER").strip(), said), (0, called, ""))
    answer = run([*PLUGIN, "check", "/dev/stdin"], read(f"{folder}/extended").strip(), **with_stand_ins(folder))[1]
    expect("kubectl replay check of a pipe", answer,
           'kubelet_replay [check] [/dev/stdin] [--extended] < {"kind":"node","name":"v\n')
    settings = with_stand_ins(folder, namespace="shop")
    answer = run([*PLUGIN, "story", "db"], report, **settings)[1]
    expect("kubectl replay in the namespace of its context", answer.split(" <")[0], "story [shop/db]")
    shutil.rmtree(folder)


def test_kubectl_runs_the_program():
    """What is printed of a trace of each format, of a file and of a pipe, is what the program prints itself; one more
    line follows a rejection. A file that can't be read has the status 2."""
    folder = make_folder()

    def first_line(answer):
        status, out, said = answer
        means = said.split("\n")[1:-1]
        expect("kubectl replay says what a refusal means", len(means), 1 if status else 0)
        return status, out, "".join(said.splitlines(True)[:1])

    for name, own in (("trace", []), ("extended", ["--extended"]), ("refused", [])):
        path = f"{folder}/{name}"
        for command in ("run", "check"):
            wanted = run([REPLAY, command, path, *own])
            expect(f"kubectl replay {command} {name}", first_line(run([f"{TOOLS}/kubectl-replay", command, path])),
                   wanted)
            piped = ["sh", "-c", f"cat '{path}' | '{TOOLS}/kubectl-replay' {command} /dev/stdin"]
            expect(f"kubectl replay {command} {name}, of a pipe", first_line(run(piped)),
                   run([REPLAY, command, "/dev/stdin", *own], read(path)))
    shutil.rmtree(folder)


def test_kubectl_refused():
    folder = make_folder()
    report = read(f"{HERE}/lines/came_again.report")
    for words, status, said, *means in rows("refused"):
        answer = run([*PLUGIN, *words.replace("FOLDER", folder).split()], report, **with_stand_ins(folder, REPLAY))
        expect_refused(f"kubectl replay {words}", answer, int(status), said.replace("FOLDER", folder), *means)
    answer = run([f"{TOOLS}/kubectl-replay", "story", "-f", "-", "shop/web"], "{}\n")
    expect_refused("kubectl replay -f - of no trace", answer, 2, "standard input is rejected: line 1: 33 UnknownKind",
                   "kind is missing")
    for name in ("trace", "extended"):
        piped = f"cat '{folder}/{name}' | '{TOOLS}/kubectl-replay' story -f - -n shop web"
        expect(f"kubectl replay -f - of a {name}", run(["sh", "-c", piped]),
               run([f"{TOOLS}/kubectl-replay", "story", "-f", f"{folder}/{name}", "-n", "shop", "web"]))
        piped = f"cat '{folder}/{name}' | '{TOOLS}/kubectl-replay' why -f - -n shop web"
        expect(f"kubectl replay why -f - of a {name}", run(["sh", "-c", piped]),
               run([f"{TOOLS}/kubectl-replay", "why", "-f", f"{folder}/{name}", "-n", "shop", "web"]))
    answer = run(["sh", "-c", f"ulimit -f 0; exec '{TOOLS}/kubectl-replay' story -f '{folder}/trace' shop/web"],
                 TMPDIR="/nonexistent")
    expect_refused("kubectl replay without a place for a report", answer, 1, "No usable temporary directory")
    answer = run([f"{TOOLS}/kubectl-replay", "story", "-f", f"{folder}/trace", "shop/web"],
                 KUBELET_REPLAY="/nonexistent/program")
    expect_refused("kubectl replay without the program", answer, 127, "/nonexistent/program is missing")
    shutil.rmtree(folder)


def test_kubectl_to_a_reader_that_has_gone():
    """What head does not take is no fault."""
    trace = f"{TOP}/examples/liveness_kill.trace"
    answer = run(["bash", "-c", f"set -o pipefail; '{TOOLS}/kubectl-replay' run '{trace}' | true"])
    expect("kubectl replay to a reader that has gone", answer, (0, "", ""))


def test_kubectl_completion():
    folder = make_folder()
    settings = with_stand_ins(folder, namespace="shop")
    for words, candidates in rows("completions"):
        given = ["" if word == "_" else word.replace("FOLDER", folder) for word in words.split()]
        status, out, said = run([f"{TOOLS}/kubectl_complete-replay", *given], **settings)
        shown = " ".join(out.split()).replace(folder, "FOLDER")
        expect(f"completion of {words}", (status, shown, said), (0, candidates, ""))
    shutil.rmtree(folder)


def test_real_kubectl():
    """By a kubectl that runs the plugin itself."""
    path = f"{TOOLS}:{os.environ['PATH']}"
    kubectl = shutil.which("kubectl")
    if kubectl is None:
        print("left out: kubectl replay by kubectl itself, since that is missing")
        return
    trace = f"{TOP}/examples/liveness_kill.trace"
    report = read(f"{TOP}/examples/liveness_kill.report")
    by_kubectl = run([kubectl, "replay", "story", "-f", trace, "-n", "shop", "pod/web-0"], PATH=path)
    story = run([f"{TOOLS}/story", "shop/web-0", "--trace", trace, "--without-why"], report)
    expect("a kubectl tells a story", by_kubectl, story)
    by_kubectl = run([kubectl, "replay", "run", trace], PATH=path)
    expect("a kubectl replays a trace", by_kubectl, (0, report, ""))
    answer = run([kubectl, "replay", "story", "shop/wab-0"], report, PATH=path)
    expect_refused("a kubectl refuses a pod", answer, 2, "no pod shop/wab-0; the nearest: shop/web-0")
    version = json.loads(run([kubectl, "version", "--client", "--output", "json"])[1])["clientVersion"]
    if int(re.match(r"\d+", version["minor"])[0]) < FIRST_WITH_COMPLETION:
        print(f"left out: completion by kubectl itself, which 1.{version['minor']} does not do for plugins")
        return
    words = [kubectl, "__complete", "replay", "story", "-f", trace, "-n", "shop", "w"]
    done = subprocess.run(words, capture_output=True, check=False, env={**os.environ, "PATH": path})
    expect("a kubectl completes a pod", done.stdout.decode(), "web-0\n:4\n")
