"""The tests of traces and reports that somebody made to harm: what is in no range, what a terminal would do, what never
ends, and names that a shell would run."""

import gzip
import json
import os
import pty
import select
import shutil
import sqlite3
import tempfile
import time
import xml.dom.minidom

import cases
from checks import LONGEST, REPLAY, TOOLS, TOP, expect, expect_refused, read, run

from replay_tools import asking, entry

load_tests = cases.loaded(__name__)

REPORT = f"{TOP}/examples/liveness_kill.report"
FAR, LATER = 10 ** 30, 2 ** 40 - 1
LONGER = "9" * 5000


# --- values out of their range ---


def test_reports_out_of_range():
    """A number of a report that is in no range is no line of one, for each tool."""
    report = read(REPORT)
    for name, old, new in (
        ("a moment", "event 15 ", f"event {FAR} "), ("a moment of many digits", "event 15 ", f"event {LONGER} "),
        ("pods", "pods=1", f"pods={LONGER}"), ("ticks", "ticks=", f"ticks={FAR}"),
        ("totals", "updates=", f"updates={LONGER}"), ("restarts", "restarts=", f"restarts={FAR}"),
        ("the moment of a condition", "MemoryPressure False 0", f"MemoryPressure False {FAR}"),
        ("an attempt", " started 0", f" started {FAR}"), ("a number of a pod", "pod 0 ", f"pod {LONGER} "),
        ("an escape", "shop/", "shop/\x1b[31m"), ("a control of one byte", "shop/", "shop/\u009b31m"),
    ):
        expect(f"the report has {name}", old in report, True)
        for words in (["json"], ["json", "--sqlite", "/nonexistent/none.db"], ["timeline"], ["story"], ["page"]):
            answer = run([f"{TOOLS}/{words[0]}", *words[1:]], report.replace(old, new))
            expect_refused(f"{' '.join(words[:2])} of a report with {name} out of range", answer, 2,
                           "is no line of a report")


def hostile_trace(at, message="low", key="shop/web", follows=None, reason="Error"):
    """A trace that the program takes, with members that the formats do not read."""
    follows = follows or {"trace": "n1.2026-01-01T00-00-00Z.trace.gz", "until": at, "at": at}
    decision = {"pod": key, "at": at, "reason": message, "message": message}
    listings = [{"name": "app", "attempt": 0, "state": "CONTAINER_RUNNING"},
                {"name": "app", "attempt": 0, "state": "CONTAINER_EXITED", "exitCode": 1, "reason": reason,
                 "message": message}]
    ended = {"name": "app", "attempt": 1, "state": "CONTAINER_RUNNING",
             "ended": {"attempt": at, "exitCode": at, "reason": reason, "message": message}}
    waiting = [{"container": "app", "reason": message, "message": message}]
    lines = [{"kind": "node", "name": "n1", "recordsKubelet": True, "follows": follows},
             {"kind": "pod", "pod": {"metadata": {"name": "web", "namespace": "shop"},
                                     "spec": {"containers": [{"name": "app"}]}}},
             {"kind": "tick", "at": 10, "pods": [{"pod": "shop/web", "containers": listings[:1]}]},
             {"kind": "tick", "at": 20, "pods": [{"pod": "shop/web", "containers": listings[1:], "waiting": waiting}],
              "kubelet": {"evicted": [decision], "refused": [{**decision, "pod": f"{key}-2"}]}},
             {"kind": "tick", "at": 30, "pods": [{"pod": "shop/web", "containers": [ended]}]}]
    return "".join(f"{json.dumps(line)}\n" for line in lines)


class Made:
    """A folder with files."""

    def __init__(self, **texts):
        self.path = tempfile.mkdtemp()
        for name, text in texts.items():
            self.put(f"{name}.trace", text)

    def __enter__(self):
        return self

    def __exit__(self, *_):
        shutil.rmtree(self.path)

    def put(self, name, text):
        with open(f"{self.path}/{name}", "w", encoding="utf-8") as file:
            file.write(text)
        return f"{self.path}/{name}"

    def run(self, tool, *words, given=""):
        return run([f"{TOOLS}/{tool}", *words], given, HOME=self.path)


def test_traces_out_of_range():
    """What the formats do not read may be anything: it shows nothing then, and no tool ends by it."""
    for name, at in (("far", FAR), ("of many digits", 10 ** 300), ("below", -FAR), ("a text", "x"), ("a truth", True),
                     ("a fraction", 1.5), ("later than its tick", LATER), ("a list", [1])):
        with Made(bad=hostile_trace(at), good=read(f"{TOP}/examples/liveness_kill.trace")) as made:
            status, told, said = made.run("fleet", "run", made.path, "--out", f"{made.path}/fleet.db")
            expect(f"fleet with a moment that is {name}", (status, told.split("\n")[0], said), (
                0, "2 traces: 2 replayed, 0 refused, 0 failed; 2 pods on 2 nodes", ""))
            connection = sqlite3.connect(f"{made.path}/fleet.db")
            found = connection.execute("SELECT first_moment, last_moment FROM nodes WHERE node = 'n1'").fetchall()
            moments = connection.execute("SELECT at FROM decisions").fetchall()
            connection.close()
            # the earlier trace shows all up to the moment at which the next one follows it
            told = [] if at == LATER else [(20,), (20,)]
            expect(f"fleet with a moment that is {name}: the span", (
                all(10 <= first <= last == 30 for first, last in found), moments), (True, told))
            for words in (["json", "--sqlite", f"{made.path}/out.db"], ["json"], ["timeline"], ["story", "shop/web"],
                          ["page"], ["why", "shop/web"]):
                answer = made.run(*words, "--traces", f"{made.path}/bad.trace")
                expect(f"{words[0]} with a moment that is {name}", (answer[0], answer[2]), (0, ""))


def test_values_of_no_kind():
    """A value of another kind than the formats have is shown as the line's fault; a fault of the tools' own is not."""
    trace, report = (read(f"{TOP}/examples/liveness_kill.{kind}") for kind in ("trace", "report"))
    with Made() as made:
        for was, odd in (('"pod":"shop/web-0"', '"pod":["shop/web-0"]'), ('"name":"web"', '"name":["web"]'),
                         ('"container":"web"', '"container":{}'), ('"result":"failure"', '"result":[]'),
                         ('"kind":"node"', '"kind":"node","capacity":{"memory.available":"1Gi"},'
                          '"evictionHard":{"memory.available":"1/0%"}'),
                         ('"kind":"node"', '"kind":"node","evictionHard":5')):
            expect(f"{was} is in the trace", was in trace, True)
            path = made.put("odd.trace", trace.replace(was, odd))
            # what has no use for the results of probes does not look at them
            of_probe = "container" in was or "result" in was
            for words in (["why", "shop/web-0", "--trace"], ["page"], *[["json", "--trace"]] * (not of_probe)):
                answer = made.run(*words, path, given=report)
                expect_refused(f"{words[0]} of {odd}", answer, 2, "(kubelet-replay explain shows ")
    for fault in (KeyError, TypeError, AttributeError, ValueError):
        def fail(kind=fault):
            raise kind("a fault of the tools' own")
        try:
            asking.of_whole_ticks(fail)
            expect(f"{fault.__name__} of the tools' own", "nothing", "raised")
        except entry.Fault as told:
            expect(f"{fault.__name__} of the tools' own", str(told), "raised as it is")
        except fault:
            expect(f"{fault.__name__} of the tools' own", True, True)


def test_a_trace_that_speaks_for_another_node():
    """A trace gives the end of an earlier trace of its own node alone."""
    name = "n1.2026-01-01T00-00-00Z.trace"
    plain = hostile_trace(0, follows={"x": 1})
    evil = hostile_trace(0, follows={"trace": name, "until": 10 ** 9, "at": 10 ** 9}).replace('"n1"', '"evil"', 1)
    with Made() as made:
        made.put(name, plain)
        made.put("evil.2026-01-01T00-00-00Z.trace", evil)
        made.run("fleet", "run", made.path, "--out", f"{made.path}/fleet.db")
        connection = sqlite3.connect(f"{made.path}/fleet.db")
        found = connection.execute("SELECT node, last_moment FROM nodes ORDER BY node").fetchall()
        connection.close()
        expect("a trace that speaks for another node", found, [("evil", 30), ("n1", 30)])


# --- what a terminal would do ---

ESCAPES = "\x1b]0;owned\x07\x1b[2J \u009b31m \u202e \x7f \u2028 end"


def test_escapes():
    """No text of a trace reaches a terminal, a picture or a page as more than a text."""
    for key in ("shop/web", f"shop/{ESCAPES}"):
        with Made(bad=hostile_trace(20, message=ESCAPES, key=key, reason=ESCAPES)) as made:
            trace = f"{made.path}/bad.trace"
            made.run("fleet", "run", trace, "--out", f"{made.path}/fleet.db")
            for words in (["story", "--traces", trace], ["story", "shop/web", "--traces", trace],
                          ["why", "shop/web", "--traces", trace], ["timeline", "--traces", trace],
                          ["page", "--traces", trace], ["json", "--traces", trace],
                          ["fleet", "worst", f"{made.path}/fleet.db"],
                          ["kubelet-replay", "run", trace, "--fail-on", "evicted"]):
                status, told, said = made.run(*words)
                # the page's own scripts and style are no part of the trace
                shown = told.partition('type="application/json"')[2] if words[0] == "page" else told + said
                odd = sorted({each for each in shown.partition("</script>")[0] if not each.isprintable()} - {"\n"})
                expect(f"{' '.join(words[:2])} of escapes", (status in (0, 4), odd), (True, []))
                if words[0] == "timeline" and status == 0:
                    xml.dom.minidom.parseString(told)
            told = made.run("story", "shop/web", "--traces", trace)[1]
            expect("the escapes are told", "\\x1b]0;owned" in told, True)


def test_names_of_files():
    """A file may have any name, which is shown as far as it can be."""
    with Made(first=hostile_trace(0, follows={"x": 1})) as made:
        name = os.fsencode(made.path) + b"/\x1b[31m\xff\xc2\x9b.trace"
        with open(name, "w", encoding="utf-8") as file:
            file.write('{"kind":"node","name":"n1"}\n{"kind":"tick","at":1000}\n{"kind":"tick","at":1001}\n')
        for words in (["json"], ["story"], ["page"], ["timeline"], ["story", "--node", "n9"]):
            status, told, said = made.run(*words, "--traces", made.path)
            shown = (told if words[0] != "page" else "") + said
            odd = sorted({each for each in shown if not each.isprintable()} - {"\n"})
            expect(f"{' '.join(words)} of a file of an odd name", (status, odd), (2 if "n9" in words else 0, []))


def test_long_words():
    """A message of a million bytes makes no table wide."""
    with Made(bad=hostile_trace(20, message="x" * 100_000)) as made:
        for words in (["story", "shop/web"], ["why", "shop/web"], ["story"]):
            told = made.run(*words, "--traces", f"{made.path}/bad.trace")
            expect(f"{' '.join(words)} of a long message", (told[0], max(map(len, told[1].split("\n"))) < 10_000),
                   (0, True))


# --- what never ends ---


def test_pipes_in_a_folder():
    """In folders files are read, and nothing that has no end."""
    trace = read(f"{TOP}/examples/liveness_kill.trace")
    with Made(good=trace) as made:
        os.mkfifo(f"{made.path}/a_pipe.trace")
        os.mkfifo(f"{made.path}/a_pipe.trace.gz")
        os.symlink("/dev/zero", f"{made.path}/zero.trace.gz")
        os.mkdir(f"{made.path}/a_folder.trace.part")
        kinds = {"a_folder.trace.part": "a folder",
                 **dict.fromkeys(("a_pipe.trace", "a_pipe.trace.gz", "zero.trace.gz"), "a device or a pipe")}
        said = "".join(f"story: {name} is left out: it is {kind}\n" for name, kind in kinds.items())
        wanted = made.run("story", "--traces", f"{made.path}/good.trace")
        expect("story of a folder with pipes", made.run("story", "--traces", made.path), (0, wanted[1], said))
        expect_refused("story of a pattern with pipes", made.run("story", "--traces", f"{made.path}/*.trace"), 2,
                       "a_pipe.trace: it is a device or a pipe")
        status, told, _ = made.run("fleet", "run", made.path, "--out", f"{made.path}/fleet.db")
        expect("fleet of a folder with pipes", (status, told.split(";")[0]), (
            1, "4 traces: 1 replayed, 0 refused, 3 failed"))
        expect("completion of a folder with pipes",
               made.run("kubelet-replay", "__complete", "story", "-f", made.path, ""), (0, ":4\n", ""))


def test_input_without_an_end():
    """Standard input has no more bytes than a trace has."""
    for source in ("/dev/zero", "/dev/full"):
        for words in ("story", "timeline", "page", "json", "why a/b --trace /dev/null", "kubelet-replay story",
                      "kubelet-replay timeline -n a", "kubelet-replay story -f -", "what-if ."):
            answer = run(["sh", "-c", f"exec '{TOOLS}'/{words} <{source}"])
            expect_refused(f"{words} of {source}", answer, 2, "standard input has more than 64 MiB")


def test_edits_without_an_end():
    trace = read(f"{TOP}/examples/liveness_kill.trace")
    expect_refused("what-if of an edit that goes on without a word", run([f"{TOOLS}/what-if", "--timeout", "1",
                                                                        "until(false; .)"], trace), 2,
                   "the edit took longer than 1 s: --timeout SECONDS sets another limit")
    for given, said in ((["--timeout", "soon", "."], "takes a whole number from 1 to 999999, not 'soon'"),
                        (["--timeout=0", "."], "takes a whole number from 1 to 999999, not '0'"),
                        (["--timeout"], "needs a value")):
        expect_refused(f"what-if {' '.join(given)}", run([f"{TOOLS}/what-if", *given], trace), 2,
                       f"--timeout {said}")
    expect_refused("what-if of an edit without an end", run([f"{TOOLS}/what-if", "repeat(.)"], trace), 2,
                   "the edit makes more than 64 MiB, which is the most that a trace has")
    with Made() as made:
        with gzip.open(f"{made.path}/bomb.gz", "wb", 1) as file:
            for _ in range(300):
                file.write(bytes(1 << 20))
        answer = run(["sh", "-c", f"exec '{TOOLS}/what-if' . < '{made.path}/bomb.gz'"], TMPDIR=made.path)
        expect_refused("what-if of what unpacks to much", answer, 2, "unpacked, standard input has more than 64 MiB")
        expect("what-if leaves nothing", os.listdir(made.path), ["bomb.gz"])


# --- names that a shell would run ---


def text_of(pods):
    """A trace of pods, each by its namespace and its name."""
    made = [{"metadata": {"name": name, "namespace": namespace}, "spec": {}} for namespace, name in pods]
    lines = [{"kind": "node", "name": "n1"}, *({"kind": "pod", "pod": pod} for pod in made)]
    return "".join(f"{json.dumps(line)}\n" for line in lines)


def test_completion_runs_nothing():
    """Completion offers the names that the formats take, and no other."""
    names = ("web$(touch${IFS}/tmp/x)", "web`id`", "web;id", "web\tid", "-web", "we b", "web\n", "Web", "plain", 5,
             ["x"])
    with Made() as made:
        trace = made.put("odd.trace", text_of([(namespace, name) for name in names for namespace in ("shop", "$(id)")])
                         + '{"metadata":0}\n{"pod":{"metadata":[0]}}\n{"metadata":' + "[" * 100_000 + "\n")
        for tool, word in (("kubelet-replay", ["__complete"]), ("kubectl_complete-replay", [])):
            for words, wanted in ((["story", "-f", trace, "shop/"], "shop/plain\n:4\n"),
                                  (["story", "-f", trace, "-n", ""], "shop\n:4\n"),
                                  (["why", "--trace", trace, "-n", "shop", ""], "plain\n:4\n")):
                expect(f"{tool} {words[0]} {words[3]}", made.run(tool, *word, *words), (0, wanted, ""))


def test_shells_run_nothing():
    """What a shell completes and is then given runs no command that a name holds."""
    for shell, setup in SHELLS.items():
        if shutil.which(shell) is None:
            print(f"left out: a completion that would run something, in {shell}, since that is missing")
            continue
        with Made() as made:
            trace = made.put("odd.trace", text_of([("shop", f"web$(touch${{IFS}}{made.path}/ran)"), ("shop", "plain")]))
            command = f"kubelet-replay story -f {trace} shop/"
            shown = typed(shell, setup, [f"{command}w\t\n", f"{command}pl\t\n"], made.path)
            expect(f"completion in {shell} runs nothing", os.path.exists(f"{made.path}/ran"), False)
            expect(f"completion in {shell} ends", "ended" in shown, True)


SHELLS = {
    "bash": ([], f"source '{TOOLS}/completion/kubelet-replay.bash'"),
    "zsh": (["-f"], f"autoload -Uz compinit; compinit -D -u; fpath=('{TOOLS}/completion' $fpath); "
                    f"autoload -Uz _kubelet-replay; compdef _kubelet-replay kubelet-replay"),
    "fish": (["--no-config"], f"source '{TOOLS}/completion/kubelet-replay.fish'"),
}


def typed(shell, setup, lines, folder):
    """What a terminal shows on which lines are typed in a shell."""
    words, prepare = setup
    words = [*words, "--norc", "--noprofile"] if shell == "bash" else words
    child, terminal = pty.fork()
    if child == 0:
        os.chdir(folder)
        os.environ.update(PATH=f"{TOOLS}:{os.environ['PATH']}", HOME=folder, TERM="vt100", PS1="ready> ",
                          KUBELET_REPLAY=REPLAY)
        os.execvp(shell, [shell, *words, "-i"])
    shown = ""
    try:
        # each is typed once what was typed before has been answered
        for text, answer in ((f"{prepare}; echo prep''ared\n", "prepared"),
                             *((f"{line}echo do''ne {place}\n", f"done {place}") for place, line in enumerate(lines)),
                             ("echo en''ded\n", "ended"), ("exit\n", None)):
            os.write(terminal, text.encode())
            shown += read_until(terminal, answer)
    finally:
        os.close(terminal)
        os.waitpid(child, 0)
    return shown


def read_until(terminal, wanted):
    """What comes from a terminal until a text is in it, or for a while."""
    shown, until = "", time.monotonic() + LONGEST
    while wanted is not None and wanted not in shown and time.monotonic() < until:
        if select.select([terminal], [], [], 0.5)[0]:
            try:
                shown += os.read(terminal, 1 << 16).decode("utf-8", "replace")
            except OSError:
                break
    return shown
