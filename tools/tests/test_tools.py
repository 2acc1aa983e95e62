"""The tests of what several tools share: stories, pictures and edits of kept recordings, their words, versions and
helps, and the commands that they need."""

import ast
import glob
import importlib
import os
import re
import shutil
import sys
import tempfile
import xml.dom.minidom

import big_node
import cases
from checks import HERE, TOOLS, TOP, copy_package, expect, expect_kept, expect_refused, read, run

from replay_tools import tree

load_tests = cases.loaded(__name__)

RECORDINGS = f"{HERE}/recordings"
COMMANDS = f"{HERE}/commands"


# --- reports ---


def test_stories():
    for recording, pod, words in (
        ("crash_loop", "shop/api-7f9c", []),
        ("whole_node", "shop/web", []),
        ("whole_node", "shop/web", ["--seconds"]),
        ("whole_node", "batch/report-28401", []),
        ("attempt_falls", "shop/api-7f9c", []),
        ("made_anew", "default/late", []),
        ("never_ready", "shop/pair", []),
        ("names_come_again_extended", "shop/db-0", []),
    ):
        status, told, said = run([f"{TOOLS}/story", *words, pod], read(f"{RECORDINGS}/{recording}/report"))
        name = "_".join([recording, pod.split("/")[1], *(word.strip("-") for word in words)])
        expect(f"story {name}", (status, said), (0, ""))
        expect_kept(f"story {name}: the text", told, f"{HERE}/stories/{name}")


def test_overviews():
    """Without a pod the pods are listed, and the pods of a namespace, the worst first."""
    for name, words, path in (("whole_node", ["--utc"], f"{RECORDINGS}/whole_node/report"),
                              ("came_again", [], f"{HERE}/lines/came_again.report"),
                              ("memory_pressure", [], f"{TOP}/examples/memory_pressure.report")):
        status, told, said = run([f"{TOOLS}/story", *words], read(path))
        expect(f"story of the pods of {name}", (status, said), (0, ""))
        expect_kept(f"story of the pods of {name}: the text", told, f"{HERE}/stories/pods_of_{name}")
    report = read(f"{RECORDINGS}/whole_node/report")
    told = run([f"{TOOLS}/story", "shop/"], report)[1].split("\n")
    expect("story of a namespace", [line.split()[0] for line in told[:-1]], ["worker-3:", "pod", "shop/web"])
    expect_refused("story of a namespace without a pod", run([f"{TOOLS}/story", "shot/"], report), 2,
                   "no pod in the namespace shot")


def test_names_that_are_cut():
    """A name that fits one pod is that pod's, and one that fits several lists them."""
    report = read(f"{RECORDINGS}/whole_node/report")
    for asked, key in (("shop/w", "shop/web"), ("web", "shop/web"), ("w", "shop/web"),
                       ("kube-proxy", "kube-system/kube-proxy-worker-3"), ("batch/r", "batch/report-28401")):
        expected = run([f"{TOOLS}/story", key], report)
        expect(f"story {asked}", run([f"{TOOLS}/story", asked], report), expected)
    several = report.replace("shop/web", "shop/api-1").replace("batch/report-28401", "shop/api-2")
    for asked in ("shop/api", "api-", "shop/a"):
        expect_refused(f"story {asked}", run([f"{TOOLS}/story", asked], several), 2,
                       f"{asked} fits 2 pods: shop/api-1, shop/api-2")
    expect("story of a whole name that begins others", run([f"{TOOLS}/story", "shop/api-1"],
                                                            several.replace("shop/api-2", "shop/api-10"))[0], 0)
    drawn = run([f"{TOOLS}/timeline", "web", "shop/web", "shop/w"], report)
    expect("timeline of a name that is cut", drawn, run([f"{TOOLS}/timeline", "shop/web"], report))


def test_pictures():
    report = read(f"{RECORDINGS}/whole_node/report")
    status, picture, said = run([f"{TOOLS}/timeline", "--utc"], report)
    expect("timeline of a node", (status, said), (0, ""))
    expect_kept("timeline of a node: the picture in docs", picture, f"{TOP}/docs/timeline.svg")
    one = run([f"{TOOLS}/timeline", "shop/web"], report)[1]
    titles = [text.firstChild.data for text in xml.dom.minidom.parseString(one).getElementsByTagName("text")
              if text.getAttribute("class") == "pod"]
    expect("timeline of one pod", titles, ["shop/web: Running"])
    tall = xml.dom.minidom.parseString(run([f"{TOOLS}/timeline"], "".join(big_node.report_of(12, 4000, 12)))[1])
    above = [text.firstChild.data for text in tall.getElementsByTagName("text") if text.getAttribute("y") == "38.0"]
    expect("timeline of many pods: moments above too", above, ["0", "5000", "10000", "15000", "20000", "25000", "30000",
                                                               "35000", "40000"])
    strips = [title.firstChild.data for title in tall.getElementsByTagName("title")
              if " restarts, " in title.firstChild.data]
    expect("timeline of many restarts: a strip", strips[0], "app: 97 restarts, 400 to 39760")
    expect("timeline of many restarts: no mark of its own", [circle for circle in tall.getElementsByTagName("circle")
                                                            if circle.firstChild.firstChild.data != "restart"], [])
    odd = xml.dom.minidom.parseString(run([f"{TOOLS}/timeline"], report.replace("worker-3", "a&b<c>\"d'")
                                          .replace("shop/web", "shop/<i>&amp;"))[1])
    texts = [text.firstChild.data for text in odd.getElementsByTagName("text")]
    expect("timeline escapes names", (any(text.startswith("a&b<c>\"d', ") for text in texts),
                                      "shop/<i>&amp;: Running" in texts), (True, True))
    empty = "node n1 pods=0 ticks=0\n" + "".join(f"nodecondition {kind}Pressure False 0\n" for kind in
                                                ("Memory", "Disk", "PID")) + "totals updates=0 events=0 orders=0\n"
    status, picture, said = run([f"{TOOLS}/timeline"], empty)
    expect("timeline of a node without pods", (status, said, picture.endswith("</svg>\n")), (0, "", True))


AGAIN = f"{TOP}/crates/case_runner/data/traces/extended"


def test_pods_of_one_name():
    """Each has its own story and lanes, until it has left, and counts among the others at an eviction until then."""
    evicted = read(f"{AGAIN}/evicted_pod_comes_again_and_is_evicted_again.report")
    told = run([f"{TOOLS}/story", "shop/a"], evicted)[1]
    heads = [line for line in told.split("\n") if line.startswith(("shop/", "first tick"))]
    expect("story of two pods of one name", heads, [
        "shop/a on n1, number 0: Failed (Evicted), BestEffort", "first tick 0, ended 0 as Evicted, gone before 5",
        "shop/a on n1, number 2: Failed (Evicted), BestEffort", "first tick 5, ended 5 as Evicted"])
    expect("story of two pods of one name: what they were first of", told.count("first of 2"), 2)
    drawn = run([f"{TOOLS}/timeline", "shop/a", "shop/a"], evicted)[1]
    expect("timeline of two pods of one name, named twice", titles_in(drawn, "text", "pod"), [
        "shop/a, number 0: Evicted at 0, gone before 5", "shop/a, number 2: Evicted at 5"])
    crosses = [title for title in titles_in(drawn, "polygon") if "evicted at" in title]
    expect("timeline tells which of one name was evicted", crosses, [
        "shop/a, number 0 evicted at 0 by memory.available hard",
        "shop/a, number 2 evicted at 5 by memory.available hard", "shop/b evicted at 10 by memory.available hard"])
    twice = run([f"{TOOLS}/timeline"], read(f"{AGAIN}/pod_that_comes_again_twice.report"))[1]
    expect("timeline ends a lane where the next pod of its name begins",
           [title for title in titles_in(twice, "rect") if title.startswith(("app", "Ready True"))],
           ["Ready True: 0 to 5", "app: attempt 0 running, 0 to 5", "app: attempt 0 terminated with code 0, 5 to 5",
            "app: waiting, 9 to the end"])


def test_story_of_a_pod_that_left():
    """With the trace it is known when a pod left that did not come again, and that it was no candidate then."""
    name = f"{AGAIN}/pod_that_is_gone_is_no_candidate"
    for pod, words, wanted in (("shop/a", ["--trace", f"{name}.trace"], "first tick 0, gone before 5"),
                               ("shop/a", [], "first tick 0"),
                               ("shop/c", ["--trace", f"{name}.trace"], "first of 2"), ("shop/c", [], "first of 3")):
        told = run([f"{TOOLS}/story", pod, *words], read(f"{name}.report"))[1]
        expect(f"story of {pod} {' '.join(words[:1])}", wanted in re.split("\n|  +", told), True)


def titles_in(picture, tag, kind=None):
    """The text of the elements of a picture, or of the titles in them."""
    found = xml.dom.minidom.parseString(picture).getElementsByTagName(tag)
    if kind:
        return [each.firstChild.data for each in found if each.getAttribute("class") == kind]
    return [title.firstChild.data for each in found for title in each.getElementsByTagName("title")]


def test_no_reports():
    report = read(f"{RECORDINGS}/crash_loop/report")
    lines = report.split("\n")
    for name, text, words in (
        ("nothing", "", "whole report"),
        ("a cut report", report[: len(report) // 2], "whole report"),
        ("a report without totals", "\n".join(lines[:-2]) + "\n", "totals"),
        ("pod lines alone", "".join(f"{line}\n" for line in lines if line[:4] in ("pod ", "cond", "cont")), "alone"),
        ("a strange line", report.replace("ready\n", "rather ready\n", 1), "line 3 "),
        ("an event with a word too many", report.replace("ready\n", "ready 1\n", 1), "line 3 "),
        ("a report behind a report", report + report, "is no line"),
        ("a line behind the totals", f"{report}{lines[1]}\n", "is no line"),
        ("no condition of the node", report.replace("nodecondition PIDPressure", "nodecondition Other"), "condition"),
        ("a pod without a condition", report.replace("condition 0 Ready", "condition 0 Steady"), "shop/api-7f9c"),
        ("a trace", read(f"{RECORDINGS}/crash_loop/trace"), "is a trace, and it needs a report: pass the trace with -f TRACE"),
        ("a refusal", "line 1: 36 Config\n", "kubelet-replay explain -f TRACE shows what it means"),
        ("lines of json", '{"record":"node"}\n', "standard input is lines of kubelet-replay json"),
    ):
        expect_refused(f"story of {name}", run([f"{TOOLS}/story", "shop/api-7f9c"], text), 2, words)
        expect_refused(f"timeline of {name}", run([f"{TOOLS}/timeline"], text), 2, words)


# --- edits ---

MORE = 'node(.evictionHard["memory.available"] = "5Gi")'


def test_edits():
    trace = read(f"{RECORDINGS}/crash_loop/trace")
    whole = read(f"{RECORDINGS}/whole_node/trace")
    for name, edit, given in (
        ("a_greater_threshold", MORE, trace),
        ("a_laxer_probe", 'container("shop/web"; "app"; .livenessProbe.failureThreshold = 3)', whole),
        ("a_probe_of_a_sidecar", 'container("shop/web"; "proxy"; .startupProbe = null)', whole),
        ("another_priority", 'pod("batch/report-28401"; .spec.priority = 2100000000)', whole),
        ("a_delay", "node(.maxRestartDelay = 1)", trace),
        ("no_pressure", 'tick(del(.signals["memory.available"]))', whole),
    ):
        status, shown, said = run([f"{TOOLS}/what-if", edit], given)
        expect(f"what-if {name}", (status, said), (0, ""))
        expect_kept(f"what-if {name}: the lines", shown, f"{HERE}/edits/{name}")
    again = read(f"{RECORDINGS}/names_come_again_extended/trace")
    edit = 'container("shop/db-0"; "db"; .readinessProbe = {})'
    status, shown, said = run([f"{TOOLS}/what-if", edit], again)
    expect("what-if of the extended format", (status, said), (0, ""))
    expect_kept("what-if of the extended format: the lines", shown, f"{HERE}/edits/pods_of_one_name")
    stays = run([f"{TOOLS}/what-if", 'select(.kind != "gone")'],
                read(f"{AGAIN}/pod_that_goes_while_running_has_not_died.trace"))
    expect("what-if a pod that goes stayed", (stays[0], " died 0 137" in stays[1], stays[2]), (0, True, ""))
    same = run([f"{TOOLS}/what-if", "."], trace)
    expect("what-if changes no line", same, (0, "", "what-if: the edit changes no line of the trace\n"))
    same = run([f"{TOOLS}/what-if", "node(.evictionSoft = null)"], trace)
    expect("what-if changes no report", same, (0, "", "what-if: no line of the reports differs\n"))


def test_edited_lines():
    """With a program that writes the trace itself, the differences are the lines that the edit changes."""
    given = '{"kind":"node", "name":"n1"}\n \t\n{"kind":"pod","pod":{"metadata":{"name":"a"}, "n":1.0}}\n' \
            '{"kind":"pod","pod":{"metadata":{"name":"b"},"spec":{"containers":[{"name":"c"},{"name":"d"}]}}}\n' \
            '{"kind":"tick", "at":1e2}\n'
    shows = f"{COMMANDS}/show"
    node = run([f"{TOOLS}/what-if", "node(.version = 2)"], given, KUBELET_REPLAY=shows)
    expect("what-if leaves other lines byte for byte", node,
           (0, '- {"kind":"node", "name":"n1"}\n+ {"kind":"node","name":"n1","version":2}\n', ""))
    container = run([f"{TOOLS}/what-if", 'container("default/b"; "d"; .x = 1)'], given, KUBELET_REPLAY=shows)[1]
    expect("what-if changes one container", container.split("\n")[1:], [
        '+ {"kind":"pod","pod":{"metadata":{"name":"b"},"spec":{"containers":[{"name":"c"},{"name":"d","x":1}]}}}', ""])
    dropped = run([f"{TOOLS}/what-if", 'select(.kind != "tick") # ticks go'], given, KUBELET_REPLAY=shows)
    expect("what-if drops lines", dropped, (0, '- {"kind":"tick", "at":1e2}\n', ""))


def test_lost_edits():
    """What standard output does not take is no success, also by kubectl; a reader that has gone knows of it."""
    trace, edit = f"{TOP}/examples/liveness_kill.trace", "node(.version = 2)"
    for words in (f"what-if '{edit}'", "what-if --help", f"kubectl-replay what-if '{edit}'",
                  f"kubectl-replay what-if -f '{trace}' '{edit}'"):
        for output, status, said in ((">/dev/full", 1, "what-if: standard output takes no more: No space left"),
                                     (">&-", 1, "standard output is closed")):
            answer = run(["sh", "-c", f"exec '{TOOLS}'/{words} <'{trace}' {output}"], KUBELET_REPLAY=f"{COMMANDS}/show")
            expect_refused(f"{words} {output}", answer, status, said)
        answer = run(["sh", "-c", f"{{ '{TOOLS}'/{words} <'{trace}'; echo $? >&2; }} | :"],
                     KUBELET_REPLAY=f"{COMMANDS}/show")
        expect(f"{words} whose reader has gone", answer, (0, "", "1\n"))


def test_refused_edits():
    trace = read(f"{RECORDINGS}/crash_loop/trace")
    for name, edit, given, words, means in (
        ("an edit that is no program", "node(", trace, "the edit fails", None),
        ("an edit that fails", "node(.name + 1)", trace, "the edit fails", None),
        ("an edit of a pod that fails", 'pod("shop/api-7f9c"; error("no"))', trace, "the edit fails: jq: error", None),
        ("a trace that is refused", ".", trace.replace('"kind":"node"', '"kind":"nod"'),
         "the trace is rejected: line 1: 33 UnknownKind", 'kind is "nod": there are node, pod and tick'),
        ("an edited trace that is refused", "node(.maxRestartDelay = 301)", trace,
         "the edited trace is rejected: line 1: 36 Config", "maxRestartDelay is 301: it is a whole number from 1 to"),
        ("a report", ".", read(f"{RECORDINGS}/crash_loop/report"), "the trace is rejected: line 1: 32 NotJson",
         "it is a report: give the trace that it was made of"),
        ("an edit that brings the extended format a fault", "node(.version = 3 | .evictionPauseSeconds = -1)", trace,
         "the edited trace is rejected: line 1: 36 Config", "evictionPauseSeconds is -1"),
    ):
        expect_refused(f"what-if {name}", run([f"{TOOLS}/what-if", edit], given), 2, words, means)


def test_edits_of_what_is_not_there():
    """A pod or a container that the trace has not is rejected with the nearest names."""
    trace = read(f"{RECORDINGS}/whole_node/trace")
    for edit, said in (
        ('pod("shop/wab"; .spec.priority = 1)', "the trace has no pod shop/wab; the nearest: shop/web"),
        ('container("shop/wab"; "app"; .x = 1)', "the trace has no pod shop/wab; the nearest: shop/web"),
        ('container("shop/web"; "ap"; .x = 1)', "shop/web has no container ap; the nearest: app"),
        ('container("shop/web"; "zzz"; .x = 1)', "shop/web has no container zzz; there are app, migrate, proxy"),
        ('container("shop/web"; "app"; .x = 1) | pod("a/b"; .)', "the trace has no pod a/b; there are kube-system/"),
    ):
        expect_refused(f"what-if {edit}", run([f"{TOOLS}/what-if", edit], trace), 2, said)
    expect_refused("what-if of a pod, of a trace without one",
                   run([f"{TOOLS}/what-if", 'pod("a/b"; .)'], '{"kind":"node","name":"n1"}\n'), 2, "has no pod a/b")
    renamed = 'pod("shop/web"; .metadata.name = "other") | pod("shop/other"; .)'
    expect("what-if finds a pod that the edit has renamed",
           run([f"{TOOLS}/what-if", renamed], trace, KUBELET_REPLAY=f"{COMMANDS}/show")[0], 0)
    without_memory = f"{COMMANDS}/without_memory"
    answer = run([f"{TOOLS}/what-if", "."], trace, KUBELET_REPLAY=without_memory)
    expect_refused("what-if of a program without memory", answer, 1, "can't be replayed (status 1): out of memory")


# --- words and commands ---


def test_words():
    for words, said in (
        (["record", "--often"], "--often is no known argument"),
        (["record", "--every"], "--every needs a value"),
        (["record", "--every", "0"], "--every takes"),
        (["record", "--every", "1.5"], "--every takes"),
        (["record", "--every", "86401"], "--every takes"),
        (["record", "--ticks", "20001"], "--ticks takes"),
        (["record", "--ticks", "99999999999999999999"], "--ticks takes"),
        (["record", "--node", "Worker 3"], "--node takes"),
        (["record", "--node", ""], "--node takes"),
        (["record", "--curl", f"{HERE}/run.py"], "--curl goes with --kubelet"),
        (["record", "--kubelet", "127.0.0.1:10250"], "--kubelet takes"),
        (["record", "--kubelet", "--check"], "--kubelet takes"),
        (["record", "--kubelet", "https://127.0.0.1:10250", "--curl", "/nonexistent"], "can't be read"),
        (["record", "--node-line", "/nonexistent"], "can't be read"),
        (["record", "--node-line", f"{HERE}/run.py"], "no JSON object"),
        (["record", "--look", "0"], "--look takes"),
        (["record", "--for", "an hour"], "--for takes"),
        (["record", "--standard", "--extended"], "give one"),
        (["record", "--standard", "--eviction-pause", "5"], "goes with --extended"),
        (["record", "--extended", "--eviction-pause", "2147483648"], "--eviction-pause takes"),
        (["record", "--into", "/nonexistent/traces"], "--into: '/nonexistent/traces' is no folder"),
        (["record", "--into", f"{HERE}/run.py"], "run.py' is no folder"),
        (["record", "--into", HERE, "--node", "worker/3"], "--node takes a node's name, not 'worker/3'"),
        (["record", "--into", HERE, "--node", ".."], "--into needs --node with a name of the formats, not '..'"),
        (["record", "--into", HERE, "--standard"], "--into writes the extended format"),
        (["record", "--into", HERE, "--each", "1"], "--each takes a time from 10s to 400d, as 1h, not '1'"),
        (["record", "--into", HERE, "--each", "9s"], "--each takes a time"),
        (["record", "--into", HERE, "--keep", "401d"], "--keep takes a time"),
        (["record", "--into", HERE, "--most", "2GB"], "--most takes a number of bytes of at least 1Mi, as 2Gi"),
        (["record", "--into", HERE, "--most", "1000000"], "--most takes a number of bytes"),
        (["record", "--each", "1h"], "--each goes with --into"),
        (["record", "--crictl", "'"], "--crictl takes words"),
        (["story", "a/b", "c/d"], "one pod, not 2"),
        (["story", "--al"], "--al is no known argument; the nearest is --all"),
        (["timeline", "--wide"], "--wide is no known argument"),
        (["what-if"], "one edit, not 0"),
        (["what-if", ".", "."], "one edit, not 2"),
        (["what-if", "--edit"], "--edit is no known argument"),
    ):
        answer = run([f"{TOOLS}/{words[0]}", *words[1:]], PATH=f"{COMMANDS}:{os.environ['PATH']}")
        expect_refused(" ".join(words), answer, 2, said)
    report = read(f"{RECORDINGS}/crash_loop/report")
    for tool in ("story", "timeline"):
        strange = run([f"{TOOLS}/{tool}", "shop/strange"], report)
        expect_refused(f"{tool} of a strange pod", strange, 2, "no pod shop/strange")


def test_closed_streams():
    report = f"{TOP}/examples/liveness_kill.report"
    asked = ["story shop/web-0", f"why shop/web-0 --trace {TOP}/examples/liveness_kill.trace", "timeline", "page",
             "json", "what-if .", "kubectl-replay json"]
    for words in asked:
        answer = run(["sh", "-c", f"exec '{TOOLS}'/{words} <&-"])
        expect_refused(f"{words}, with standard input closed", answer, 2, "standard input is closed")
        answer = run(["sh", "-c", f"exec '{TOOLS}'/{words} <'{report}' >&-"])
        expect_refused(f"{words}, with standard output closed", answer, 1, "standard output is closed")


def test_a_folder_as_standard_input():
    trace = f"{TOP}/examples/liveness_kill.trace"
    for words in ("story shop/web-0", f"why shop/web-0 --trace {trace}", "timeline", "page", f"page {trace}", "json",
                  "what-if .", "kubectl-replay json", "kubectl-replay what-if .", "kubectl-replay story shop/web-0",
                  f"fleet run {trace} --out /nowhere/fleet.db", "record --check", "kubectl_complete-replay st"):
        answer = run(["sh", "-c", f"exec '{TOOLS}'/{words} </"])
        expect_refused(f"{words}, of a folder", answer, 2, ": standard input can't be read: Is a directory")


def test_full_disks():
    """What does not fit is reported, also where Python does not buffer; a limit of a file's size is the full disk."""
    report, folder = f"{TOP}/examples/liveness_kill.report", tempfile.mkdtemp()
    for words in ("story shop/web-0", "timeline", "page", "json", "kubectl-replay json",
                  f"why shop/web-0 --trace {TOP}/examples/liveness_kill.trace"):
        for unbuffered in ("", "1"):
            answer = run(["sh", "-c", f"ulimit -f 1; exec '{TOOLS}'/{words} <'{report}' >'{folder}/out'"],
                         PYTHONUNBUFFERED=unbuffered)
            expect_refused(f"{words}, on a full disk {unbuffered}", answer, 1, "standard output takes no more")
    shutil.rmtree(folder)


def test_versions():
    """Each tool prints its version, that a checkout has more than a release, and its help by its short name too."""
    version, more = read(f"{TOP}/VERSION"), ", and what is not released yet"
    if "\n## Not released yet" in read(f"{TOP}/CHANGELOG.md"):
        version = version.replace("\n", f"{more}\n")
    for name, path in (("VERSION", "VERSION"), ("report.schema.json", "docs/report.schema.json")):
        expect(f"the package's own {name}", read(f"{TOOLS}/replay_tools/{name}"), read(f"{TOP}/{path}"))
    for tool in ("record", "story", "timeline", "what-if", "json", "why", "page", "fleet", "explain", "import",
                 "kubelet-replay", "kubectl-replay", "kubectl_complete-replay"):
        for word in ("--version", "-V"):
            expect(f"{tool} {word}", run([f"{TOOLS}/{tool}", word]), (0, f"{tool} {version}", ""))
        expect(f"{tool} -h", run([f"{TOOLS}/{tool}", "-h"]), run([f"{TOOLS}/{tool}", "--help"]))
    with tempfile.TemporaryDirectory() as top:
        copy_package(top)
        for tool in ("story", "what-if"):
            shutil.copy(f"{TOOLS}/{tool}", f"{top}/tools")
            for changes, said in (("# Changes\n\n## Not released yet\n", more), ("# Changes\n\n## 1.2.3\n", "")):
                for name, text in (("tools/replay_tools/VERSION", "1.2.3\n"), ("CHANGELOG.md", changes)):
                    with open(f"{top}/{name}", "w", encoding="utf-8") as file:
                        file.write(text)
                expect(f"{tool} --version of changes {said}", run([f"{top}/tools/{tool}", "--version"]), (
                    0, f"{tool} 1.2.3{said}\n", ""))


def test_help():
    """A tool by itself has the help of its command; the manual has what it needs and leaves out."""
    for tool in (name for name in tree.COMMANDS if tree.is_tool(name)):
        expect(f"{tool} --help", run([f"{TOOLS}/{tool}", "--help"]), run([f"{TOOLS}/kubelet-replay", tool, "--help"]))
    for command in tree.COMMANDS.values():
        details = importlib.import_module(f"replay_tools.manual.{command.module}").TEXT
        expect(f"the manual of {command.name} has what it needs and leaves out", [words in details for words in (
            "It needs python3", "leaves out", "\n\nStatus 0: ")], [True] * 3)


# what only a checkout has, and where the package may name it: the program that is built there, and what tests write
OF_A_CHECKOUT = re.compile(r"(?<![\w/])(?:tools|bench|crates)/|\./(?:kubelet_replay|test)\b")
MAY_NAME_IT = ("program.py", "cli/table.py", "cli/powershell.py")


def texts_of(path):
    """The texts of a module of the package, without docstrings."""
    tree = ast.parse(read(path))
    owners = [node for node in ast.walk(tree) if isinstance(node, (ast.Module, ast.ClassDef, ast.FunctionDef))]
    docs = {id(node.body[0].value) for node in owners if node.body and isinstance(node.body[0], ast.Expr)}
    return [node.value for node in ast.walk(tree)
            if isinstance(node, ast.Constant) and isinstance(node.value, str) and id(node) not in docs]


def test_hints():
    """No text of the tools names what only a checkout has."""
    package = f"{TOOLS}/replay_tools"
    paths = [path for path in glob.glob("**/*.py", root_dir=package, recursive=True) if path not in MAY_NAME_IT]
    expect("hints", [(path, text) for path in sorted(paths) for text in texts_of(f"{package}/{path}")
                     if OF_A_CHECKOUT.search(text)], [])


OLDER = """
import runpy, sys
sys.version_info, sys.argv = (3, 8, 10, "final", 0), sys.argv[1:]
runpy.run_path(sys.argv[0], run_name="__main__")
"""


def test_an_older_python():
    """One line has which Python is needed, and which there is."""
    for name in ("story", "kubelet-replay", "kubectl-replay"):
        answer = run([sys.executable, "-c", OLDER, f"{TOOLS}/replay_tools/__main__.py", name, "--version"])
        expect(f"{name} by an older Python", answer,
               (1, "", f"{name}: needs Python 3.9 or later, and python3 is 3.8\n"))


def test_missing_commands():
    """With a PATH that lacks one command each."""
    all_of = ["sh", "env", "python3", "jq", "diff", "crictl", "kubectl", "curl", "cat", "dirname", "readlink", "uname",
              "mktemp", "rm", "mv", "sed", "head", "date", "sleep", "cmp"]
    for tool, words, missing in (
        ("record", [], "python3"), ("record", [], "crictl"), ("record", [], "kubectl"),
        ("record", ["--kubelet", "https://127.0.0.1:10250"], "crictl"),
        ("what-if", ["."], "jq"), ("what-if", ["."], "diff"), ("what-if", ["."], "python3"),
        ("story", ["a/b"], "python3"), ("timeline", [], "python3"),
        ("json", [], "python3"), ("why", ["a/b"], "python3"), ("page", [], "python3"), ("explain", [], "python3"),
        ("fleet", [], "python3"), ("kubelet-replay", [], "python3"), ("kubectl-replay", [], "python3"),
        ("kubectl_complete-replay", [], "python3"),
        ("test", [], "python3"), ("test", [], "jq"),
    ):
        folder = tempfile.mkdtemp()
        for name in all_of:
            path = shutil.which(name, path=f"{COMMANDS}:{os.environ['PATH']}")
            path = sys.executable if name == "python3" else path
            if name != missing and path:
                os.symlink(path, f"{folder}/{name}")
        expect_refused(f"{tool} {' '.join(words)} without {missing}",
                       run([f"{TOOLS}/{tool}", *words], PATH=folder), 127, missing)
        shutil.rmtree(folder)
    expect_refused("what-if without the program", run([f"{TOOLS}/what-if", "."], KUBELET_REPLAY="/nonexistent/program"),
                   127, "/nonexistent/program is missing")
