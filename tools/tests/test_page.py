"""The tests of tools/page: what a page is made of, what is rejected, and pages driven in headless Chromium where that
and python3-selenium are there."""

import json
import os
import re
import shutil
import subprocess
import sys
import tempfile

import big_node
import cases
import test_said
from checks import HERE, LONGEST, TOOLS, TOP, expect, expect_refused, read, run
from joined_plays import Folder

import processes

load_tests = cases.loaded(__name__)

NODE = f"{HERE}/whys/file_system"
PROBES = f"{HERE}/whys/probes"
KUBELET = f"{HERE}/whys/kubelet"
REASONS = f"{HERE}/recordings/reasons"
REBOOTED = f"{HERE}/whys/rebooted"
BEGIN = 1795730000
ENDS = f"{HERE}/summaries"
AGAIN = f"{TOP}/crates/case_runner/data/traces/extended"
PODS, TICKS = 256, 20000
# of the page of this many pods and ticks
MOST_BYTES = 6000000


def page_of(report, *words):
    return run([f"{TOOLS}/page", *words], report)


def data_in(page):
    """What a page shows, as its scripts read it."""
    return json.loads(re.search(r'<script type="application/json" id="data">(.*?)</script>', page, re.S)[1])


def test_page_is_one_file():
    for name, answer in (("with a trace", page_of(read(f"{NODE}/report"), f"{NODE}/trace")),
                         ("without a trace", page_of(read(f"{NODE}/report")))):
        status, page, said = answer
        expect(f"page {name}", (status, said, page.startswith("<!DOCTYPE html>"), page.endswith("</html>\n")),
               (0, "", True, True))
        outside = re.findall(r"""(?:src|href)\s*=|@import|url\(|https?:""", page)
        expect(f"page {name}: no outside part", outside, [])
        expect(f"page {name}: nothing is left to fill in", re.findall(r"\{\{\w*\}\}", page), [])


def test_page_data():
    """Of whys/probes, counted manually."""
    data = data_in(page_of(read(f"{PROBES}/report"), f"{PROBES}/trace")[1])
    [pod] = data["podList"]
    expect("page: the span", (data["first"], data["last"], data["ticks"]), (0, 700, 14))
    expect("page: the steps of ticks", data["tickSteps"], [0, 1, 5, 10, 10, 1, 5, 1, 635, 1])
    expect("page: states", pod["containers"][0]["states"],
           [0, 0, 0, 0, 5, 1, 0, 0, 40, 1, 1, 0, 5, 2, 1, 3, 15, 1, 2, 0, 635, 2, 2, 0])
    expect("page: Ready", pod["ready"], [[0, 0], [20, 1], [35, 0]])
    died = data["words"].index("died")
    deaths = [event[3:] for event in pod["events"] if event[2] == died]
    expect("page: deaths with their exits and runs, and why", deaths, [[0, 137, 1, 40, 0], [1, 3, 2, 5],
                                                                       [2, 0, 1, 635]])
    expect("page: why", data["causes"], [["it was no longer listed, its own code is not known"]])
    readiness = next(probe for probe in pod["probes"] if probe[1] == "readiness")
    expect("page: a probe", readiness, [0, "readiness", 2, 2, 0, 5, [15, 5, 2, 0, 5, 0, 1, 2, 5, 5, 2, 1]])
    expect("page: a listing", pod["listings"][0][:12], [0, 0, 0, 0, 5, 0, 1, 0, 40, 1, 1, 0])


def test_page_tells_events_as_why_does():
    """The table of words that the page has gives the sentences of tools/why."""
    for folder in (NODE, PROBES, KUBELET, REASONS):
        data = data_in(page_of(read(f"{folder}/report"), f"{folder}/trace")[1])
        for pod in data["podList"]:
            heads = run([f"{TOOLS}/why", "--seconds", pod["key"], "--trace", f"{folder}/trace"], read(f"{folder}/report"))[1]
            told = re.findall(r"^\d+  (.*)$", heads, re.M)
            expect(f"page: events of {pod['key']} in the words of why", [each for each in told_in(data, pod)
                                                                       if each not in told], [])


def told_in(data, pod):
    """The events of a pod as decode.js writes them."""
    for number, (_, place, word, *rest) in enumerate(pod["events"]):
        fields, sentence = data["told"][data["words"][word]]
        why = f": {data['causes'][rest[4]][0]}" if len(rest) > 4 else ""
        given = {**dict(zip(fields, rest)), "why": why}
        name = f"{pod['containers'][place]['name']} " if place >= 0 else ""
        note = pod.get("notes", {}).get(str(number), "")
        yield name + (sentence + (data["toldAttempt"] if "attempt" in given else "")).format(**given) + note


def test_page_of_pods_of_one_name():
    """From the report alone a pod is gone by the first tick of the next one of its name; with the trace by the first
    tick without it, and it is known whether it had a tick at all."""
    again = f"{HERE}/recordings/names_come_again_extended"
    for words, gone in (([f"{again}/trace"], [7, 14, 14, 15, None]), ([], [7, None, None, 15, None])):
        found = data_in(page_of(read(f"{again}/report"), *words)[1])["podList"]
        expect(f"page: when pods were gone, with {len(words)} traces", [pod["gone"] for pod in found], gone)
    expect("page: unready seconds of pods of one name", [pod["unready"] for pod in found if pod["key"] == "shop/db-0"],
           [3, 3, 0])
    between = f"{AGAIN}/pod_that_comes_and_goes_between_two_ticks"
    found = data_in(page_of(read(f"{between}.report"), f"{between}.trace")[1])["podList"]
    firsts = [[pod["key"], pod["first"]] for pod in found]
    expect("page: a pod without a tick", firsts, [["shop/a", 0], ["shop/b", None]])


def test_page_escapes():
    """Names that would be markup, in the page's text and in its data."""
    report = read(f"{TOP}/examples/crash_loop.report").replace("node worker-3", "node </script><b>&amp;")
    status, page, said = page_of(report.replace("shop/api-7f9c", "shop/<!--<script>"))
    expect("a page of odd names", (status, said), (0, ""))
    expect("odd names are no markup", [words in page for words in ("</script><b>", "<!--<script>", "<b>&amp;")],
           [False] * 3)
    data = data_in(page)
    expect("odd names are names", (data["node"], data["podList"][0]["key"]), ("</script><b>&amp;", "shop/<!--<script>"))


def test_page_of_nothing():
    empty = "node n1 pods=0 ticks=0\n" + "".join(f"nodecondition {kind}Pressure False 0\n" for kind in
                                                ("Memory", "Disk", "PID")) + "totals updates=0 events=0 orders=0\n"
    status, page, said = page_of(empty)
    expect("a page of a node without pods", (status, said, data_in(page)["podList"]), (0, "", []))


def test_refused_pages():
    report = read(f"{NODE}/report")
    for name, answer, words in (
        ("no report", page_of("no report\n"), "line 1 "),
        ("a trace that is not there", page_of(report, "/nonexistent"), "can't be read"),
        ("another trace", page_of(report, f"{PROBES}/trace"), "does not belong to the report"),
        ("two traces", page_of(report, "a", "b"), "one trace, not 2"),
        ("a strange word", page_of(report, "--wide"), "--wide is no known argument"),
    ):
        expect_refused(f"page of {name}", answer, 2, words)
    folder = tempfile.mkdtemp()
    with open(f"{folder}/trace", "w") as file:
        file.write(read(f"{NODE}/trace").replace('"result"', '"outcome"').replace('"containers":[]', '"containers":7'))
    expect_refused("page of a trace with a strange tick", page_of(report, f"{folder}/trace"), 2,
                   "is no line of a trace there")
    shutil.rmtree(folder)


def test_page_of_use():
    """What containers used, with the moments of the samples, once each, next to their bounds; nothing of a pod or a
    trace that does not have it."""
    pods = {pod["key"]: pod for pod in data_in(page_of(read(f"{REBOOTED}/report"), f"{REBOOTED}/trace")[1])["podList"]}
    app, proxy = pods["shop/web"]["used"]
    expect("page: samples", (app["columns"], app["uses"]), (5, [
        0, 0, 20 << 20, 80, 0, 9, 0, 40 << 20, 450, 2500, 11, 0, 61 << 20, 500, 9300, 16, 1, 30 << 20, 120, 100,
        69, 2, 22 << 20, 90, 0]))
    expect("page: bounds", app["bounds"], [[None, 32 << 20, 64 << 20, 100, 500, False]])
    expect("page: a container without a sample", proxy, None)
    [db] = pods["shop/db"]["used"]
    expect("page: samples without throttling", (db["columns"], db["uses"]),
           (4, [10, 0, 8 << 20, 3, 26, 0, 9 << 20, 4]))
    expect("page: a pod without a sample", "used" in pods["shop/job"], False)
    for words in ([f"{NODE}/trace"], []):
        found = data_in(page_of(read(f"{NODE}/report"), *words)[1])["podList"]
        expect("page: a trace without a sample", [pod["key"] for pod in found if "used" in pod], [])


def drawn_of(path, *words):
    """What node draws and prints of a page's story of a pod."""
    done = subprocess.run(["node", f"{HERE}/drawn.js", path, *words], capture_output=True, text=True, check=False,
                          timeout=LONGEST)
    expect(f"node draws {' '.join(words)[:40]}", (done.returncode, done.stderr), (0, ""))
    return json.loads(done.stdout)


def test_page_says_what_the_kubelet_did():
    """The page's sentences on an eviction are the story's: what was not seen is not shown as what did not happen."""
    if shutil.which("node") is None:
        print("left out: what a page prints of an eviction, since node is missing")
        return
    report, trace = read(f"{ENDS}/report"), f"{ENDS}/trace"
    with tempfile.TemporaryDirectory() as folder:
        path = f"{folder}/page.html"
        with open(path, "w", encoding="utf-8") as file:
            file.write(page_of(report, "--seconds", trace)[1])
        for pod in ("named", "hog", "late"):
            told = run([f"{TOOLS}/story", "--seconds", f"shop/{pod}", "--trace", trace, "--without-why"], report)[1]
            words = [line for line in drawn_of(path, f"shop/{pod}", "light", "0")["words"] if
                     re.match("the kubelet|the rules", line)]
            expect(f"the page of {pod}", (words != [], [each for each in words if each not in told.split("\n")]),
                   (True, []))


def test_page_draws_use():
    """Next to the story of a pod, in both themes, the lines of its memory and processor time with request and limit,
    and what a pointer at them shows."""
    if shutil.which("node") is None:
        print("left out: what a page draws of memory and processor time, since node is missing")
        return
    with tempfile.TemporaryDirectory() as folder:
        path = f"{folder}/page.html"
        with open(path, "w", encoding="utf-8") as file:
            file.write(page_of(read(f"{REBOOTED}/report"), "--seconds", f"{REBOOTED}/trace")[1])
        for theme in ("light", "dark"):
            found = drawn_of(path, "shop/web", theme, str(BEGIN + 8), str(BEGIN + 21), str(BEGIN + 70))
            expect_use_drawn(theme, found)
        expect("a page draws nothing without a sample", drawn_of(path, "shop/job", "light", "0")["charts"], [])


def expect_use_drawn(theme, found):
    expect(f"{theme}: what is said of a container", found["said"], [
        f"app: memory at most 61Mi at {BEGIN + 20}, 95% of its limit 64Mi, request 32Mi; processor at most 0.5 cores "
        f"at {BEGIN + 20}, 100% of its limit 0.5 cores, request 0.1 cores; throttled for 9.4 s in all (shaded)"])
    memory, processor = found["charts"]
    expect(f"{theme}: where one points at it", memory["tips"], [
        f"{BEGIN + 9}\napp, attempt 0\nmemory 40Mi, 63% of its limit 64Mi, request 32Mi\n"
        f"processor 0.45 cores, 90% of its limit 0.5 cores, request 0.1 cores\nthrottled for 2.5 s since {BEGIN}",
        f"{BEGIN + 20}\napp, attempt 0\nmemory 61Mi, 95% of its limit 64Mi, request 32Mi\n"
        f"processor 0.5 cores, 100% of its limit 0.5 cores, request 0.1 cores\nthrottled for 6.8 s since {BEGIN + 9}",
        f"{BEGIN + 36}\napp, attempt 1\nmemory 30Mi, 47% of its limit 64Mi, request 32Mi\n"
        "processor 0.12 cores, 24% of its limit 0.5 cores, request 0.1 cores"])
    signal, hard, soft, shade = (found["colours"][name] for name in ("signal", "hard", "soft", "shade"))
    names = [each[1:] for each in memory["drawn"] if each[0] == "text"]
    expect(f"{theme}: names", ([words for _, words in names[:2]], names[2:]),
           (["memory of app", "0 to 64Mi"], [[hard, "limit 64Mi"], [soft, "request 32Mi"]]))
    line = next(each[2] for each in memory["drawn"] if each[:2] == ["stroke", signal])
    expect(f"{theme}: a line for each instance", [what for what, _, _ in line],
           ["move", "line", "line", "move", "move"])
    # of 88 pixels 4 are below and 6 above, and 0 to 64Mi with a little more have the others
    expect(f"{theme}: its heights", [round(88 - 4 - amount / 64 / 1.06 * 78, 3) for amount in (20, 40, 61, 30, 22)],
           [round(y, 3) for _, _, y in line])
    tops = [next(each[2][0][2] for each in memory["drawn"] if each[:2] == ["stroke", colour] and len(each[2]) == 2
                 and each[2][0][2] == each[2][1][2]) for colour in (hard, soft)]
    expect(f"{theme}: limit and request", tops, [10.5, 47.5])
    boxes = [each[2] for each in processor["drawn"] if each[:2] == ["box", shade]]
    expect(f"{theme}: the share of throttling", [round(box[3] / 72, 3) for box in boxes],
           [round(2.5 / 9, 3), round(6.8 / 11, 3)])


def selenium_python():
    """A python3 that has selenium, and chromedriver with its browser; None where one is missing."""
    chromedriver = shutil.which("chromedriver")
    if not chromedriver or not (shutil.which("chromium") or shutil.which("google-chrome")):
        return None
    for python in (sys.executable, "/usr/bin/python3"):
        if os.path.exists(python) and subprocess.run([python, "-c", "import selenium"], capture_output=True,
                                                     check=False).returncode == 0:
            return python, chromedriver
    return None


def page_of_said():
    said = test_said.OF_JOURNAL | test_said.OF_POD
    with tempfile.TemporaryDirectory() as folder:
        return page_of(read(f"{test_said.EXAMPLE}.report"), test_said.trace_with(said, folder))


def page_of_gap():
    with Folder() as folder:
        os.remove(folder.place(40))
        status, page, _ = folder.tell("page")
        return status, page, ""


def write_pages(folder):
    report = read(f"{NODE}/report")
    odd = read(f"{TOP}/examples/crash_loop.report").replace("worker-3", "</script><script>document.title='x'</script>")
    pages = {
        "node": page_of(report, f"{NODE}/trace"), "plain": page_of(report),
        "odd": page_of(odd.replace("shop/api-7f9c", "shop/<img/src=x/onerror=document.title='x'>")),
        "again": page_of(read(f"{AGAIN}/evicted_pod_comes_again_and_is_evicted_again.report")),
        "kubelet": page_of(read(f"{KUBELET}/report"), f"{KUBELET}/trace"),
        "ends": page_of(read(f"{ENDS}/report"), f"{ENDS}/trace"),
        "reasons": page_of(read(f"{REASONS}/report"), f"{REASONS}/trace"),
        "gap": page_of_gap(), "said": page_of_said(),
        "big": page_of("".join(big_node.report_of(PODS, TICKS, PODS))),
    }
    for name, (status, page, said) in pages.items():
        expect(f"page {name} for the browser", (status, said), (0, ""))
        with open(f"{folder}/{name}.html", "w", encoding="utf-8") as file:
            file.write(page)
    expect(f"the page of {PODS} pods by {TICKS} ticks is small", len(pages["big"][1]) < MOST_BYTES, True)


def test_page_in_a_browser():
    found = selenium_python()
    if found is None:
        print("left out: pages in a browser, since chromium, chromium-driver or python3-selenium is missing")
        return
    folder = tempfile.mkdtemp()
    write_pages(folder)
    done = subprocess.run([found[0], f"{HERE}/browser.py", folder, found[1]], capture_output=True, text=True,
                          check=False, timeout=LONGEST)
    for line in done.stdout.split("\n")[:-1]:
        name, got, wanted = json.loads(line)
        expect(f"in a browser: a page {name}", got, wanted)
    if done.returncode == 0:
        print(done.stderr.strip(), file=sys.stderr)
    expect("the browser's tests end", (done.returncode, done.stderr if done.returncode else ""), (0, ""))
    shutil.rmtree(folder)


def test_page_of_a_great_trace():
    """A trace of 256 pods by 20,000 ticks, six pods at a time, becomes a page within a minute of a processor."""
    folder, began = tempfile.mkdtemp(), processes.children_seconds()
    with open(f"{folder}/trace", "w") as file:
        file.writelines(big_node.trace_of(PODS, TICKS, 6))
    status, page, said = page_of("".join(big_node.report_of(PODS, TICKS, 6)), f"{folder}/trace")
    expect("the page of a great trace", (status, said, len(page) < MOST_BYTES), (0, "", True))
    expect("the page of a great trace: its processor seconds", processes.children_seconds() - began < 60, True)
    shutil.rmtree(folder)
