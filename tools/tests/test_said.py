"""The tests of how the tools show what the kubelet reported: next to a kill by a probe, and by its moment; of traces
from a journal and of recordings with Events."""

import json
import re
import tempfile
import xml.dom.minidom

import cases
from checks import TOOLS, TOP, expect, read, run

load_tests = cases.loaded(__name__)

EXAMPLE = f"{TOP}/examples/liveness_kill"
OF_JOURNAL = {15: [{"at": 10, "container": "web", "reason": "Unhealthy", "probe": "liveness", "message": "HTTP 503"},
                   {"at": 15, "container": "web", "reason": "Killing", "why": "liveness", "grace": 5}]}
OF_EVENTS = {15: [{"at": 10, "container": "web", "reason": "Unhealthy",
                   "message": "Liveness probe failed: HTTP probe failed with statuscode: 503", "count": 2}],
             21: [{"at": 20, "reason": "BackOff", "messageLeftOut": True}]}
# of the pod itself, and of a container that it has not
OF_POD = {21: [{"at": 20, "reason": "FailedPostStartHook", "container": "other", "message": "exec: <b>"},
               {"at": 21, "reason": "BackOff", "message": "Back-off 10s"}]}
# what is none, each by another member
OF_NOTHING = {15: ["x", None, {"at": "10", "reason": "Unhealthy"}, {"at": 10 ** 30, "reason": "Unhealthy"},
                   {"at": 10, "reason": 5}, {"at": 10, "reason": "Unhealthy", "container": ["web"], "count": {},
                                             "grace": "x", "message": "\x1b[31mLiveness probe failed: x"}]}


def trace_with(said, folder):
    """The trace of the example in a folder, whose ticks have members of that name."""
    with open(f"{folder}/trace", "w", encoding="utf-8") as file:
        for line in map(json.loads, read(f"{EXAMPLE}.trace").splitlines()):
            if line.get("at") in said:
                line["pods"][0]["said"] = said[line["at"]]
            file.write(json.dumps(line) + "\n")
    return f"{folder}/trace"


def told_of(said, tool):
    """What a tool prints of the example with that."""
    with tempfile.TemporaryDirectory() as folder:
        status, told, faults = run([f"{TOOLS}/{tool}", "shop/web-0", "--trace", trace_with(said, folder)],
                                   read(f"{EXAMPLE}.report"))
        expect(f"{tool} of what was said", (status, faults), (0, ""))
        return [" ".join(line.split()) for line in told.splitlines()]


def test_said():
    """What a probe put out is next to the kill order, and each thing by its moment."""
    for name, said, output, rows in (
        ("a journal", OF_JOURNAL, "HTTP 503", ["10 web {}said: Unhealthy, liveness: HTTP 503",
                                               "15 web {}said: Killing, liveness, grace period 5 s"]),
        ("Events", OF_EVENTS, "HTTP probe failed with statuscode: 503", [
            "10 web {}said: Unhealthy, 2 times: Liveness probe failed: HTTP probe failed with statuscode: 503"])):
        for tool, attempt, dash in (("story", "0 ", "- "), ("why", "", "")):
            told = told_of(said, tool)
            kill = f"15 web {attempt}kill order: liveness ({output}){'' if attempt else ' (attempt 0)'}"
            wanted = [kill, *(row.format(dash) for row in rows)]
            expect(f"{tool}: what {name} said", [row for row in wanted if row in told], wanted)
    told = told_of(OF_NOTHING, "story")
    expect("story: what is none is not told", [line for line in told if " - said: " in line],
           ["10 - - said: Unhealthy: \\x1b[31mLiveness probe failed: x"])


def drawn_of(said, tool, *words):
    """The page, or the picture, of the example."""
    with tempfile.TemporaryDirectory() as folder:
        status, drawn, faults = run([f"{TOOLS}/{tool}", *words, trace_with(said, folder)], read(f"{EXAMPLE}.report"))
        expect(f"{tool} of what was said", (status, faults), (0, ""))
        return drawn


def data_in(page):
    return json.loads(re.search(r'<script type="application/json" id="data">(.*?)</script>', page, re.S)[1])


def test_page_of_what_was_said():
    """The page has it by its moment and its container, and what a probe put out next to the kill order."""
    data = data_in(drawn_of(OF_JOURNAL | OF_POD, "page"))
    [pod] = data["podList"]
    told = sorted([at, place, data["saids"][words]] for at, place, words in pod["said"])
    expect("page: what was said", told, [
        [10, 0, "said: Unhealthy, liveness: HTTP 503"], [15, 0, "said: Killing, liveness, grace period 5 s"],
        [20, -1, "said: FailedPostStartHook: exec: <b>"], [21, -1, "said: BackOff: Back-off 10s"]])
    kill = data["words"].index("kill")
    places = [str(place) for place, event in enumerate(pod["events"]) if event[2] == kill]
    expect("page: what a probe put out", [pod["more"].get(place) for place in places], [" (HTTP 503)"])
    [pod] = data_in(drawn_of({}, "page"))["podList"]
    expect("page: of nothing said there is nothing", "said" in pod or "more" in pod, False)


def test_picture_of_what_was_said():
    """A mark below the lane of its container, or below the lane of Ready, with its words; and next to the kill
    order."""
    picture = drawn_of(OF_JOURNAL | OF_POD, "timeline", "--trace")
    xml.dom.minidom.parseString(picture)
    titles = re.findall(r"<title>(.*?)</title>", picture)
    wanted = ["10 said: Unhealthy, liveness: HTTP 503", "15 said: Killing, liveness, grace period 5 s",
              "20 said: FailedPostStartHook: exec: &lt;b&gt;", "21 said: BackOff: Back-off 10s",
              "web: kill order at 15 (liveness) (HTTP 503)"]
    expect("timeline: what was said", [each for each in wanted if each not in titles], [])
    expect("timeline: its legend", ">reported of it<" in picture, True)
    texts = re.findall(r'<text [^>]*style[^>]*>([^<]*)<', picture)
    expect("timeline: the probe of a kill is there without a title", "liveness" in texts, True)
    expect("timeline: it ends with the trace", re.findall(r'class="title">([^<]*)<', picture), ["worker-3, 0 to 26 s"])
    expect("timeline: of nothing said there is nothing", "said" in drawn_of({}, "timeline", "--trace"), False)


def test_moments_within_a_second():
    """A start and an exit that the kubelet's next look found."""
    text = read(f"{EXAMPLE}.trace")
    for name in ('"CONTAINER_EXITED","exitCode":137', '"attempt":1,"state":"CONTAINER_RUNNING"'):
        text = text.replace(name, f'{name},"guessed":["moment"]', 1)
    with tempfile.TemporaryDirectory() as folder:
        with open(f"{folder}/trace", "w", encoding="utf-8") as file:
            file.write(text)
        for tool in ("story", "why"):
            told = run([f"{TOOLS}/{tool}", "shop/web-0", "--trace", f"{folder}/trace"], read(f"{EXAMPLE}.report"))[1]
            marked = [" ".join(line.split()[:1]) for line in told.partition("\nwhy ")[0].splitlines()
                      if "(within a second)" in line and "killed by" not in line or "(within a second); killed" in line
                      or "(within a second) (attempt 0); killed" in line]
            expect(f"{tool}: moments within a second", [place for place in marked if place in ("20", "21")][:2],
                   ["20", "21"])
        lines = run([f"{TOOLS}/json", "--trace", f"{folder}/trace"], read(f"{EXAMPLE}.report"))[1].splitlines()
        guessed = [(each["event"], each["at"]) for each in map(json.loads, lines)
                   if each.get("moment_is_known") is False]
        expect("json: moments within a second", guessed, [("died", 20), ("started", 21)])
        [pod] = data_in(run([f"{TOOLS}/page", f"{folder}/trace"], read(f"{EXAMPLE}.report"))[1])["podList"]
        expect("page: moments within a second", list(pod["more"].values()), [" (within a second)"] * 2)


def test_exits_that_no_line_has():
    """An exit that only what came after it shows has happened by its moment, and is not shown as seen there."""
    text, report = read(f"{EXAMPLE}.trace"), read(f"{EXAMPLE}.report")
    exited = '"CONTAINER_EXITED","exitCode":137'
    text = text.replace(exited, f'{exited},"guessed":["exitCode","exit"]')
    with tempfile.TemporaryDirectory() as folder:
        with open(f"{folder}/trace", "w", encoding="utf-8") as file:
            file.write(text)
        for tool in ("story", "why"):
            told = run([f"{TOOLS}/{tool}", "shop/web-0", "--trace", f"{folder}/trace"], report)[1]
            expect(f"{tool}: an exit that no line has", ("died, code unknown (by then: no line has the exit)" in told,
                                                        "within a second" in told), (True, False))
        [died] = [each for each in map(json.loads, run([f"{TOOLS}/json", "--trace", f"{folder}/trace"],
                                                       report)[1].splitlines()) if each.get("event") == "died"]
        expect("json: an exit that no line has", (died["code"], died["moment_is_known"]), (None, False))
        [pod] = data_in(run([f"{TOOLS}/page", f"{folder}/trace"], report)[1])["podList"]
        expect("page: an exit that no line has", list(pod["more"].values()), [" (by then: no line has the exit)"])


def test_what_is_guessed_after_a_gap():
    """A pod that no line after a gap names is not shown as one that is known to run."""
    text, report = read(f"{EXAMPLE}.trace").splitlines(keepends=True), read(f"{EXAMPLE}.report")
    text[-1] = text[-1].replace('"CONTAINER_RUNNING"', '"CONTAINER_RUNNING","guessed":["state"]')
    wanted = "what it did at 26 is guessed, as before a gap: no line after it has the pod"
    with tempfile.TemporaryDirectory() as folder:
        with open(f"{folder}/trace", "w", encoding="utf-8") as file:
            file.writelines(text)
        for tool in ("story", "why"):
            told = run([f"{TOOLS}/{tool}", "shop/web-0", "--trace", f"{folder}/trace"], report)[1]
            expect(f"{tool}: what is guessed after a gap", wanted in told.splitlines(), True)
        lines = run([f"{TOOLS}/json", "--trace", f"{folder}/trace"], report)[1].splitlines()
        [pod] = [each for each in map(json.loads, lines) if each["record"] == "pod"]
        expect("json: what is guessed after a gap", pod["state_is_guessed_at"], 26)
        [pod] = data_in(run([f"{TOOLS}/page", f"{folder}/trace"], report)[1])["podList"]
        expect("page: what is guessed after a gap", pod["doubted"], 26)
