"""The tests of why instances died and containers waited: of recordings that have it, and of reports alone."""

import json
import os
import re
import shutil
import sqlite3
import tempfile
import xml.dom.minidom

import cases
from checks import HERE, TOOLS, TOP, expect, expect_kept, read, replayed, run
from test_json import SCHEMA, jsonschema
from test_record import Recorder

from replay_tools import traces

load_tests = cases.loaded(__name__)

PLAYED = f"{HERE}/recordings/reasons"
RECORDED = f"{TOP}/examples/recorded/out_of_memory"
MEMBERS = ("reason", "message", "ended")


def played(tool, *words):
    return run([f"{TOOLS}/{tool}", *words], read(f"{PLAYED}/report"))


def without_reasons(text):
    """A trace without what the formats do not read of its entries."""
    lines = []
    for line in map(json.loads, text.splitlines()):
        for entry in line.get("pods", ()):
            entry.pop("waiting", None)
            entry["containers"] = [{name: value for name, value in listed.items() if name not in MEMBERS}
                                   for listed in entry["containers"]]
        # an entry in which nothing is left but a pod's key
        if "pods" in line:
            line["pods"] = [entry for entry in line["pods"] if len(entry) > 2 or entry["containers"]]
        lines.append(json.dumps(line, separators=(",", ":")) + "\n")
    return "".join(lines)


def test_reasons_are_not_read():
    """The report is the same, byte for byte, with and without them."""
    for name, path in (("played", f"{PLAYED}/trace"), ("real", f"{RECORDED}.trace")):
        with_them, without = read(path), without_reasons(read(path))
        expect(f"reasons, {name}: they are there", ("OOMKilled" in with_them, "OOMKilled" in without), (True, False))
        expect(f"reasons, {name}: the report without them", replayed(without), replayed(with_them))


def test_recorded_example():
    """The example is what the recorder makes of the answers of a real kubelet."""
    recorder = Recorder("real_out_of_memory")
    status, trace, _ = recorder.whole()
    recorder.clean()
    expect("the recorded example: status", status, 0)
    expect_kept("the recorded example: its trace", trace, f"{RECORDED}.trace")
    expect_kept("the recorded example: its report", replayed(trace)[1], f"{RECORDED}.report")


def test_stories_of_reasons():
    """What is shown of each pod: with the trace why it died and waited, and without it no more than is known."""
    for name, words in (("reasons_list", ["--trace", f"{PLAYED}/trace"]), ("reasons_list_alone", [])):
        status, told, said = played("story", *words)
        expect(f"story: {name}", (status, said), (0, ""))
        expect_kept(f"story: {name}: the text", told, f"{HERE}/stories/{name}")
    for pod in ("command", "image", "late", "loop"):
        status, told, said = played("why", f"shop/{pod}", "--trace", f"{PLAYED}/trace")
        expect(f"why of {pod}, with reasons", (status, said), (0, ""))
        expect_kept(f"why of {pod}, with reasons: the text", told, f"{HERE}/stories/why_reasons_{pod}")
    told = run([f"{TOOLS}/story", "--utc", "shop/oom", "--trace", f"{RECORDED}.trace", "--without-why"],
               read(f"{RECORDED}.report"))[1]
    expect_kept("story of a real kill for memory", told, f"{HERE}/stories/reasons_real")
    told = run([f"{TOOLS}/kubelet-replay", "why", "-f", f"{RECORDED}.trace", "oom"])[1]
    expect("why of a real kill for memory", told.count(
        "OOM-killed because it came to its memory limit, 32Mi (resources.limits.memory); the node had "), 4)
    told = run([f"{TOOLS}/story", "shop/oom"], read(f"{RECORDED}.report"))[1]
    expect("story of it without the trace", (told.count("died with code 137: killed, or unknown"), "OOM" in told),
           (5, False))


DEATHS = [["shop/command", 128, True, "StartError"], ["shop/loop", 1, True, "Error"],
          ["shop/late", 137, True, "OOMKilled"], ["shop/oom", 137, True, "OOMKilled"],
          ["shop/loop", 137, True, "Error"]]
CAUSES = [
    ["shop/command", "died", "StartError", 128, 1, None],
    ["shop/config", "waited", "CreateContainerConfigError", None, 1, 20],
    ["shop/image", "waited", "ErrImagePull", None, 1, 9], ["shop/image", "waited", "ImagePullBackOff", None, 1, 8],
    ["shop/late", "died", "OOMKilled", 137, 1, None], ["shop/loop", "died", "Error", 1, 1, None],
    ["shop/loop", "died", "Error", 137, 1, None], ["shop/loop", "waited", "CrashLoopBackOff", None, 1, 8],
    ["shop/oom", "died", "OOMKilled", 137, 1, None],
]


def test_json_of_reasons():
    lines = [json.loads(line) for line in played("json", "--trace", f"{PLAYED}/trace")[1].splitlines()]
    died = [[line[name] for name in ("pod", "code", "code_is_known", "reason")] for line in lines
            if line.get("event") == "died"]
    expect("json: deaths", died, DEATHS)
    causes = [[line[name] for name in ("pod", "cause", "reason", "code", "times", "seconds")] for line in lines
              if line["record"] == "cause"]
    expect("json: causes", sorted(causes, key=str), sorted(CAUSES, key=str))
    if jsonschema is not None:
        validator = jsonschema.Draft7Validator(json.loads(read(SCHEMA)))
        expect("json: reasons, by the schema", [line for line in lines if not validator.is_valid(line)], [])
    plain = [json.loads(line) for line in played("json")[1].splitlines()]
    expect("json without the trace: no reason", [line for line in plain if line["record"] == "cause"
                                                 or (line.get("event") == "died" and "reason" in line)], [])
    vanished = run([f"{TOOLS}/json", "--trace", f"{TOP}/examples/vanished.trace"],
                   read(f"{TOP}/examples/vanished.report"))[1]
    [death] = [line for line in map(json.loads, vanished.splitlines()) if line.get("event") == "died"]
    expect("json: a code that nobody knows", (death["code"], death["code_is_known"]), (137, False))
    folder = tempfile.mkdtemp()
    played("json", "--trace", f"{PLAYED}/trace", "--sqlite", f"{folder}/db")
    connection = sqlite3.connect(f"{folder}/db")
    rows = connection.execute("SELECT reason, SUM(times) FROM causes WHERE cause = 'died' GROUP BY reason").fetchall()
    connection.close()
    shutil.rmtree(folder)
    expect("json --sqlite: causes", rows, [("Error", 2), ("OOMKilled", 2), ("StartError", 1)])


def test_pictures_of_reasons():
    """Why a container waits is in its lane, where there is room for it, and why it died in its bar."""
    picture = xml.dom.minidom.parseString(played("timeline", "--seconds", "--trace", f"{PLAYED}/trace")[1])
    titles = [title.firstChild.data for title in picture.getElementsByTagName("title")]
    expect("timeline: a bar with a reason", [title for title in titles if "OOMKilled, its memory limit" in title],
           ["app: attempt 0 terminated with code 137: OOMKilled, its memory limit is 32Mi, 1767225608 to 1767225609"])
    texts = [text.firstChild.data for text in picture.getElementsByTagName("text") if text.hasAttribute("style")]
    expect("timeline: exits and waits in the lanes", texts, [
        "128 StartError", "CreateContainerConfigError", "ErrImagePull", "ImagePullBackOff", "137 OOMKilled", "1",
        "CrashLoopBackOff"])
    page = played("page", f"{PLAYED}/trace")[1]
    data = json.loads(re.search(r'<script type="application/json" id="data">(.*?)</script>', page, re.S)[1])
    image = next(pod for pod in data["podList"] if pod["key"] == "shop/image")
    expect("page: waits", [[*wait[:3], data["waits"][wait[3]].split(":")[0]] for wait in image["waits"]],
           [[0, 0, 9, "ErrImagePull"], [0, 9, 17, "ImagePullBackOff"]])
    expect("page: causes", [cause[0] for cause in data["causes"] if "OOM" in cause[0]],
           ["OOMKilled, it has no memory limit", "OOMKilled, its memory limit is 32Mi"])


ODD = (5, None, "x", [], {}, [None], ["x"], [{"container": 1, "reason": "a"}], [{"container": "app"}],
       {"reason": 5}, {"attempt": "x", "exitCode": 1}, {"exitCode": True})


def test_odd_reasons():
    """What has another shape shows nothing, since the formats do not read it; an escape is shown as one."""
    node = ('{"kind":"node","name":"n1"}\n'
            '{"kind":"pod","pod":{"metadata":{"name":"a"},"spec":{"containers":[{"name":"app"}]}}}\n')
    listed = {"name": "app", "attempt": 1, "state": "CONTAINER_EXITED", "exitCode": 1}
    for odd in ODD:
        for fields in ({"waiting": odd}, {"containers": [{**listed, "reason": odd}]},
                       {"containers": [{**listed, "ended": odd, "reason": "Error", "message": odd}]}):
            tick = {"kind": "tick", "at": 1, "pods": [{"pod": "default/a", "containers": [listed], **fields}]}
            found = traces.trace_of(f"{node}{json.dumps(tick)}\n".encode(), "it").reasons
            said = [end for end in found.ends.values() if end.reason not in ("Error", "x", None)]
            expect(f"reasons: {json.dumps(fields)[:80]}", (said, found.waits), ([], {}))
    tick = {"kind": "tick", "at": 1, "pods": [{"pod": "default/a", "containers": [{**listed, "reason": "a\x1b[31m"}]}]}
    [end] = traces.trace_of(f"{node}{json.dumps(tick)}\n".encode(), "it").reasons.ends.values()
    expect("reasons: an escape byte", end.reason, "a\\x1b[31m")


def test_reasons_hold_no_environment():
    """A message has no value of a container's environment, and is cut; test_secrets has each other place."""
    trace = read(f"{PLAYED}/trace")
    expect("reasons: no value of the environment", ("hunter-2" in read(f"{PLAYED}/play.json"), "hunter-2" in trace),
           (True, False))
    messages = re.findall(r'"message":"((?:[^"\\]|\\.)*)"', trace)
    expect("reasons: short messages", (len(messages) > 3, max(len(json.loads(f'"{text}"')) for text in messages) > 200),
           (True, False))
    expect("reasons: the folder of examples", sorted(os.listdir(f"{TOP}/examples/recorded")),
           ["out_of_memory.report", "out_of_memory.trace"])
