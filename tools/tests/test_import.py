"""The tests of tools/import: lines of a kubelet from 1.21 on and of runtimes, written manually after their sources, in
each form in which a journal is kept; manifests; and what is no journal. Holes and clocks are in test_import_gaps.py,
and what a real kubelet's log comes to is in test_import_real.py."""

import ast
import calendar
import glob
import gzip
import json
import os
import re
import shutil
import struct
import tempfile
import time

import cases
from checks import HERE, REPLAY, TOOLS, expect, expect_kept, expect_refused, read, run

load_tests = cases.loaded(__name__)

FOLDER = f"{HERE}/imported"
IMPORT = f"{TOOLS}/import"
HEADER = re.compile(r"([IWEF])(\d\d)(\d\d) ([\d:]+)\.(\d+) +(\d+) (\S+)\] ")
KEY = re.compile(r' (\w+)=("(?:[^"\\]|\\.)*"|\{[^}]*\}|\[[^\]]*\]|\S+)')
YEAR = 2026


def imported(*words, given="", pods=f"{FOLDER}/pods.yaml"):
    """What the importer answers, of the year in which the lines were written."""
    return run([IMPORT, "--year", str(YEAR), *(["--pods", pods] if pods else []), *words], given)


def lines_of(text):
    """The lines of a log of klog's text: each with its moment and the text after its header."""
    for line in text.splitlines():
        level, month, day, clock, fraction, process, place = (found := HEADER.match(line)).groups()
        second = calendar.timegm(time.strptime(f"{YEAR}-{month}-{day} {clock}", "%Y-%m-%d %H:%M:%S"))
        yield line, second, fraction, process, line[found.end():], place


def journald(text):
    return "".join(json.dumps({
        "__CURSOR": "s=1", "__REALTIME_TIMESTAMP": f"{second}{fraction}", "_HOSTNAME": "worker-3", "PRIORITY": "6",
        "SYSLOG_IDENTIFIER": "kubelet", "_PID": process, "MESSAGE": line}) + "\n"
        for line, second, fraction, process, _, _ in lines_of(text))


def exported(text):
    """One of its records has its message as bytes with their length."""
    made = b""
    for number, (line, second, fraction, process, _, _) in enumerate(lines_of(text)):
        data = line.encode()
        said = b"MESSAGE\n" + struct.pack("<Q", len(data)) + data if number % 2 else b"MESSAGE=" + data
        made += b"__CURSOR=s=1\n__REALTIME_TIMESTAMP=%d%s\n_PID=%s\n" % (second, fraction.encode(), process.encode())
        made += b"_HOSTNAME=worker-3\n" + said + b"\n\n"
    return made.decode("latin-1")


def short_iso(text):
    return "-- Journal begins --\n" + "".join(
        f"{stamp(second + 7200)}.{fraction}+0200 worker-3 kubelet[{process}]: {line}\n"
        for line, second, fraction, process, _, _ in lines_of(text))


def stamp(second):
    return time.strftime("%Y-%m-%dT%H:%M:%S", time.gmtime(second))


def of_container(text):
    return "".join(f"{stamp(second)}.{fraction}123Z stderr F {line}\n"
                   for line, second, fraction, *_ in lines_of(text))


def as_json(text):
    """`--logging-format json`: pods are objects there."""
    made = []
    for _, second, fraction, _, said, place in lines_of(text):
        message, _, keys = said[1:].partition('"')
        fields = {name: json_value(name, value) for name, value in KEY.findall(keys)}
        made.append(json.dumps({"ts": second * 1000 + int(fraction) / 1000, "caller": place, "msg": message, "v": 2,
                                **fields}) + "\n")
    return "".join(made)


def json_value(name, value):
    if name == "pod":
        namespace, _, pod = json.loads(value).partition("/")
        return {"name": pod, "namespace": namespace}
    return json.loads(value) if value[0] in '"[{' else int(value)


def without_text_forms(text):
    """Lines as kubelets 1.21 to 1.25 print an event, and lists without quotes."""
    event = r'event=\{"ID":"([^"]*)","Type":"([^"]*)","Data":"([^"]*)"\}'
    text = re.sub(event, r"event=&{ID:\1 Type:\2 Data:\3}", text)
    return re.sub(r'pods=\[([^\]]*)\]', lambda found: f"pods=[{found[1].replace(chr(34), '').replace(',', ' ')}]", text)


FORMS = {"journalctl -o json": journald, "journalctl -o export": exported, "journalctl -o short-iso-precise": short_iso,
         "a container's log": of_container, "--logging-format json": as_json, "1.21": without_text_forms}


def test_import_of_keyed_lines():
    """A crash, a kill by a liveness probe, an eviction and a deletion, as a kubelet from 1.21 on writes them."""
    status, trace, said = imported("--journal", f"{FOLDER}/keyed.log")
    expect("import of keyed lines", status, 0)
    expect_kept("import of keyed lines: the trace", trace, f"{FOLDER}/keyed.trace")
    expect_kept("import of keyed lines: what is said", said, f"{FOLDER}/keyed.said")
    expect("import of keyed lines: the program takes it", checked(trace), 0)


def test_import_of_failures_that_come_late():
    """On a busy node a probe's results come late: where a line reports that the failures led to a kill, none that has
    no line was a success between them, though a period passed without one; and the rule kills by them too."""
    lines = read(f"{FOLDER}/keyed.log").splitlines(keepends=True)
    [first] = [each for each in lines if each.startswith("I0301 10:00:30.0") and "Liveness" in each]
    early = [first.replace("10:00:30.0", "10:00:23.5") if each == first else each for each in lines]
    text = "".join(sorted(early, key=lambda each: each[1:20]))
    kill = "containerMessage="
    for name, given, wanted in (("", text, []), (", and no kill", "".join(
            each for each in text.splitlines(keepends=True) if kill not in each), [28])):
        status, trace, _ = imported(given=given)
        begun = json.loads(trace.splitlines()[1])["at"]
        found = [tick["at"] - begun for tick in map(json.loads, trace.splitlines()) if tick["kind"] == "tick"
                 for entry in tick["pods"] if entry["pod"] == "shop/web" for result in entry.get("probes") or []
                 if result["probe"] == "liveness" and result["result"] == "success" and 23 < tick["at"] - begun < 35]
        expect(f"import of late failures{name}: successes between them", (status, found), (0, wanted))


def checked(trace):
    """The status with which the program checks a trace."""
    return run([REPLAY, "check", "/dev/stdin", "--extended"], trace)[0]


def test_import_forms():
    """The same lines in each form make the same trace."""
    wanted, text = read(f"{FOLDER}/keyed.trace"), read(f"{FOLDER}/keyed.log")
    folder = tempfile.mkdtemp()
    for name, form in FORMS.items():
        with open(f"{folder}/journal", "w", encoding="latin-1") as file:
            file.write(form(text))
        node = [] if "json" not in name or "journalctl" in name else ["--node", "worker-3"]
        status, trace, said = imported("--journal", f"{folder}/journal", *node)
        expect(f"import of {name}", (status, said[:8]), (0, "import: "))
        expect(f"import of {name}: the trace", trace, wanted)
    expect("import of standard input", imported(given=text)[1], wanted)
    half = text.index("\n", len(text) // 2) + 1
    with gzip.open(f"{folder}/a", "wt") as file:
        file.write(text[half:])
    with open(f"{folder}/b", "w", encoding="utf-8") as file:
        file.write(text[:half])
    expect("import of two files, the later first", imported("--journal", f"{folder}/a", "--journal", f"{folder}/b")[1],
           wanted)
    shutil.rmtree(folder)


def test_import_into():
    """Traces one after the other have what the one trace has, each as the program takes it; the folder is made."""
    folder = tempfile.mkdtemp()
    status, out, _ = imported("--journal", f"{FOLDER}/keyed.log", "--into", f"{folder}/into", "--each", "1m")
    names = sorted(os.listdir(f"{folder}/into"))
    expect("import --into", (status, out, names), (0, "", [
        "worker-3.2026-03-01T10-00-00Z.trace.gz", "worker-3.2026-03-01T10-01-00Z.trace.gz"]))
    ticks = []
    for name in names:
        with gzip.open(f"{folder}/into/{name}", "rt", encoding="utf-8") as file:
            trace = file.read()
        expect(f"import --into: {name}", checked(trace), 0)
        ticks.append([line["at"] for line in map(json.loads, trace.splitlines()) if line["kind"] == "tick"])
    expect("import --into: where the one ends the next begins", ticks[0][-1] <= ticks[1][0], True)
    answer = imported("--journal", f"{FOLDER}/keyed.log", "--into", f"{folder}/into")
    expect_refused("import --into a folder that has traces", answer, 1, "has traces of worker-3 already")
    shutil.rmtree(folder)


# --- what a runtime writes ---

def listings_of(trace):
    """What the ticks list of containers, where it is another than before: (pod, container, attempt, state, code)."""
    last, found = {}, []
    for line in map(json.loads, trace.splitlines()):
        for entry in line.get("pods") or []:
            for each in entry.get("containers") or []:
                place = entry["pod"], each["name"]
                now = each["attempt"], each["state"].removeprefix("CONTAINER_"), each.get("exitCode")
                if last.get(place) != now:
                    found.append((line["at"], *place, *now, *each.get("guessed", ())))
                last[place] = now
    return found


def test_import_of_runtimes():
    """A runtime's journal alone has starts, and containerd's from 1.7 on exits with their codes; what is run in a
    container is none."""
    status, trace, _ = imported("--node", "worker-3", "--journal", f"{FOLDER}/containerd.log")
    expect("import of containerd", (status, listings_of(trace)), (0, [
        (1772359206, "shop/web", "app", 0, "RUNNING", None), (1772359220, "shop/web", "app", 0, "EXITED", 3),
        (1772359221, "shop/web", "app", 1, "RUNNING", None)]))
    status, trace, _ = imported("--node", "worker-3", "--journal", f"{FOLDER}/crio.log")
    expect("import of CRI-O", (status, listings_of(trace)), (0, [
        (1772359206, "shop/web", "app", 0, "RUNNING", None),
        (1772359220, "shop/web", "app", 0, "EXITED", 137, "exitCode")]))
    folder = tempfile.mkdtemp()
    with open(f"{folder}/containerd", "w", encoding="utf-8") as file:
        text = read(f"{FOLDER}/containerd.log").replace("000000a", "0" * 55 + "a")
        file.write(text.replace("0000f0f0", "0" * 56 + "f0f0"))
    beside = imported("--journal", f"{FOLDER}/keyed.log", "--journal", f"{folder}/containerd")[1]
    starts = [row for row in listings_of(beside) if row[1] == "shop/web" and row[4] == "RUNNING"]
    expect("import of both journals: starts are the runtime's", [row[0] for row in starts][:2],
           [1772359206, 1772359221])
    shutil.rmtree(folder)


# --- manifests ---

TEMPLATE = {"spec": {"containers": [{"name": "app", "readinessProbe": {"periodSeconds": 4}}]}}
OWNERS = {
    "web-7d4b9c8f6-x2x1z": {"kind": "Deployment", "spec": {"template": TEMPLATE}},
    "web-x2x1z": {"kind": "DaemonSet", "spec": {"template": TEMPLATE}},
    "web-0": {"kind": "StatefulSet", "spec": {"template": TEMPLATE}},
    "web-k8s9z": {"kind": "Job", "spec": {"template": TEMPLATE}},
    "web-29012345-k8s9z": {"kind": "CronJob", "spec": {"jobTemplate": {"spec": {"template": TEMPLATE}}}}}


def pod_lines(trace):
    return [line for line in map(json.loads, trace.splitlines()) if line["kind"] == "pod"]


def test_import_of_owners():
    """A pod without a manifest has the manifest of its owner's template, by its name."""
    text = "".join(line for line in read(f"{FOLDER}/keyed.log").splitlines(keepends=True) if "shop/hog" not in line)
    folder = tempfile.mkdtemp()
    for name, owner in OWNERS.items():
        with open(f"{folder}/owner", "w", encoding="utf-8") as file:
            json.dump({**owner, "metadata": {"name": "web", "namespace": "shop"}}, file)
        given = begun(text).replace("shop/web", f"shop/{name}")
        status, trace, _ = imported("--node", "n1", given=given, pods=f"{folder}/owner")
        [pod] = pod_lines(trace)
        container = pod["pod"]["spec"]["containers"][0]
        expect(f"import of a pod of a {owner['kind']}", (status, container, pod.get("guessed")), (
            0, {"name": "app", "readinessProbe": {"periodSeconds": 4}}, ["manifest"]))
    answer = imported("--node", "n1", given=text.replace("shop/web", "shop/other-0"), pods=f"{folder}/owner")
    expect_refused("import with manifests of others", answer, 1, "none of the 1 pod of the journal is among the")
    shutil.rmtree(folder)


def begun(text):
    """Lines with the pod shop/web alone."""
    added = 'I0301 10:00:05.010000    2211 kubelet.go:2400] "SyncLoop ADD" source="api" pods=["shop/web"]\n'
    first, _, rest = text.partition('"Started kubelet"\n')
    return f'{first}"Started kubelet"\n{added}{rest}'


def test_import_without_manifests():
    """A pod has the containers that lines name, and no probe."""
    status, trace, said = imported(pods=None, given=read(f"{FOLDER}/keyed.log"))
    pods = {pod["pod"]["metadata"]["name"]: (pod["pod"]["spec"], pod.get("guessed")) for pod in pod_lines(trace)}
    expect("import without manifests", (status, pods), (0, {
        "web": ({"containers": [{"name": "app"}]}, ["manifest"]),
        "hog": ({"containers": [{"name": "main"}]}, ["manifest"])}))
    expect("import without manifests: what is said", "2 pods without a manifest (shop/hog, shop/web)" in said, True)


def test_import_of_a_log_that_begins_in_the_middle():
    """What runs before the first line is there from the first tick on, by the pods' statuses too."""
    text = read(f"{FOLDER}/keyed.log")
    later = text[text.index("I0301 10:00:30"):]
    status, trace, _ = imported("--node", "worker-3", given=later)
    first = [row for row in listings_of(trace) if row[1] == "shop/web"]
    expect("import of a log without a begin", (status, first[:2]), (0, [
        (1772359230, "shop/web", "app", 0, "RUNNING", None, "moment"),
        (1772359240, "shop/web", "app", 0, "EXITED", 137, "moment")]))
    folder = tempfile.mkdtemp()
    quiet = {"kind": "Pod", "metadata": {"name": "quiet", "namespace": "shop", "uid": "33333333"},
             "spec": {"nodeName": "worker-3", "containers": [{"name": "app"}]},
             "status": {"containerStatuses": [{
                 "name": "app", "restartCount": 4, "containerID": "containerd://cccc000000a4",
                 "state": {"running": {"startedAt": "2026-03-01T09:00:00Z"}}}]}}
    with open(f"{folder}/pods", "w", encoding="utf-8") as file:
        json.dump({"kind": "List", "items": [quiet]}, file)
    status, trace, _ = imported("--node", "worker-3", "--pods", f"{folder}/pods", given=text)
    expect("import of a pod of which no line speaks", [row for row in listings_of(trace) if row[1] == "shop/quiet"],
           [(1772359200, "shop/quiet", "app", 4, "RUNNING", None, "moment")])
    shutil.rmtree(folder)


def test_import_of_a_startup_that_passes_first():
    """A journal that has the result that lets the other probes of a container begin, and not its start."""
    uid = "44444444-4444-4444-4444-444444444444"
    text = read(f"{FOLDER}/keyed.log").replace('pods=["shop/web",', 'pods=["shop/late","shop/web",', 1)
    before, place, behind = text.partition("I0301 10:00:12.")
    said = f'"Probe succeeded" probeType="Startup" pod="shop/late" podUID="{uid}" containerName="app"'
    late = {"kind": "Pod", "metadata": {"name": "late", "namespace": "shop", "uid": uid},
            "spec": {"nodeName": "worker-3", "containers": [{"name": "app", "startupProbe": {}, "readinessProbe": {}}]}}
    folder = tempfile.mkdtemp()
    with open(f"{folder}/pods", "w", encoding="utf-8") as file:
        json.dump(late, file)
    status, trace, _ = imported("--node", "worker-3", "--pods", f"{folder}/pods", given=(
        f"{before}I0301 10:00:10.500000    2211 prober.go:116] {said}\n{place}{behind}"))
    results = [result["probe"] for line in map(json.loads, trace.splitlines()) for entry in line.get("pods") or []
               if entry["pod"] == "shop/late" for result in entry.get("probes") or []]
    expect("import of a startup that passes first", (status, results), (0, ["startup"]))
    shutil.rmtree(folder)


def test_import_of_events():
    """The kubelet's own Event has the whole message of an eviction."""
    said = "The node was low on resource: memory. Container main was using 70Mi, which exceeds its request of 0. "
    event = {"kind": "Event", "involvedObject": {"kind": "Pod", "name": "hog", "namespace": "shop"},
             "reason": "Evicted", "message": said, "lastTimestamp": "2026-03-01T10:01:00Z"}
    folder = tempfile.mkdtemp()
    with open(f"{folder}/events", "w", encoding="utf-8") as file:
        json.dump({"items": [event]}, file)
    trace = imported("--journal", f"{FOLDER}/keyed.log", "--events", f"{folder}/events")[1]
    [told] = [each for line in map(json.loads, trace.splitlines())
              for each in (line.get("kubelet") or {}).get("evicted", [])]
    expect("import of events: the message of an eviction", told["message"], said.strip())
    shutil.rmtree(folder)


def test_import_of_what_events_say():
    """Of a container or of its pod, once while it is the same; of a hook's message, which has a command, nothing."""
    again = "Back-off restarting failed container app in pod web_shop(11111111-1111-1111-1111-111111111111)"
    of_app = "spec.containers{app}"
    said = [("40.200000", of_app, "BackOff", again), ("41.200000", of_app, "BackOff", again),
            ("42.200000", "", "SandboxChanged", "Pod sandbox changed, it will be killed and re-created."),
            ("43.200000", of_app, "FailedPostStartHook", f"Exec lifecycle hook ([echo {SECRET}]) failed"),
            ("44.200000", of_app, "Started", "Started container app")]
    lines = [f'I0301 10:00:{at}    2211 event.go:307] "Event occurred" object="shop/web" fieldPath="{path}" kind="Pod" '
             f'apiVersion="v1" type="Warning" reason="{reason}" message="{message}"\n'
             for at, path, reason, message in said]
    text = "".join(sorted(read(f"{FOLDER}/keyed.log").splitlines(keepends=True) + lines, key=lambda line: line[1:]))
    status, trace, _ = imported(given=text)
    told = [each for line in map(json.loads, trace.splitlines()) for entry in line.get("pods") or []
            for each in entry.get("said", ()) if 1772359240 <= each["at"] < 1772359250]
    expect("import of what Events say", (status, SECRET in trace, told), (0, False, [
        {"at": 1772359240, "container": "app", "reason": "BackOff", "message": again},
        {"at": 1772359242, "reason": "SandboxChanged", "message": said[2][3]},
        {"at": 1772359243, "container": "app", "reason": "FailedPostStartHook", "messageLeftOut": True}]))


def test_import_of_a_ranking():
    """The pods in the order in which they were to be evicted, and for what, are with the pod that was evicted."""
    text = read(f"{FOLDER}/keyed.log")
    names = [f"shop/p-{number}" for number in range(12)]
    many = text.replace('"shop/hog","shop/web"', ",".join(f'"{name}"' for name in ["shop/hog", *names]))
    for given, message in ((text, "to reclaim memory: shop/hog, shop/web"),
                           (many, f"to reclaim memory: shop/hog, {', '.join(names[:9])} and 3 more")):
        ranked = [(entry["pod"], each) for line in map(json.loads, imported(given=given)[1].splitlines())
                  for entry in line.get("pods") or [] for each in entry.get("said", ()) if "Ranked" in each["reason"]]
        expect("import of a ranking", ranked, [
            ("shop/hog", {"at": 1772359260, "reason": "RankedForEviction", "message": message})])


def test_import_of_an_audit_log():
    """Objects that the API server had in hand: a manifest, and a status with the code of an exit that no line has."""
    text = read(f"{FOLDER}/keyed.log")
    silent = "".join(line for line in text.splitlines(keepends=True) if "container finished" not in line)
    status = {"containerStatuses": [{"name": "app", "restartCount": 0, "state": {"terminated": {
        "containerID": f"containerd://aaaa{'0' * 58}a0", "exitCode": 3, "startedAt": "2026-03-01T10:00:07Z",
        "finishedAt": "2026-03-01T10:00:19Z", "reason": "Error"}}}]}
    metadata = {"name": "web", "namespace": "shop", "uid": "11111111-1111-1111-1111-111111111111"}
    pod = {"kind": "Pod", "metadata": metadata,
           "spec": {"containers": [{"name": "app"}]}, "status": status}
    folder = tempfile.mkdtemp()
    with open(f"{folder}/audit", "w", encoding="utf-8") as file:
        for _ in range(2):
            file.write(json.dumps({"kind": "Event", "apiVersion": "audit.k8s.io/v1", "auditID": "1",
                                   "responseObject": pod}) + "\n")
    status, trace, _ = imported("--journal", "-", "--audit", f"{folder}/audit", given=silent, pods=None)
    rows = [row for row in listings_of(trace) if row[1] == "shop/web"]
    expect("import of an audit log", (status, rows[:3]), (0, [
        (1772359207, "shop/web", "app", 0, "RUNNING", None), (1772359219, "shop/web", "app", 0, "EXITED", 3),
        (1772359222, "shop/web", "app", 1, "RUNNING", None, "moment")]))
    expect("import without codes: they are guessed", rows[3][-1], "exitCode")
    shutil.rmtree(folder)


# --- what is no journal ---

SECRET = "hunter2"


def test_import_keeps_no_secret():
    """An output of a probe is a container's own words."""
    text = read(f"{FOLDER}/keyed.log").replace("HTTP probe failed with statuscode: 503",
                                               f"DB_PASSWORD={SECRET} connection refused")
    status, trace, said = imported(given=text)
    expect("import of a secret", (status, SECRET in trace + said), (0, False))
    expect("import of a secret: what is kept", '"message":"connection refused"' in trace, True)


def test_import_of_what_is_no_journal():
    """One line, and nothing is written."""
    text = read(f"{FOLDER}/keyed.log")
    folder = tempfile.mkdtemp()
    other = text.replace("    2211 ", "    7777 ")
    pairs = zip(text.splitlines(keepends=True), other.splitlines(keepends=True))
    mixed = "".join(line for pair in pairs for line in pair)
    for name, given, status, words in (
        ("nothing", "", 1, "no line of standard input is a kubelet's or a runtime's"),
        ("a log of something else", "Mar  1 10:00:00 host sshd[1]: hello\n" * 50, 1, "is a kubelet's or a runtime's"),
        ("bytes", "".join(map(chr, range(256))) * 500, 1, "is a kubelet's or a runtime's"),
        ("a trace", read(f"{FOLDER}/keyed.trace"), 1, "is a kubelet's or a runtime's"),
        ("kubelets whose lines are mixed", mixed, 1, "the lines of several kubelets are mixed"),
        ("two nodes", journald(text) + journald(text).replace('"worker-3"', '"worker-4"'), 1, "worker-3 and worker-4"),
        ("a kubelet without a pod", 'I0301 10:00:00.2    1 a.go:1] "Started kubelet"\n', 1, "names no pod"),
    ):
        into = tempfile.mkdtemp()
        for words_of, written in (([], "standard output"), (["--into", into], "a folder")):
            node = [] if "nodes" in name else ["--node", "worker-3"]
            answer = imported(*node, *words_of, given=given)
            expect_refused(f"import of {name} into {written}", answer, status, words)
        expect(f"import of {name}: the folder", os.listdir(into), [])
        answer = imported(*([] if "nodes" in name else ["--node", "worker-3"]), "--into", f"{into}/new", given=given)
        expect(f"import of {name}: no folder is made", (answer[0], os.listdir(into)), (status, []))
    for words, said in ((["--journal", "/nonexistent"], "can't be read"), (["--pods", "/nonexistent"], "can't be read"),
                        (["--zone", "CET"], "--zone takes"), (["--year", "26"], "--year takes"),
                        (["--node", "../x"], "--node takes"), (["--into", "/nonexistent/a"], "is no folder"),
                        (["--each", "1s"], "--each takes"), (["--all"], "is no known argument"),
                        (["--journal", "a", "--journal", "a"], "has a file twice")):
        expect_refused(f"import {' '.join(words)}", run([IMPORT, *words], text), 2, said)
    with open(f"{folder}/none", "w", encoding="utf-8") as file:
        file.write("- 5\n")
    expect_refused("import --pods of no manifest", imported(given=text, pods=f"{folder}/none"), 2, "has no manifest")
    shutil.rmtree(folder)


def test_statuses_of_an_import():
    """Its statuses are members of the list that all commands have, and no plain numbers."""
    found = []
    for path in sorted(glob.glob(f"{TOOLS}/replay_tools/importing/*.py")):
        for node in ast.walk(ast.parse(read(path))):
            if isinstance(node, ast.Call) and ast.unparse(node.func) in ("entry.Fault", "NoLog", "Nothing", "Ended"):
                found += [f"{os.path.basename(path)}:{each.lineno}" for each in node.args
                          if isinstance(each, ast.Constant) and isinstance(each.value, int)]
    expect("plain numbers as statuses", found, [])


def test_import_of_hostile_lines():
    """Lines that are cut or of 1 MB, names and escapes of others, and numbers of 5,000 digits are left out; the rest is
    as before."""
    text, wanted = read(f"{FOLDER}/keyed.log"), read(f"{FOLDER}/keyed.trace")
    head = "I0301 10:00:06.000000    2211 kubelet.go:1] "
    hostile = [
        f'{head}"SyncLoop ADD" source="api" pods=["shop/../../x","shop/a;rm -rf","\\u001b[31m/x"]',
        f'{head}"Probe failed" probeType="Liveness" pod="shop/web" containerName="a\\u001b[31m" probeResult="failure"',
        f'{head}"Generic (PLEG): container finished" podID="x" containerID="aaaa000000000000" exitCode={"9" * 5000}',
        f'{head}"Killing container with a grace period" containerID="cri-o://dddd00000000" gracePeriod={"9" * 5000}',
        f'{head}"Eviction manager: observations" signal="memory.available" available="{"9" * 5000}" capacity="x"',
        f'{head}"Patch status for pod" pod="shop/web" patch="{"{" * 100}',
        f'{head}SyncLoop (PLEG): "web_shop(', "I0301 10:00:06", f'{head}{"x" * (1 << 20)}', "\x00\x01\x02",
        '{"ts":1e999,"msg":"SyncLoop ADD"}', '{"ts":' + "9" * 5000 + ',"msg":"x"}', "[" * 100000]
    first, rest = text.split("I0301 10:00:07", 1)
    status, trace, said = imported(given=first + "".join(f"{line}\n" for line in hostile) + "I0301 10:00:07" + rest)
    expect("import of hostile lines", (status, "\x1b" in trace + said), (0, False))
    expect("import of hostile lines: the trace", trace, wanted)


def test_import_of_more_than_a_line_takes():
    """What lines report of all pods in one second is in the ticks after it, where one line would be too long."""
    pods = [f"shop/{'p' * 50}-{number}" for number in range(250)]
    head = "I0301 10:00:{}.000000    2211 kubelet.go:1] "
    names = ",".join(f'"{pod}"' for pod in pods)
    text = head.format("05") + f'"SyncLoop ADD" source="api" pods=[{names}]\n'
    said = ('"Event occurred" object="{0}" kind="Pod" reason="BackOff" fieldPath="spec.containers{{{1}}}" message='
            '"Back-off restarting failed container {1} in pod {2}_shop(11111111-1111-1111-1111-111111111111)"\n')
    text += "".join(head.format("06") + said.format(pod, f"c{number}", pod.partition("/")[2])
                    for pod in pods for number in range(20))
    probed = '"Probe succeeded" probeType="Readiness" pod="{}" containerName="c0"\n'
    text += "".join(head.format("06") + probed.format(pod) for pod in pods)
    text += "".join(head.replace("10:00", f"10:{minute:02}").format("00") + probed.format(pods[0])
                    for minute in range(1, 4))
    status, trace, _ = imported("--node", "worker-3", given=text, pods=None)
    rows = sum(len(entry.get("said", ())) for line in map(json.loads, trace.splitlines())
               for entry in line.get("pods") or [])
    longest = max(map(len, trace.splitlines()), default=0)
    expect("import of more than a line takes", (status, rows, longest < 1 << 20), (0, 5000, True))


# --- what a cluster answers ---

KUBECTL = """#!/bin/sh
# a stand-in for kubectl, which answers as an API server of 1.30 that passes on what a kubelet has
case "$*" in
*/proxy/logs/*query=kubelet*) [ -s "$ANSWERS/log" ] || { echo 'Error from server (NotFound): 404' >&2; exit 1; }
    cat "$ANSWERS/log" ;;
*"/proxy/logs/?query=containerd&query=crio&sinceTime="*) echo '-- No entries --' ;;
*"get deployments,replicasets,statefulsets,daemonsets,jobs,cronjobs --all-namespaces -o json") echo '{"items":[]}' ;;
*"get pods --all-namespaces --field-selector spec.nodeName=worker-3 -o json") cat "$ANSWERS/pods" ;;
*"get events --all-namespaces -o json") cat "$ANSWERS/events" ;;
*) echo "unexpected: $*" >&2; exit 1 ;;
esac
"""


def precise(text):
    """What a kubelet answers to a query of its log: journalctl's short-precise, in UTC."""
    return "".join(f"{time.strftime('%b %d %H:%M:%S', time.gmtime(second))}.{fraction} worker-3 kubelet[{process}]: "
                   f"{line}\n" for line, second, fraction, process, _, _ in lines_of(text))


def test_import_of_a_cluster():
    """A node by its name: the import asks for its log, pods and events; where there is no log a line names what to run
    there."""
    folder = tempfile.mkdtemp()
    for name, text in (("kubectl", KUBECTL), ("log", precise(read(f"{FOLDER}/keyed.log"))), ("events", '{"items":[]}')):
        with open(f"{folder}/{name}", "w", encoding="utf-8") as file:
            file.write(text)
    os.chmod(f"{folder}/kubectl", 0o755)
    shutil.copy(f"{FOLDER}/pods.yaml", f"{folder}/pods")
    settings = {"PATH": f"{folder}:{os.environ['PATH']}", "ANSWERS": folder}
    words = [IMPORT, "worker-3", "--since", "3h", "--year", str(YEAR)]
    status, trace, said = run(words, **settings)
    expect("import of a cluster", (status, trace), (0, read(f"{FOLDER}/keyed.trace")))
    on_the_node = "on the node: journalctl -u kubelet --since -180m -o json; or: kubectl debug node/worker-3"
    for text, wanted in (("", "the cluster gives no log of worker-3: Error from server"),
                         ("<pre><a>syslog</a></pre>\n", "what the cluster answers is no log of the kubelet of")):
        with open(f"{folder}/log", "w", encoding="utf-8") as file:
            file.write(text)
        expect_refused(f"import of a cluster that answers {text[:5]}", run(words, **settings), 1, wanted, on_the_node)
    for words, wanted in ((["a", "b"], "one NODE"), (["../x"], "NODE is a node's name"),
                          (["n", "--since", "x"], "--since"), (["--since", "1h"], "go with NODE")):
        expect_refused(f"import {' '.join(words)}", run([IMPORT, *words], **settings), 2, wanted)
    shutil.rmtree(folder)
