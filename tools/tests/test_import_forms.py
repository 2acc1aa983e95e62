"""The tests of the forms of lines that an import reads, as kubelets from 1.21 on and runtimes write them, of what they
contain at each verbosity, and of what looks so and is a container's own. All are written after the sources, from
knowledge."""

import base64
import json
import re
import tempfile

import cases
from checks import expect, read
from test_import import FOLDER, YEAR, as_json, imported, lines_of, listings_of, pod_lines, short_iso, stamp
from test_import_evictions import BEGUN, HOG_ID, KILLING, LATE, ended_in, with_lines, without

load_tests = cases.loaded(__name__)

UIDS = {"web": "11111111-1111-1111-1111-111111111111", "hog": "22222222-2222-2222-2222-222222222222"}
WEB_ID = f"aaaa{'0' * 58}"


def line(moment, said):
    return f"I0301 10:{int(moment) // 60:02}:{moment % 60:09.6f}    2211 a.go:1] {said}\n"


def added(text, *lines):
    """A log with more lines, each as its moment and its text."""
    made = text.splitlines(keepends=True) + [line(*each) for each in lines]
    return "".join(sorted(made, key=lambda each: each[1:20]))


# --- the forms of text and of JSON ---


def of_1_21(text):
    """Lists of pods are a text with uids, uids and words of Go's own kinds have no quotes, events are as Go prints
    them."""
    def named(found):
        names = re.findall(r"shop/(\w+)", found[1])
        return 'pods="' + ", ".join(f"{name}_shop({UIDS[name]})" for name in names) + '"'

    of_event = r'event=\{"ID":"([^"]*)","Type":"([^"]*)","Data":"([^"]*)"\}'
    text = re.sub(of_event, r"event=&{ID:\1 Type:\2 Data:\3}", text)
    text = re.sub(r'containerStatusID=\{"Type":"(\w+)","ID":"(\w+)"\}', r"containerStatusID={Type:\1 ID:\2}", text)
    return re.sub(r'(podUID|podID|probeResult)="([^"]*)"', r"\1=\2", re.sub(r"pods=\[([^\]]*)\]", named, text))


def of_several_lines(text):
    """From 1.24 on a value of several lines is in lines of its own, each after a tab."""
    return text.replace('output="HTTP probe failed with statuscode: 503"',
                        "output=<\n\tHTTP probe failed with statuscode: 503\n\tand more\n >")


def in_journal(text):
    """Each line of a value is a line of the journal, for whose tabs journalctl prints blanks."""
    made, head = "", ""
    for each in text.splitlines():
        if each.startswith("I") or each.startswith("E"):
            made += short_iso(each).partition("\n")[2]
            head = made.rstrip("\n").rpartition("\n")[2].partition("]: ")[0]
        else:
            made += f"{head}]: {each.replace(chr(9), ' ' * 8)}\n"
    return made


def in_parts(text):
    """What a runtime keeps of a kubelet in a container: long lines in parts."""
    made = ""
    for each, second, fraction, *_ in lines_of(text):
        head = f"{stamp(second)}.{fraction}123Z stderr"
        parts = [each[place:place + 150] for place in range(0, len(each), 150)]
        made += "".join(f"{head} {'P' if place + 1 < len(parts) else 'F'} {part}\n" for place, part in enumerate(parts))
    return made


def of_objects(text):
    """JSON in which each pod of a list is an object too."""
    records = [json.loads(each) for each in as_json(text).splitlines()]
    for record in records:
        if "pods" in record:
            record["pods"] = [dict(zip(("namespace", "name"), pod.split("/"))) for pod in record["pods"]]
    return "".join(json.dumps(record, separators=(",", ":")) + "\n" for record in records)


FORMS = {"1.21": of_1_21, "several lines": of_several_lines, "several lines of a journal":
         lambda text: in_journal(of_several_lines(text)), "1.21 in a journal": lambda text: in_journal(of_1_21(text)),
         "a container's log in parts": in_parts, "JSON of objects": of_objects}


def test_import_of_forms_by_version():
    """The same lines in the form of each version make the same trace."""
    text, wanted = read(f"{FOLDER}/keyed.log"), read(f"{FOLDER}/keyed.trace")
    for name, form in FORMS.items():
        status, trace, _ = imported("--node", "worker-3", given=form(text))
        expect(f"import of {name}", (status, trace), (0, wanted))


# --- what lines have at -v=3 and -v=4 ---


PAIR = {"kind": "Pod", "metadata": {"name": "pair", "namespace": "shop", "uid": "44444444"},
        "spec": {"containers": [{"name": "one"}, {"name": "two"}]}}


def rows_of(pod, *lines, given=None):
    """What is listed of one pod in a log of two others and of these lines."""
    text = added(read(f"{FOLDER}/keyed.log") if given is None else given, *lines)
    with tempfile.NamedTemporaryFile("w", suffix=".json") as file:
        json.dump(pod, file)
        file.flush()
        status, trace, said = imported("--node", "worker-3", "--pods", file.name, given=text)
    key = f"{pod['metadata']['namespace']}/{pod['metadata']['name']}"
    rows = [(at - BEGUN, *rest) for at, name, *rest in listings_of(trace) if name == key]
    return (status, rows) if status == 0 else (status, said)


def event(kind, identity, pod="pair", uid="44444444"):
    said = json.dumps({"ID": uid, "Type": kind, "Data": identity}, separators=(",", ":"))
    return f'"SyncLoop (PLEG): event for pod" pod="shop/{pod}" event={said}'


def identity_of(letter):
    return letter * 64


def test_import_of_flags_in_json():
    """They are sentences there too."""
    flags = [("config", ""), ("eviction-hard", "memory.available<500Mi")]
    lines = [json.dumps({"ts": (BEGUN + place / 100) * 1000, "caller": "flags.go:64", "v": 1,
                         "msg": f'FLAG: --{name}="{value}"\n'}) for place, (name, value) in enumerate(flags)]
    status, trace, _ = imported("--node", "worker-3", given="\n".join(
        [*lines, as_json(read(f"{FOLDER}/keyed.log"))]))
    expect("import of flags in JSON", (status, json.loads(trace.split("\n")[0])["evictionHard"]), (
        0, {"memory.available": "500Mi"}))


def test_import_of_names_of_starts():
    """From -v=3 on a line shows which container is made; at -v=4 also which sandbox is, and whose an instance is."""
    begin = [(10.0, '"SyncLoop ADD" source="api" pods=["shop/pair"]'),
             (11.0, event("ContainerStarted", identity_of("d"))), (12.0, event("ContainerStarted", identity_of("a")))]
    second = (14.0, event("ContainerStarted", identity_of("b")))
    mount = '"Creating hosts mount for container" pod="shop/pair" containerName="{}" podIPs=["10.1.1.2"] path=true'
    _, rows = rows_of(PAIR, *begin, second, (11.5, mount.format("two")), (13.5, mount.format("one")))
    expect("import of names of starts", [row[:4] for row in rows], [
        (12, "two", 0, "RUNNING"), (14, "one", 0, "RUNNING")])
    sandbox = f'"Created PodSandbox for pod" podSandboxID="{identity_of("d")}" pod="shop/pair"'
    at_once = [begin[0], (10.5, sandbox), (11.0, event("ContainerStarted", identity_of("d"))),
               (11.1, event("ContainerStarted", identity_of("a")))]
    rows = rows_of(PAIR, *at_once, second)
    expect("import of a sandbox that is named", [row[0] for row in rows[1]], [11, 14])
    unchanged = '"Container readiness unchanged" ready=false pod="shop/pair" containerID="containerd://' \
                f'{identity_of("a")}"'
    reason = f'"Message for Container of pod" containerName="two" containerStatusID={{Type:containerd ID:' \
             f'{identity_of("a")}}} pod="shop/pair" containerMessage="Container two failed liveness probe"'
    rows = rows_of(PAIR, begin[0], (12.5, unchanged), (30.0, reason), *begin[1:], second)
    expect("import of an instance whose pod is named", [row[:2] for row in rows[1]], [(12, "two"), (14, "one")])


def status_of(code):
    ended = {"containerID": f"containerd://{WEB_ID}a0", "exitCode": code, "reason": "Error",
             "startedAt": "2026-03-01T10:00:07Z", "finishedAt": "2026-03-01T10:00:20Z"}
    return {"containerStatuses": [{"name": "app", "restartCount": 1, "containerID": f"containerd://{WEB_ID}a1",
                                   "lastState": {"terminated": ended}}]}


def test_import_of_statuses_by_version():
    """A patch as text, and as bytes in both forms; a status as an object and as Go prints it, under either name."""
    text = "".join(each for each in read(f"{FOLDER}/keyed.log").splitlines(keepends=True) if "finished" not in each)
    patch = json.dumps({"status": status_of(9)}, separators=(",", ":"))
    ended = ("ExitCode:9,Signal:0,Reason:Error,Message:,StartedAt:2026-03-01 10:00:07 +0000 UTC,FinishedAt:2026-03-01 "
             f"10:00:20 +0000 UTC,ContainerID:containerd://{WEB_ID}a0,")
    printed = ("&PodStatus{Phase:Running,ContainerStatuses:[]ContainerStatus{ContainerStatus{Name:app,State:"
               f"ContainerState{{Terminated:&ContainerStateTerminated{{{ended}}},}},}},}},}}")
    of_pod = f'pod="shop/web" podUID="{UIDS["web"]}"'
    of_patch = f'"Patch status for pod" {of_pod}'
    said = {"a patch": f"{of_patch} patch={json.dumps(patch)}",
            "a patch's bytes": f"{of_patch} patchBytes=[{' '.join(map(str, patch.encode()))}]",
            "a status": f'"Status for pod updated successfully" {of_pod} statusVersion=3 status='
                        f'{json.dumps(status_of(9), separators=(",", ":"))}',
            "a status of a transition": f'"Pod attempted illegal phase transition" pod="shop/web" originalStatusPhase='
                                        f'Failed apiStatusPhase=Running apiStatus="{printed}"'}
    for name, each in said.items():
        rows = [row for row in listings_of(imported(given=added(text, (23.0, each)))[1]) if row[1:4] == (
            "shop/web", "app", 0)]
        expect(f"import of {name}", [row[4:6] for row in rows], [("RUNNING", None), ("EXITED", 9)])
    record = {"ts": (BEGUN + 23) * 1000.0, "caller": "a.go:1", "msg": "Patch status for pod", "v": 3,
              "pod": {"name": "web", "namespace": "shop"}, "patchBytes": base64.b64encode(patch.encode()).decode()}
    lines = [*as_json(text).splitlines(), json.dumps(record)]
    trace = imported("--node", "worker-3", given="\n".join(sorted(lines, key=lambda each: json.loads(each)["ts"])))[1]
    rows = [row for row in listings_of(trace) if row[1:4] == ("shop/web", "app", 0)]
    expect("import of a patch's bytes in JSON", [row[4:6] for row in rows], [("RUNNING", None), ("EXITED", 9)])


def test_import_of_evictions_by_version():
    """From -v=3 on a line of its own shows that an eviction begins, with the whole message; a pod that a kubelet does
    not admit is shown with the conditions, in each form."""
    message = "The node was low on resource: memory. Threshold quantity: 2Gi, available: 1Gi."
    begins = f'"Evicting pod" pod="shop/hog" podUID="{UIDS["hog"]}" message="{message} "'
    text = with_lines((60.02, begins), *without(LATE, "attempting to reclaim", "pods ranked for eviction"))
    expect("import of a line that an eviction begins", ended_in(imported(given=text)[1])[0], [
        (60, "shop/hog", message)])
    wanted = "The node had condition: [MemoryPressure DiskPressure]. "
    for name, said in (("1.21", "[MemoryPressure DiskPressure]"), ("1.27", '["MemoryPressure","DiskPressure"]')):
        refused = (30.0, f'"Failed to admit pod to node" pod="shop/late" nodeCondition={said}')
        expect(f"import of a refusal of {name}", refusals_in(imported(given=added(text, refused))[1]), [wanted])
    record = {"ts": (BEGUN + 30) * 1000.0, "caller": "a.go:1", "msg": "Failed to admit pod to node", "v": 0,
              "pod": {"name": "late", "namespace": "shop"}, "nodeCondition": ["MemoryPressure", "DiskPressure"]}
    lines = [*as_json(read(f"{FOLDER}/keyed.log")).splitlines(), json.dumps(record)]
    given = "\n".join(sorted(lines, key=lambda each: json.loads(each)["ts"]))
    expect("import of a refusal of JSON", refusals_in(imported("--node", "worker-3", given=given)[1]), [wanted])


def refusals_in(trace):
    return [each["message"] for tick in map(json.loads, trace.splitlines())
            for each in (tick.get("kubelet") or {}).get("refused", ())]


def test_import_of_a_pod_that_is_deleted_by_force():
    """It comes again at once, and no poll shows its exit: the end of the kill does, from -v=3 on, in both forms."""
    keyed = f'"Container exited normally" pod="shop/hog" podUID="{UIDS["hog"]}" containerName="main" containerID=' \
            f'"containerd://{HOG_ID}a0"'
    for name, said in (("keys", keyed), ("sentences", f'Container "containerd://{HOG_ID}a0" exited normally')):
        lines = [(58.0, '"SyncLoop DELETE" source="api" pods=["shop/hog"]'), (58.01, KILLING),
                 (58.02, '"SyncLoop REMOVE" source="api" pods=["shop/hog"]'),
                 (58.05, '"SyncLoop ADD" source="api" pods=["shop/hog"]'), (59.5, said), (59.6, said)]
        trace = imported(given=with_lines(*lines))[1]
        rows = [(at - BEGUN, *rest) for at, pod, *rest in listings_of(trace) if pod == "shop/hog"]
        expect(f"import of a pod that is deleted by force, {name}", rows[1:], [
            (59, "main", 0, "EXITED", 137, "moment", "exitCode")])


SIDECAR = {"kind": "Pod", "metadata": {"name": "pair", "namespace": "shop", "uid": "44444444"},
           "spec": {"initContainers": [{"name": "mesh", "restartPolicy": "Always"}, {"name": "setup"}],
                    "containers": [{"name": "app"}]}}


def test_import_of_a_sidecar():
    """An init container that comes again runs on while the others come, and comes again next to them."""
    lines = [(10.0, '"SyncLoop ADD" source="api" pods=["shop/pair"]')]
    lines += [(11.0 + place, event("ContainerStarted", identity_of(letter))) for place, letter in enumerate("dab")]
    finished = '"Generic (PLEG): container finished" podID="44444444" containerID="{}" exitCode={}'
    for moment, letter, code in ((14.0, "b", 0), (20.0, "a", 1)):
        lines += [(moment - 0.01, finished.format(identity_of(letter), code)),
                  (moment, event("ContainerDied", identity_of(letter)))]
    lines += [(15.0, event("ContainerStarted", identity_of("c"))), (21.0, event("ContainerStarted", identity_of("e")))]
    status, rows = rows_of(SIDECAR, *lines)
    expect("import of a sidecar", (status, [row[:5] for row in rows]), (0, [
        (12, "mesh", 0, "RUNNING", None), (13, "setup", 0, "RUNNING", None), (14, "setup", 0, "EXITED", 0),
        (15, "app", 0, "RUNNING", None), (20, "mesh", 0, "EXITED", 1), (21, "mesh", 1, "RUNNING", None)]))


# --- runtimes ---


def of_containerd(form):
    """A container that crashes and is stopped, as a containerd up to 1.7 logs it, of which no line has an exit."""
    named = {"structs": ("&PodSandboxMetadata{Name:web,Uid:%s,Namespace:shop,Attempt:0,}",
                         "&ContainerMetadata{Name:app,Attempt:%s,}"),
             "texts": ('name:"web"  uid:"%s" namespace:"shop"', 'name:"app"  attempt:%s')}[form]
    said = [(5.5, f'RunPodSandbox for {named[0] % UIDS["web"]} returns sandbox id "{WEB_ID}f0"'),
            (6.0, f'CreateContainer within sandbox "{WEB_ID}f0" for {named[1] % 0} returns container id "{WEB_ID}a0"'),
            (6.2, f'StartContainer for "{WEB_ID}a0" returns successfully'),
            (21.0, f'CreateContainer within sandbox "{WEB_ID}f0" for {named[1] % 1} returns container id "{WEB_ID}a1"'),
            (21.2, f'StartContainer for "{WEB_ID}a1" returns successfully'),
            (40.0, f'StopContainer for "{WEB_ID}a1" with timeout 30 (s)'),
            (41.5, f'StopContainer for "{WEB_ID}a1" returns successfully'), (50.0, "StopContainer for all")]
    return [(f"{stamp(BEGUN + int(moment))}.{round(moment % 1 * 10):01}Z", text) for moment, text in said]


def test_import_of_containerd_by_version():
    """Names as structs, and as texts with one blank or two; lines of JSON; and the stop of a container is its exit."""
    wanted = [(6, "app", 0, "RUNNING", None), (21, "app", 1, "RUNNING", None), (41, "app", 1, "EXITED", 137)]
    for form in ("structs", "texts"):
        lines = of_containerd(form)
        as_text = "".join(f"time={json.dumps(moment)} level=info msg={json.dumps(text)}\n" for moment, text in lines)
        as_records = "".join(json.dumps({"level": "info", "msg": text, "time": moment}) + "\n"
                             for moment, text in lines)
        in_unit = "".join(f"{moment} worker-3 containerd[71]: {each}\n" for (moment, _), each in zip(
            lines, as_text.splitlines()))
        for name, given in (("text", as_text), ("JSON", as_records), ("a journal", in_unit)):
            status, trace, said = imported("--node", "worker-3", given=given)
            rows = [(at - BEGUN, *rest[:4]) for at, _, *rest in listings_of(trace)]
            expect(f"import of containerd, {form}, {name}", (status, rows), (0, wanted))
    expect("import of a journal without results of probes: what is said", "no results of probes" in said, True)


def test_import_of_what_crio_removes():
    """A container that is removed after the next start has ended before that; the newest one ends with it."""
    def said(moment, text):
        return f'time="{stamp(BEGUN + moment).replace("T", " ")}.0Z" level=info msg={json.dumps(text)}\n'

    text = read(f"{FOLDER}/crio.log").rpartition("time=")[0]
    text += said(21, "Created container aaaa000000a1: shop/web/app")
    text += f'time="{YEAR}-03-01 10:00:22.0Z" level=info msg="Started container" PID=72 containerID=aaaa000000a1 ' \
            "description=shop/web/app id=3\n"
    text += said(50, "Removed container aaaa000000a0: shop/web/app")
    text += said(60, "Removed container aaaa000000a1: shop/web/app") + said(70, "Removed container x: y")
    status, trace, _ = imported("--node", "worker-3", given=text)
    rows = [(at - BEGUN, *rest[:3]) for at, _, *rest in listings_of(trace)]
    expect("import of what CRI-O removes", (status, rows), (0, [
        (6, "app", 0, "RUNNING"), (22, "app", 1, "RUNNING"), (60, "app", 1, "EXITED")]))


# --- a journal that begins in the middle ---


def finished(letter, code):
    return f'"Generic (PLEG): container finished" podID="44444444" containerID="{identity_of(letter)}" exitCode={code}'


def test_import_of_a_crash_behind_the_begin():
    """No line has the start of what runs before: what exits first is the container, whose next start is another one of
    it, and not the sandbox, which exits last."""
    pod = {**PAIR, "spec": {"containers": [{"name": "one"}]}}
    lines = [(30.0, finished("a", 3)), (30.01, event("ContainerDied", identity_of("a"))),
             (41.0, event("ContainerStarted", identity_of("b"))),
             (60.0, '"SyncLoop DELETE" source="api" pods=["shop/pair"]'),
             (62.0, finished("b", 0)), (62.01, event("ContainerDied", identity_of("b"))),
             (63.0, event("ContainerDied", identity_of("d"))),
             (64.0, '"SyncLoop REMOVE" source="api" pods=["shop/pair"]')]
    status, rows = rows_of(pod, *lines)
    expect("import of a crash behind the begin", (status, [row[:5] for row in rows]), (0, [
        (0, "one", 0, "RUNNING", None), (30, "one", 0, "EXITED", 3), (41, "one", 1, "RUNNING", None),
        (62, "one", 1, "EXITED", 0)]))


def test_import_of_a_pod_that_goes_behind_the_begin():
    """The first line of a pod may be that it is deleted, or that its last container has exited: it was there before,
    and what it ran is an app and no init container. Its sandbox is none of it."""
    spec = {"initContainers": [{"name": "first"}], "containers": [{"name": "app"}]}
    lines = [(32.0, event("ContainerDied", identity_of("a"))), (33.0, event("ContainerDied", identity_of("d"))),
             (34.0, '"SyncLoop REMOVE" source="api" pods=["shop/pair"]')]
    for name, before in (("deleted", [(30.0, '"SyncLoop DELETE" source="api" pods=["shop/pair"]')]), ("gone", [])):
        status, rows = rows_of({**PAIR, "spec": spec}, *before, *lines)
        expect(f"import of a pod that is {name} behind the begin", (status, [row[:4] for row in rows]), (0, [
            (0, "app", 0, "RUNNING"), (32, "app", 0, "EXITED")]))


def test_import_of_a_deletion_of_what_had_ended():
    """A pod that was evicted long before, and is deleted now, runs nothing: it comes into no tick, as none of a line
    alone does. One that ran in the journal and was forgotten does not come again."""
    ends = [(60.0, '"SyncLoop DELETE" source="api" pods=["shop/pair"]'),
            (60.1, '"SyncLoop REMOVE" source="api" pods=["shop/pair"]')]
    expect("import of a deletion of what had ended before", rows_of(PAIR, *ends), (0, []))
    with tempfile.NamedTemporaryFile("w", suffix=".json") as file:
        json.dump(PAIR, file)
        file.flush()
        pods = [each["pod"]["metadata"]["name"] for each in pod_lines(imported(
            "--pods", file.name, given=added(read(f"{FOLDER}/keyed.log"), *ends))[1])]
        expect("import of a deletion of what had ended before: the pods", pods, ["web", "hog"])
    looks = '"SyncLoop (probe)" probe="readiness" status="ready" pod="shop/web"'
    late = [*LATE, (70.0, '"Eviction manager: pods successfully cleaned up" pods=["shop/hog"]'),
            *((float(moment), looks) for moment in range(75, 2400, 5)),
            (2400.0, '"SyncLoop DELETE" source="api" pods=["shop/hog"]'),
            (2400.1, '"SyncLoop REMOVE" source="api" pods=["shop/hog"]'), (2410.0, looks)]
    text = with_lines(*late).replace(line(100.0, '"SyncLoop REMOVE" source="api" pods=["shop/none"]').replace(
        "a.go", "eviction_manager.go"), "")
    trace = imported(given=text)[1]
    expect("import of a deletion of what was evicted", [
        each["pod"]["metadata"]["name"] for each in pod_lines(trace)], ["web", "hog"])


# --- what a cluster has ---


def test_import_of_events_of_other_times_and_nodes():
    """A cluster's list has Events of pods of all nodes, and of before the journal and after it: none of these makes a
    pod, or a tick."""
    def started(pod, at):
        return {"kind": "Event", "involvedObject": {"kind": "Pod", "name": pod, "namespace": "shop", "uid": f"u-{pod}",
                                                    "fieldPath": "spec.containers{app}"},
                "reason": "Started", "message": "Started container app", "count": 1, "lastTimestamp": at}

    with tempfile.NamedTemporaryFile("w", suffix=".json") as file:
        json.dump({"items": [started("elsewhere", "2026-03-01T10:00:30Z"), started("before", "2026-03-01T09:00:00Z"),
                             started("behind", "2026-03-01T11:00:00Z"), started("web", "2026-03-01T09:00:00Z")]}, file)
        file.flush()
        status, trace, _ = imported("--journal", f"{FOLDER}/keyed.log", "--events", file.name)
    expect("import of events of other times and nodes", (status, trace), (0, read(f"{FOLDER}/keyed.trace")))


# --- what is a container's own ---


def test_import_of_an_output_that_looks_like_a_line():
    """What a container's probe puts out may look like a line of a runtime, or of the kubelet: it is part of a line."""
    text, wanted = read(f"{FOLDER}/keyed.log"), read(f"{FOLDER}/keyed.trace")
    of_exit = (f'time="2026-03-01T10:00:31Z" level=info msg="received exit event container_id:\\"{WEB_ID}a1\\" id:'
               f'\\"{WEB_ID}a1\\" pid:71 exit_status:9 exited_at:{{seconds:{BEGUN + 31}}}"')
    fake = 'I0301 10:00:31.000000    2211 kubelet.go:1] "SyncLoop DELETE" source="api" pods=["shop/hog"]'
    liveness = f'Liveness probe for "none_shop({UIDS["web"]}):app" errored: '
    for name, hostile in (
            ("a runtime's line", f'"Exec probe response" response=<\n\tx\n\t{of_exit}\n >'),
            ("a runtime's line of 1.20", f"{liveness}x\n{of_exit}"),
            ("a line of another message", f'"Probe errored" err=<\n\tx\n\t{of_exit}\n > pod="shop/none"'),
            ("a kubelet's line", f'"Exec probe response" response=<\n\tx\n\t{fake}\n >')):
        first, rest = text.split("I0301 10:00:35.000", 1)
        given = f"{first}{line(31.0, hostile)}I0301 10:00:35.000{rest}"
        for form, made in (("text", given), ("a journal", in_journal(given))):
            status, trace, _ = imported(given=made)
            expect(f"import of an output as {name}, {form}", (status, trace), (0, wanted))
