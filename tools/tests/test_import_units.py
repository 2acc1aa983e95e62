"""The tests of whose lines an import reads in a journal of a whole node, by their units: the kubelet's, a runtime's and
the kernel's; and of what a runtime logs of exits. The forms of runtimes and of the kernel are written from knowledge,
except the form of containerd 1.6, which is as it was."""

import json

import cases
from checks import expect, expect_refused, read
from test_import import FOLDER, imported, lines_of, listings_of
from test_import_forms import UIDS, WEB_ID, line
from test_import_evictions import BEGUN

load_tests = cases.loaded(__name__)

LATER_ID = f"{WEB_ID}a9"
SANDBOX = f"{WEB_ID}f0"


def record(second, said, unit=None, name="kubelet", process="2211", fraction="000000", **more):
    """A line as `journalctl -o json` has it."""
    of_unit = {} if unit is None else {"_SYSTEMD_UNIT": unit}
    return json.dumps({"__REALTIME_TIMESTAMP": f"{second}{fraction}", "_HOSTNAME": "worker-3", "_PID": process,
                       "SYSLOG_IDENTIFIER": name, **of_unit, "MESSAGE": said, **more}) + "\n"


def whole(text, *others, unit="kubelet.service", name="kubelet"):
    """A journal of a node, with lines of others: (moment, text, unit, name)."""
    rows = [(second, int(fraction), record(second, each, unit, name, process, fraction))
            for each, second, fraction, process, *_ in lines_of(text)]
    rows += [(BEGUN + int(at), int(at % 1 * 1e6), record(BEGUN + int(at), said, of_unit, of_name, "77",
                                                          f"{round(at % 1 * 1e6):06}"))
             for at, said, of_unit, of_name in others]
    return "".join(row for *_, row in sorted(rows, key=lambda each: each[:2]))


def klog(at, said):
    return line(at, said).rstrip("\n").replace("   2211", "     77")


FORGED = [(30.0, f'"Killing container with a grace period" pod="shop/web" podUID="{UIDS["web"]}" containerName="app" '
                 f'containerID="containerd://{WEB_ID}a0" gracePeriod=30'),
          (31.0, '"Eviction manager: pod is evicted successfully" pod="shop/web"'),
          (32.0, f'"SyncLoop (PLEG): event for pod" pod="shop/web" event={{"ID":"{UIDS["web"]}","Type":"ContainerDied",'
                 f'"Data":"{WEB_ID}a1"}}')]


def test_import_of_a_whole_journal():
    """Lines of another unit show nothing of the kubelet, whatever name its process gives itself: neither kube-proxy's
    lines, nor what a container writes that logs to journald."""
    text, wanted = read(f"{FOLDER}/keyed.log"), read(f"{FOLDER}/keyed.trace")
    proxy = [(5.0 + 3 * place, klog(5 + 3 * place, f'"Successfully retrieved node IP" ip="{place}"'),
              "kube-proxy.service", "kube-proxy") for place in range(12)]
    for name, unit, program in (("a container", "docker.service", "kubelet"), ("its scope", f"crio-{WEB_ID}.scope",
                                                                             "kubelet"),
                                ("a name alone", None, "app")):
        forged = [(at, klog(at, said), unit, program) for at, said in FORGED]
        status, trace, _ = imported(given=whole(text, *proxy, *forged))
        expect(f"import of a whole journal with lines of {name}", (status, trace), (0, wanted))
    runtime = f'time="2026-03-01T10:00:33Z" level=info msg="StopContainer for \\"{WEB_ID}a1\\" returns successfully"'
    for unit in ("cri-containerd-aa.scope", "docker.service"):
        status, trace, _ = imported(given=whole(text, (33.0, runtime, unit, "containerd")))
        expect(f"import of a runtime's line of {unit}", (status, trace), (0, wanted))


def test_import_of_other_units():
    """The kubelet of a distribution has another unit, which --unit names; the units of OpenShift and EKS are known."""
    text, wanted = read(f"{FOLDER}/keyed.log"), read(f"{FOLDER}/keyed.trace")
    for unit, name in (("kubelet.service", "kubenswrapper"), ("snap.kubelet-eks.daemon.service", "kubelet-eks.daemon"),
                       (None, "hyperkube")):
        expect(f"import of {unit}", imported(given=whole(text, unit=unit, name=name))[:2], (0, wanted))
    for unit, name, word in (("k3s.service", "k3s", "k3s"), ("rke2-agent.service", "rke2", "rke2-agent"),
                             ("snap.microk8s.daemon-kubelite.service", "microk8s.daemon-kubelite", "daemon-kubelite")):
        given = whole(text, unit=unit, name=name)
        expect_refused(f"import of {unit} without --unit", imported(given=given), 1, f"are of '{unit}'")
        expect(f"import of {unit}", imported("--unit", word, given=given)[:2], (0, wanted))


def test_import_of_shims():
    """A containerd up to 1.7 reports an exit that nobody ordered as the shim's disconnection: as text, as JSON and in a
    journal; and once a line has the code, that is taken too."""
    said = [(5.5, "RunPodSandbox for &PodSandboxMetadata{Name:web,Uid:%s,Namespace:shop,Attempt:0,} returns sandbox id "
                  f'"{SANDBOX}"' % UIDS["web"], ""),
            (6.0, f'CreateContainer within sandbox "{SANDBOX}" for &ContainerMetadata{{Name:app,Attempt:0,}} returns '
                  f'container id "{LATER_ID}"', ""),
            (6.2, f'StartContainer for "{LATER_ID}" returns successfully', ""),
            (20.1, "shim disconnected", LATER_ID), (20.2, "cleaning up after shim disconnected", LATER_ID),
            (40.0, "shim disconnected", SANDBOX)]
    wanted = [(6, "app", 0, "RUNNING", None), (20, "app", 0, "EXITED", 137)]
    as_text = "".join(f'time="2026-03-01T10:00:{at:09.6f}Z" level=info msg={json.dumps(each)}'
                      f'{f" id={identity}" if identity else ""}\n' for at, each, identity in said)
    as_records = "".join(json.dumps({"level": "info", "msg": each, "time": f"2026-03-01T10:00:{at:09.6f}Z",
                                     **({"id": identity} if identity else {})}) + "\n" for at, each, identity in said)
    in_unit = whole("", *((at, each, "containerd.service", "containerd") for (at, *_), each in zip(
        said, as_text.splitlines())))
    for name, given in (("text", as_text), ("JSON", as_records), ("a journal", in_unit)):
        status, trace, _ = imported("--node", "worker-3", given=given)
        rows = [(at - BEGUN, *rest[:4]) for at, _, *rest in listings_of(trace)]
        expect(f"import of shims, {name}", (status, rows), (0, wanted))
    code = 'time="2026-03-01T10:00:20.3Z" level=info msg="TaskExit event &TaskExit{ContainerID:%s,ID:%s,Pid:7,' \
           'ExitStatus:3,ExitedAt:2026-03-01 10:00:20 +0000 UTC,}"\n' % (LATER_ID, LATER_ID)
    rows = [(at - BEGUN, *rest[:4]) for at, _, *rest in
            listings_of(imported("--node", "worker-3", given=as_text + code)[1])]
    expect("import of a shim and of a code behind it", rows, [wanted[0], (20, "app", 0, "EXITED", 3)])


def test_import_of_later_runtimes():
    """From 2.1 on containerd has words of its own for exits of containers and of sandboxes; CRI-O's monitors have
    codes, with 20 digits of an id."""
    text = read(f"{FOLDER}/containerd.log")
    for words in ("received container exit event", "received exit event"):
        made = "".join(each.replace("TaskExit event", words) for each in text.splitlines(keepends=True))
        status, trace, _ = imported("--node", "worker-3", given=made)
        expect(f"import of {words}", (status, [row[4:6] for row in listings_of(trace)]), (0, [
            ("RUNNING", None), ("EXITED", 3), ("RUNNING", None)]))
    made = [(6.0, f"Created container {LATER_ID}: shop/web/app", "crio.service", "crio"),
            (6.2, f'"Started container" PID=72 containerID={LATER_ID} description=shop/web/app id=3', "crio.service",
             "crio"),
            (20.0, f"conmon {LATER_ID[:20]} <ninfo>: container 72 exited with status 4",
             f"crio-conmon-{LATER_ID}.scope", "conmon"),
            (21.0, f"Removed container {LATER_ID}: shop/web/app", "crio.service", "crio")]
    given = whole("", *((at, said if name == "conmon" else f'time="x" level=info msg={said}', unit, name)
                        for at, said, unit, name in made))
    status, trace, _ = imported("--node", "worker-3", given=given)
    expect("import of CRI-O's monitor", (status, [(row[0] - BEGUN, *row[4:]) for row in listings_of(trace)]), (0, [
        (6, "RUNNING", None), (20, "EXITED", 4)]))


# --- what lines have of kills for memory ---


def reasons_in(trace, pod="shop/web"):
    """The reasons of exits, by the attempt."""
    found = {}
    for tick in map(json.loads, trace.splitlines()):
        for entry in tick.get("pods") or []:
            for each in entry["containers"] if entry["pod"] == pod else ():
                found.setdefault(each["attempt"], each.get("reason")) if "exitCode" in each else None
                if "ended" in each:
                    found.setdefault(each["attempt"] - 1, each["ended"].get("reason"))
    return found


def test_import_of_kills_for_memory():
    """The kernel's line has a container's id; the kubelet's has a moment, and is of the only container that died then.
    One whose container goes on, and a container's own line of these words, give no exit a reason."""
    text = read(f"{FOLDER}/keyed.log")
    dead = f"{WEB_ID}a0"
    killed = f"oom-kill:constraint=CONSTRAINT_MEMCG,nodemask=(null),cpuset={dead},mems_allowed=0,oom_memcg=/kubepods/" \
             "burstable/pod{0}/{1},task_memcg=/kubepods/burstable/pod{0}/{1},task=app,pid=72,uid=0"
    words = killed.format(UIDS["web"], dead.ljust(64, "0")[:64])
    long_id = dead.ljust(64, "0")[:64]
    of_kernel = text.replace(dead, long_id)
    [died] = [at for at, *_, code in [row[:6] for row in listings_of(imported(given=text)[1]) if row[1] == "shop/web"]
              if code is not None][:1]
    at = died - BEGUN - 0.5
    for name, unit, program, wanted in (("the kernel", None, "kernel", "OOMKilled"),
                                        ("a container", "docker.service", "kernel", None)):
        status, trace, _ = imported(given=whole(of_kernel, (at, words, unit, program)))
        expect(f"import of a kill for memory by a line of {name}", (status, reasons_in(trace)[0]), (0, wanted))
    status, trace, _ = imported(given=whole(of_kernel, (at - 9, words, None, "kernel")))
    expect("import of a kill after which the container went on", (status, reasons_in(trace)[0]), (0, None))
    stamp = f"2026-03-01 10:00:{at:09.6f}"
    for name, said in (("a sentence", f"Got sys oom event: &{{72 app {stamp} +0000 UTC m=+9.1 / / }}"),
                       ("keys", f'"Got sys oom event" event="&{{Pid:72 ProcessName:app TimeOfDeath:{stamp} +0000 UTC '
                                'ContainerName:/ VictimContainerName:/ Constraint:CONSTRAINT_MEMCG}"')):
        lines = [each for each in text.splitlines(keepends=True) if f'containerID="{dead}" exitCode' not in each]
        given = "".join(sorted([*lines, line(at + 0.9, said)], key=lambda each: each[1:20]))
        expect(f"import of a kill for memory, {name}", reasons_in(imported(given=given)[1])[0], "OOMKilled")
