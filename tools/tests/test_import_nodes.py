"""The tests of what a kubelet logs at -v=0 of hooks, of volumes and of the node itself: that it is not Ready, that its
containers' states can't be read, that it shuts down. The sentences of 1.20 are as they were in a log, except what such
a node did not do; all others are from knowledge."""

import json

import cases
from checks import expect, read
from test_import import FOLDER, as_json, imported
from test_import_forms import UIDS, added
from test_import_evictions import BEGUN

load_tests = cases.loaded(__name__)

UID = UIDS["web"]
HOOK = 'Exec lifecycle hook ([sh -c exit 1]) for Container \\"app\\" in Pod \\"web_shop({0})\\" failed - error: ' \
       "command 'sh -c exit 1' exited with 1: , message: \\\"\\\"".format(UID)


def said_in(trace, pod="shop/web"):
    """What the lines have of a pod: each reason with its second and its container."""
    return [(each["at"] - BEGUN, each["reason"], each.get("container")) for tick in map(json.loads, trace.splitlines())
            for entry in tick.get("pods") or [] if entry["pod"] == pod for each in entry.get("said") or ()]


def test_import_of_a_hook_that_fails():
    """A container whose postStart hook fails is ended by the kubelet: the line of the sync has its name, at each
    verbosity."""
    text = read(f"{FOLDER}/keyed.log")
    at_once = "PostStartHookError: command 'sh -c exit 1' exited with 1: : "
    forms = {"1.20": f'Error syncing pod {UID} ("web_shop({UID})"), skipping: failed to "StartContainer" for "app" '
                     f'with {at_once}"{HOOK}"',
             "keys": '"Error syncing pod, skipping" err=' + json.dumps(
                 'failed to "StartContainer" for "app" with PostStartHookError: "PostStartHook failed"')
                     + f' pod="shop/web" podUID="{UID}"'}
    for name, said in forms.items():
        status, trace, _ = imported(given=added(text, (41.5, said), (47.5, said)))
        found = [each for each in said_in(trace) if each[1] == "FailedPostStartHook"]
        expect(f"import of a hook that fails, {name}", (status, found), (0, [(41, "FailedPostStartHook", "app")]))
        expect(f"import of a hook that fails, {name}: its command is not kept", "exit 1" in trace, False)


def test_import_of_volumes():
    """Lines of -v=0 report a volume that can't be mounted as the Event does: by a pod's uid, and once the kubelet has
    waited for two minutes by its name; and once where the Event is there too."""
    text = read(f"{FOLDER}/keyed.log")
    of_volume = f'\\"kubernetes.io/secret/{UID}-t\\"'
    operation = f'Operation for "{{volumeName:kubernetes.io/secret/{UID}-t podName:{UID} nodeName:}}" failed. No ' \
                'retries permitted until 2026-03-01 10:00:12 +0000 UTC m=+2.5 (durationBeforeRetry 500ms). Error: ' \
                f'QUOTEMountVolume.SetUp failed for volume \\"t\\" (UniqueName: {of_volume}) pod \\"web\\" (UID: ' \
                f'\\"{UID}\\") : secret \\"tls\\" not foundQUOTE'
    plain = operation.replace('\\"', '"').replace("QUOTE", "")
    unable = "unmounted volumes=[t], unattached volumes=[t]: timed out waiting for the condition"
    forms = {"1.20": operation.replace("QUOTE", '"'), "1.24": plain,
             "1.20, in the end": f'Unable to attach or mount volumes for pod "web_shop({UID})": {unable}; skipping pod',
             "keys, in the end": f'"Unable to attach or mount volumes for pod; skipping pod" err="{unable}" '
                                 'pod="shop/web"'}
    for name, said in forms.items():
        status, trace, _ = imported(given=added(text, (11.5, said), (14.5, said)))
        expect(f"import of a volume that can't be mounted, {name}", (status, said_in(trace)[:1]), (
            0, [(11, "FailedMount", None)]))
        expect(f"import of a volume that can't be mounted, {name}: once",
               [each[1] for each in said_in(trace)].count("FailedMount"), 1)
    event = '"Event occurred" object="shop/web" fieldPath="" kind="Pod" apiVersion="v1" type="Warning" ' \
            'reason="FailedMount" message="MountVolume.SetUp failed for volume \\"t\\" : secret \\"tls\\" not found"'
    trace = imported(given=added(text, (11.4, event), (11.5, forms["1.20"]), (14.5, event)))[1]
    expect("import of a volume of which an Event speaks too", said_in(trace)[:2].count((11, "FailedMount", None)), 1)
    records = as_json(text).splitlines()
    records.append(json.dumps({"ts": (BEGUN + 11.5) * 1000, "caller": "a.go:1", "v": 0, "msg": plain}))
    trace = imported("--node", "worker-3",
                     given="\n".join(sorted(records, key=lambda each: json.loads(each)["ts"])))[1]
    expect("import of a volume that can't be mounted, JSON", said_in(trace)[:1], [(11, "FailedMount", None)])


def not_ready_in(trace):
    """From when to when the node was not Ready, and why."""
    found, last = [], None
    for tick in map(json.loads, trace.splitlines()):
        now = tick.get("nodeReady") if tick["kind"] == "tick" else last
        if now != last:
            found.append((tick["at"] - BEGUN, now and (now["status"], now.get("reason"), now["since"] - BEGUN)))
        last = now
    return found


SKIPPED = "skipping pod synchronization - {}", '"Skipping pod synchronization" err="{}"'
PLEG = "PLEG is not healthy: pleg was last seen active 3m5s ago; threshold is 3m0s"


def test_import_of_a_node_that_is_not_ready():
    """A kubelet that does nothing for pods logs that each five seconds; that it goes on shows by its silence. A
    condition has its own lines. What a kubelet logs while it starts is no fault of the node."""
    text = read(f"{FOLDER}/keyed.log")
    for form in SKIPPED:
        for said, word in ((PLEG, "PLEGNotHealthy"), ("container runtime is down", "ContainerRuntimeDown")):
            lines = [(at, form.format(said)) for at in (43.0, 48.0, 53.0)]
            status, trace, _ = imported(given=added(text, *lines))
            expect(f"import of a node that is not Ready, {form[:12]}, {word}", (status, not_ready_in(trace)), (
                0, [(43, ("False", word, 43)), (58, None)]))
        starting = form.format("PLEG is not healthy: pleg has yet to be successful")
        expect(f"import of a start, {form[:12]}", not_ready_in(imported(given=added(text, (1.0, starting)))[1]), [])
    condition = "{Type:Ready Status:False LastHeartbeatTime:2026-03-01 10:00:30 +0000 UTC LastTransitionTime:" \
                "2026-03-01 10:00:30 +0000 UTC Reason:KubeletNotReady Message:container runtime network not ready}"
    recorded = {"1.20": ("Node became not ready: " + condition, "Recording NodeReady event message for node worker-3"),
                "keys": (f'"Node became not ready" node="worker-3" condition={condition}',
                         '"Recording event message for node" node="worker-3" event="NodeReady"')}
    for name, (begin, end) in recorded.items():
        trace = imported(given=added(text, (31.0, begin), (33.0, begin), (44.0, end)))[1]
        expect(f"import of a condition, {name}", not_ready_in(trace), [
            (31, ("False", "KubeletNotReady", 31)), (44, None)])
    shutdown = "Shutdown manager detected new shutdown event, isNodeShuttingDownNow"
    for name, said in (("1.20", f"{shutdown}: true"), ("keys", f'"{shutdown}" event=true')):
        expect(f"import of a shutdown, {name}", not_ready_in(imported(given=added(text, (70.0, said)))[1]), [
            (70, ("False", "NodeShutdown", 70))])
