"""The tests of when an imported trace shows that the kubelet evicted a pod: as it decided that, by the lines of the
decision, and not where it shows that the pod's containers have stopped. The lines are hand-written, in both forms."""

import json
import tempfile

import cases
from checks import expect, read
from test_import import FOLDER, checked, imported, listings_of

load_tests = cases.loaded(__name__)

BEGUN = 1772359200
HOG, WEB = ("hog_shop(22222222-2222-2222-2222-222222222222)", "web_shop(11111111-1111-1111-1111-111111111111)")
HOG_ID = f"bbbb{'0' * 58}"
LOW = "The node was low on resource: memory."
WHOLE = "The node was low on resource: memory. Container main was using 70Mi, which exceeds its request of 0."
LIMIT = 'Usage of EmptyDir volume \\"data\\" exceeds the limit \\"10Mi\\".'
RANKED, RECLAIMS = "pods ranked for eviction", "attempting to reclaim"
KILLING, EXITED = "Killing container", "ContainerDied"
SUCCESS, WAITING = "is evicted successfully", "waiting for pod to be cleaned up"
# the second form of each line, with keys
KEYED = {
    RECLAIMS: '"Eviction manager: attempting to reclaim" resourceName="memory"',
    RANKED: '"Eviction manager: pods ranked for eviction" pods=["shop/hog","shop/web"]',
    KILLING: '"Killing container with a grace period" pod="shop/hog" podUID="22222222-2222-2222-2222-222222222222" '
             f'containerName="main" containerID="containerd://{HOG_ID}a0" gracePeriod=1',
    EXITED: '"SyncLoop (PLEG): event for pod" pod="shop/hog" event={"ID":"22222222-2222-2222-2222-222222222222",'
            f'"Type":"ContainerDied","Data":"{HOG_ID}a0"}}',
    SUCCESS: '"Eviction manager: pod is evicted successfully" pod="shop/hog"',
    WAITING: '"Eviction manager: pods evicted, waiting for pod to be cleaned up" pods=["shop/hog"]',
    "failed": '"Eviction manager: pod failed to evict" err="timeout waiting to kill pod" pod="shop/hog"',
    "event": f'"Event occurred" object="shop/hog" kind="Pod" type="Warning" reason="Evicted" message="{WHOLE} "'}
PRINTED = {
    RECLAIMS: "eviction manager: attempting to reclaim memory",
    RANKED: f"eviction manager: pods ranked for eviction: {HOG}, {WEB}",
    KILLING: f'Killing container "containerd://{HOG_ID}a0" with a 1 second grace period',
    EXITED: f'SyncLoop (PLEG): "{HOG}", event: &pleg.PodLifecycleEvent{{ID:"22222222-2222-2222-2222-222222222222", '
            f'Type:"ContainerDied", Data:"{HOG_ID}a0"}}',
    SUCCESS: f"eviction manager: pod {HOG} is evicted successfully",
    WAITING: f"eviction manager: pods {HOG} evicted, waiting for pod to be cleaned up",
    "failed": f"eviction manager: pod {HOG} failed to evict timeout waiting to kill pod", "event": KEYED["event"]}
# what a kubelet logs of an eviction whose kill takes it 7 s
LATE = ((60.0, RECLAIMS), (60.02, RANKED), (60.03, KILLING), (65.9, EXITED), (67.5, SUCCESS), (68.0, WAITING))


def line(moment, said):
    return f"I0301 10:{int(moment) // 60:02}:{moment % 60:09.6f}    2211 eviction_manager.go:1] {said}\n"


def with_lines(*lines, form=KEYED):
    """The log of the tests, whose first minute has the starts of two pods, with other lines in place of the rest."""
    first = read(f"{FOLDER}/keyed.log").partition("I0301 10:01:00.0")[0]
    rest = [line(moment, form.get(said, said)) for moment, said in lines]
    return first + "".join(rest) + line(100.0, '"SyncLoop REMOVE" source="api" pods=["shop/none"]')


def ended_in(trace):
    """Whom the ticks show that the kubelet evicted, when and with which message; and the seconds of `failed`."""
    ticks = [each for each in map(json.loads, trace.splitlines()) if each["kind"] == "tick"]
    told = [(each["at"] - BEGUN, each["pod"], each["message"] if "message" in each else None)
            for tick in ticks for each in (tick.get("kubelet") or {}).get("evicted", ())]
    failed = [(tick["at"] - BEGUN, entry["pod"]) for tick in ticks for entry in tick["pods"] if "failed" in entry]
    return told, failed


def expect_eviction(name, text, wanted, *words, failed=None):
    """The eviction of one pod, in a second and with a message, and the second with which it has failed."""
    status, trace, said = imported(*words, given=text)
    at, message = wanted
    expect(name, (status, *ended_in(trace)), (0, [(at, "shop/hog", message)], [(failed or at, "shop/hog")]))
    return trace, said


def without(lines, *left_out):
    return [each for each in lines if each[1] not in left_out]


def test_import_of_an_eviction_that_is_told_late():
    """It is at the round's ranking, with `failed`, and the exit after it; so in both forms."""
    for name, form in (("keys", KEYED), ("sentences", PRINTED)):
        trace, _ = expect_eviction(f"import of an eviction that is told late, {name}",
                                   with_lines(*LATE, form=form), (60, LOW))
        exits = [row for row in listings_of(trace) if row[1] == "shop/hog" and row[4] == "EXITED"]
        expect(f"import of an eviction that is told late, {name}: the exit", [row[0] - BEGUN for row in exits], [65])
        said = [each for tick in map(json.loads, trace.splitlines()) for entry in tick.get("pods") or []
                for each in entry.get("said", ()) if each["reason"] == "RankedForEviction"]
        expect(f"import of an eviction that is told late, {name}: the ranking", said, [{
            "at": BEGUN + 60, "reason": "RankedForEviction", "message": "to reclaim memory: shop/hog, shop/web"}])


def test_import_of_an_eviction_that_is_told_very_late():
    """What is more than ten minutes before has the moment of the decision, in the first tick that can have it."""
    looks = '"SyncLoop (probe)" probe="readiness" status="ready" pod="shop/web"'
    late = without(LATE, SUCCESS, WAITING)
    for until, is_late in ((600.0, False), (900.0, True)):
        lines = [*late, *((float(moment), looks) for moment in range(75, 1500, 5) if moment != until), (until, SUCCESS)]
        text = with_lines(*sorted(lines)).replace(line(100.0, '"SyncLoop REMOVE" source="api" pods=["shop/none"]'), "")
        trace = imported(given=text)[1]
        told, [(failed, _)] = ended_in(trace)
        expect(f"import of an eviction that is told {until - 60:.0f} s late", (told, failed > 60), (
            [(60, "shop/hog", LOW)], is_late))
        expect(f"import of an eviction that is told {until - 60:.0f} s late: the program takes it", checked(trace), 0)


def test_import_of_an_eviction_whose_kill_fails():
    """A kubelet that can't stop the containers in time shows that it failed to evict the pod, and has evicted it."""
    for name, form in (("keys", KEYED), ("sentences", PRINTED)):
        late = [*without(LATE, SUCCESS, WAITING, EXITED), (71.5, "failed")]
        expect_eviction(f"import of an eviction whose kill fails, {name}", with_lines(*late, form=form), (60, LOW))
        expect_eviction(f"import of an eviction that the next line alone tells, {name}", with_lines(
            *without(LATE, SUCCESS), form=form), (60, LOW))
    other = KEYED[WAITING].replace("pods evicted,", "evicted pods,")
    expect_eviction("import of an eviction that the next line alone tells, as later kubelets say it", with_lines(
        *without(LATE, SUCCESS, WAITING), (68.0, other)), (60, LOW))


def test_import_of_an_eviction_behind_a_pod_that_is_spared():
    """The first of a ranking may be one that a kubelet evicts never: the first that it evicts counts."""
    ranked = KEYED[RANKED].replace('"shop/hog","shop/web"', '"shop/web","shop/hog"')
    spared = '"Eviction manager: cannot evict a critical pod" pod="shop/web"'
    expect_eviction("import of an eviction behind a pod that is spared", with_lines(
        (60.0, RECLAIMS), (60.02, ranked), (60.021, spared), *LATE[2:]), (60, LOW))


def test_import_of_an_eviction_of_another_round():
    """A ranking shows nothing of what is evicted once another round has begun, or another kubelet."""
    late = [(55.0, RECLAIMS), (55.02, RANKED), *without(LATE, RECLAIMS, RANKED, KILLING)]
    expect_eviction("import of an eviction of a ranking before", with_lines(*late), (55, LOW))
    for name, said in (("another round", RECLAIMS), ("a round that says nothing of its own",
                                                     '"Eviction manager: synchronize housekeeping"')):
        expect_eviction(f"import of an eviction behind {name}", with_lines(
            *late[:2], (60.0, said), *late[2:]), (67, None))
    text = with_lines(*late[:2], (60.0, "other"), *late[2:])
    at = text.index("I0301 10:01:00.000000")
    anew = text[:at] + text[at:].replace("    2211 ", "    9999 ")
    expect_eviction("import of an eviction behind another kubelet", anew, (67, None))


def test_import_of_an_eviction_by_a_limit_of_its_own():
    """No ranking has the pod: the Event has the decision, else the first order to stop a container; else the exit that
    it led to, and else the line itself."""
    limit = [*without(LATE, RECLAIMS, RANKED)]
    event = KEYED["event"].replace(f"{WHOLE} ", LIMIT)
    expect_eviction("import of an eviction by a limit of its own", with_lines(*limit), (60, None))
    expect_eviction("import of an eviction by a limit of its own, with an Event", with_lines(
        (58.5, event), *limit), (58, 'Usage of EmptyDir volume "data" exceeds the limit "10Mi".'))
    expect_eviction("import of an eviction by a limit of its own, without an order", with_lines(
        (66.9, EXITED), *without(limit, KILLING, EXITED)), (66, None))
    expect_eviction("import of an eviction by a limit of its own, long behind the exit", with_lines(
        *without(limit, KILLING)), (67, None), failed=67)
    deleted = (59.0, '"SyncLoop DELETE" source="api" pods=["shop/hog"]')
    expect_eviction("import of an eviction of a pod that is deleted", with_lines(deleted, *limit), (67, None))


def test_import_of_an_eviction_that_an_event_alone_tells():
    """A log that ends before the line with the reason; a pod that was not admitted has the same reason, and never
    ran."""
    short = without(LATE, SUCCESS, WAITING)
    expect_eviction("import of an eviction that an Event alone tells", with_lines(
        *short[:2], (60.021, "event"), *short[2:]), (60, WHOLE))
    refused = KEYED["event"].replace(f"{WHOLE} ", "The node had condition: [MemoryPressure]. ")
    status, trace, _ = imported(given=with_lines((60.021, refused)))
    expect("import of an Event of a refusal", (status, ended_in(trace)), (0, ([], [])))


def test_import_of_the_message_of_an_eviction():
    """The Event of the pod itself has it, and not the Event of one before under its name; so has the pod's status."""
    again = (("68.0", WAITING), ("69.0", '"SyncLoop REMOVE" source="api" pods=["shop/hog"]'))
    pod = {"kind": "Pod", "metadata": {"name": "hog", "namespace": "shop",
                                       "uid": "22222222-2222-2222-2222-222222222222"},
           "spec": {"containers": [{"name": "main"}]},
           "status": {"phase": "Failed", "reason": "Evicted", "message": f"{WHOLE} "}}
    with tempfile.NamedTemporaryFile("w", suffix=".json") as file:
        json.dump({"kind": "List", "items": [pod]}, file)
        file.flush()
        expect_eviction("import of an eviction that a status explains", with_lines(*LATE), (60, WHOLE),
                        "--pods", file.name)
    uid, other = "22222222-2222-2222-2222-222222222222", "33333333-3333-3333-3333-333333333333"
    next_one = "".join(line(float(moment), KEYED.get(said, said)) for moment, said in again)
    next_one += line(70.0, '"SyncLoop ADD" source="api" pods=["shop/hog"]')
    next_one += "".join(
        line(71.0 + place / 10, KEYED[EXITED].replace("ContainerDied", "ContainerStarted").replace(
            uid, other).replace(f"{HOG_ID}a0", f"cccc{'0' * 58}{end}")) for place, end in enumerate(("f0", "a0")))
    next_one += "".join(line(moment + 20, KEYED[said].replace(uid, other).replace(HOG_ID, f"cccc{'0' * 58}"))
                        for moment, said in without(LATE, RECLAIMS, RANKED))
    first = with_lines((60.01, "event"), *without(LATE, WAITING)).rpartition("I0301 10:01:40")[0]
    trace = imported(given=first + next_one)[1]
    expect("import of evictions of two pods of one name", ended_in(trace)[0], [
        (60, "shop/hog", WHOLE), (80, "shop/hog", None)])


def test_import_of_a_start_behind_an_eviction():
    """Where a container's sync was on its way as the kubelet decided, the pod has failed with the start, whose tick has
    it; what had exited by itself, as the next look finds, is in the tick too."""
    started = KEYED[EXITED].replace("ContainerDied", "ContainerStarted").replace(f"{HOG_ID}a0", f"{HOG_ID}a1")
    killed = [(60.03, EXITED), (62.4, started),
              *((moment, KEYED[said].replace(f"{HOG_ID}a0", f"{HOG_ID}a1")) for moment, said in LATE[2:])]
    killed = sorted((max(moment, 62.5) if "Killing" in said else moment, said) for moment, said in killed)
    trace, _ = expect_eviction("import of a start behind an eviction", with_lines(*LATE[:2], *killed), (60, LOW),
                               failed=62)
    rows = [row for row in listings_of(trace) if row[1] == "shop/hog" and row[0] >= BEGUN + 60]
    expect("import of a start behind an eviction: what is listed", [(row[0] - BEGUN, *row[3:5]) for row in rows], [
        (60, 0, "EXITED"), (62, 1, "RUNNING"), (65, 1, "EXITED")])
    crashed = [(60.9, EXITED), (61.0, SUCCESS)]
    expect_eviction("import of an exit that is found behind an eviction", with_lines(
        (59.99, RECLAIMS), (59.995, RANKED), *crashed), (59, LOW), failed=60)
