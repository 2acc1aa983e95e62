"""The tests of several traces that are joined: next to one recording of the same script, over rotations and gaps."""

import contextlib
import glob
import gzip
import io
import json
import os
import random
import re
import shutil
import tempfile
from concurrent.futures import ThreadPoolExecutor

from chance import BEGIN, SECONDS, play_of
import cases
from checks import HERE, REPLAY, TOOLS, TOP, expect, expect_kept, expect_refused, read, replayed, run
from into_plays import Into, probed_play, unpacked
from joined_plays import Folder, hourly, records, restarted_play, restarting_play, stamp

from replay_tools import traces as lib_trace
from replay_tools.joined import asked, join

load_tests = cases.loaded(__name__)

try:
    import jsonschema
    VALIDATOR = jsonschema.Draft7Validator(json.loads(read(f"{TOP}/docs/report.schema.json")))
except ImportError:
    jsonschema = None

PLAYS = 16
KEPT = f"{HERE}/joined"
# what exits, grace periods and pauses lead to may differ, since they are counted again at a rotation
TOLD = ("started", "died", "startup-passed", "kill", "ready", "unready", "phase")
OF_POD = ("pod", "phase", "ready", "ready_since", "first_tick", "restarts", "deaths", "kills", "became_unready",
          "unready_seconds")
OF_CONTAINER = ("pod", "name", "state", "code", "restarts", "ready", "started", "starts", "deaths", "kills",
                "came_again")


def told_of(lines):
    """What is shown of the pods that the rules evict nowhere: their events, their records and their containers'
    records."""
    evicted = {line["pod_number"] for line in lines if line["record"] == "eviction"}
    events = [(line["at"], line["event"], line["pod"], line["pod_number"], line.get("container"), line.get("attempt"),
               line.get("code"), line.get("reason"), line.get("phase")) for line in lines
              if line["record"] == "event" and line["event"] in TOLD]
    pods = {line["number"]: [line[name] for name in OF_POD] for line in lines if line["record"] == "pod"}
    containers = {(line["pod_number"], line["name"]): [line[name] for name in OF_CONTAINER] for line in lines
                  if line["record"] == "container"}
    return evicted, sorted(events, key=str), pods, containers


def joined_fault(play, *words, each="10s", recording=None):
    """Where traces one after the other differ, joined, from one recording of the same script, or None."""
    into = Into(play, recording)
    whole = into.record(*words, "--extended")[1]
    into.into(*words, "--each", each)
    with open(f"{into.run}/trace", "w", encoding="utf-8") as file:
        file.write(whole)
    one = run([f"{TOOLS}/json", "--trace", f"{into.run}/trace"], replayed(whole)[1])
    several = run([f"{TOOLS}/json", "--traces", into.folder])
    into.clean()
    if (one[0], several[0], several[2]) != (0, 0, ""):
        return f"{one[2]}{several[2]}"
    wanted, got = (told_of(records(answer)) for answer in (one, several))
    for side in (wanted, got):
        # a rotation has a tick, so that the end, or the first tick without a pod, may be another one
        for cells in side[2].values():
            cells[-1] = cells[-1] if cells[2] else None
    other = wanted[0] | got[0]
    for what, numbered in (("events", lambda event: event[3]), ("pods", None), ("containers", None)):
        place = ("evicted", "events", "pods", "containers").index(what)
        if what == "events":
            pair = [[event for event in side[place] if numbered(event) not in other] for side in (wanted, got)]
            differ = sorted(set(pair[0]) ^ set(pair[1]), key=str) or ([] if len(pair[0]) == len(pair[1]) else pair[1])
        else:
            differ = [(key, wanted[place].get(key), got[place].get(key)) for key in {*wanted[place], *got[place]}
                      if (key if isinstance(key, int) else key[0]) not in other
                      and wanted[place].get(key) != got[place].get(key)]
        if differ:
            return f"{what}: {differ[:3]}"
    return None


def chance_fault(seed):
    chance = random.Random(seed)
    look = chance.choice([1, 1, 1, 2, 5])
    fault = joined_fault(play_of(chance, look), "--look", str(look), "--for", str(SECONDS))
    return fault and f"play {seed}: {fault}"


def test_joined_by_chance():
    with ThreadPoolExecutor(4) as threads:
        faults = list(filter(None, threads.map(chance_fault, range(2000, 2000 + PLAYS))))
    expect("joined traces of plays by chance", faults[:1], [])


def test_joined_of_probes():
    for each in (10, 11, 13, 17):
        expect(f"joined traces of what probes have shown, each {each} s",
               joined_fault(probed_play(), "--for", str(SECONDS), each=f"{each}s"), None)


def test_joined_of_a_real_kubelet():
    for name in ("real_node", "real_kills", "real_out_of_memory"):
        folder = f"{HERE}/recordings/{name}"
        words = [word for word in read(f"{folder}/words").split() if word not in ("--standard", "--extended")]
        expect(f"joined traces of {name}", joined_fault({}, *words, each="23s", recording=folder), None)


def belongs_fault(folder, has_gaps=False):
    """Why the joined trace is not the trace of the joined report, or what a tool prints of them, where there is no gap
    to report; None where all is well."""
    environment = os.environ.get("KUBELET_REPLAY")
    os.environ["KUBELET_REPLAY"] = REPLAY
    try:
        with contextlib.redirect_stderr(io.StringIO()):
            made = join.joined(asked.Asked([folder]))
        lib_trace.check_belongs(made.trace, made.report, "the joined trace")
    finally:
        os.environ.pop("KUBELET_REPLAY")
        os.environ.update({"KUBELET_REPLAY": environment} if environment else {})
    pods = dict.fromkeys(pod.key for pod in made.report.pods)
    for words in (["story"], ["json"], ["page"], ["timeline"], *(["story", pod] for pod in pods)):
        status, _, said = run([f"{TOOLS}/{words[0]}", "--traces", folder, *words[1:]])
        if status != 0 or (said and not has_gaps) or "Traceback" in said:
            return f"{words}: {status} {said}"
    for line in records(run([f"{TOOLS}/json", "--traces", folder])) if jsonschema else ():
        fault = next(VALIDATOR.iter_errors(line), None)
        if fault:
            return f"{line}: {fault.message[:200]}"
    return None


def test_joined_belongs():
    """Over rotations each event of each script is at a tick that lists it, and each tool takes it."""
    for path in sorted(glob.glob(f"{HERE}/recordings/*/play.json")):
        name = os.path.basename(os.path.dirname(path))
        if read(f"{os.path.dirname(path)}/words").split()[:1] == ["--standard"] or "extended" not in name:
            continue
        into = Into(json.loads(read(path)))
        seconds = read(f"{HERE}/recordings/{name}/words").split("--for ")[1].split()[0]
        into.into("--for", seconds, "--each", "10s")
        expect(f"joined traces of {name}", belongs_fault(into.folder), None)
        into.clean()
    folder = f"{HERE}/recordings/real_evictions"
    words = [word for word in read(f"{folder}/words").split() if word not in ("--standard", "--extended")]
    into = Into({}, folder)
    into.into(*words, "--each", "60s")
    expect("joined traces of real_evictions", belongs_fault(into.folder), None)
    whole = into.record(*words, "--extended")[1]
    with open(f"{into.run}/trace", "w", encoding="utf-8") as file:
        file.write(whole)
    one, several = (records(run([f"{TOOLS}/json", *words], given)) for words, given in (
        (["--trace", f"{into.run}/trace"], replayed(whole)[1]), (["--traces", into.folder], "")))
    did = [[line for line in lines if line["record"] == "decision"] for lines in (one, several)]
    facts = [[(line["pod"], line["at"]) for line in lines] for lines in did]
    expect("joined traces of real_evictions: what the kubelet did", facts[1], facts[0])
    rules = [[(line["pod"], line["rules_at"], line["agrees"]) for line in lines] for lines in did]
    expect("joined traces of real_evictions: whom the rules name", rules[1], rules[0])
    near = run([f"{TOOLS}/story", "--traces", into.folder, "shop/h-bulk", "--at", "2026-11-27T14:28Z"])[1]
    expect("a pod that the kubelet evicted near a moment", near.split("\n")[1],
           "no restart within 600 s of 2026-11-27 14:28:00Z; nearest to it, at 2026-11-27 14:28:11Z: the kubelet "
           "evicted it")
    into.clean()
    # where the rules evict they take h-bulk before a rotation and the kubelet after it: there they begin again
    into = Into({}, folder)
    into.into(*words, "--each", "60s", "--simulate")
    told = run([f"{TOOLS}/story", "--traces", into.folder, "shop/h-bulk", "--without-why"])[1]
    again = [line.split("  ")[-1] for line in told.split("\n") if "14:28:00Z)" in line]
    expect("a pod that the rules evicted before a border is there again", again, [
        "phase Running (there again, as on the node, at 14:28:00Z)",
        "the rules evict it: memory.available hard, grace 0 s (the rules begin again at 14:28:00Z)"])
    into.clean()


def gaps_fault(seed):
    chance = random.Random(seed)
    look = chance.choice([1, 1, 2, 5])
    into = Into(play_of(chance, look))
    into.into("--look", str(look), "--for", str(SECONDS), "--each", "10s")
    names = into.names()
    for name in chance.sample(names, len(names) // 3):
        os.remove(f"{into.folder}/{name}")
    fault = belongs_fault(into.folder, has_gaps=True)
    into.clean()
    return fault and f"play {seed}: {fault}"


def test_joined_with_gaps_by_chance():
    """Also where traces are missing each event is at a tick that lists it, and each tool takes it."""
    faults = list(filter(None, map(gaps_fault, range(3000, 3006))))
    expect("joined traces with gaps of plays by chance", faults[:1], [])


def test_story_over_borders():
    """A restart over a rotation is shown once, and where exits are counted again a line reports that."""
    with Folder() as folder:
        for name, words in (("story", ["story", "web"]), ("quiet", ["story", "quiet", "--without-why"]),
                            ("pods", ["story"]), ("at", ["story", "web", "--at", "2026-01-01T00:00:50Z"]),
                            ("why", ["why", "web", "--at", "00:01:00+00:00"])):
            if name == "why":
                words[-1] = str(BEGIN + 60)
            status, told, said = folder.tell(*words)
            expect(f"several traces: {name}", (status, said), (0, ""))
            expect_kept(f"several traces: {name}: the text", told, f"{KEPT}/{name}")
        by_name = run([f"{TOOLS}/story", "web", *[word for second in (80, 60, 40, 20, 0)
                                                  for word in ("--traces", folder.place(second))]])
        expect("several traces, named in another order", by_name, folder.tell("story", "web"))
        by_pattern = folder.tell("story", "web", traces=f"{folder.path}/*.gz")
        expect("several traces, by a pattern", by_pattern, folder.tell("story", "web"))


def test_a_moment():
    """The oldest question: why was it restarted at 3:10? What is needed is replayed, and what is far is left out."""
    with tempfile.TemporaryDirectory() as folder:
        hourly(folder)
        at = ["--traces", folder, "--at", "2026-01-01T03:10Z"]
        status, told, said = run([f"{TOOLS}/story", *at, "shop/web"])
        expect("story --at", (status, said), (0, ""))
        expect_kept("story --at: the text", told, f"{KEPT}/moment")
        expect("story --at of seconds", run([f"{TOOLS}/story", *at[:3], str(BEGIN + 11400), "shop/web"])[1], told)
        status, told, said = run([f"{TOOLS}/story", *at[:3], "2026-01-01T02:10Z", "shop/web", "--without-why"])
        expect("story --at without a restart", told.split("\n")[1:3], [
            "no restart, kill, death or eviction within 600 s of 2026-01-01 02:10:00Z",
            "2 traces, 2026-01-01 01:00:00Z to 2026-01-01 02:50:00Z"])
        first = run([f"{TOOLS}/story", "--traces", folder, "--since", "2026-01-01T03:00Z", "shop/web"])[1]
        expect("what a trace shows of one that is not there", [line.split("  ")[-1] for line in first.split("\n")
                                                              if "so before this trace" in line and "app  " in line],
               ["started (so before this trace)", "ready (so before this trace)"])
        why = run([f"{TOOLS}/why", *at, "shop/web"])[1]
        heads = [line.partition("  ")[2] for line in why.split("\n") if line.startswith("2026")]
        expect("why --at", heads, [
            "app died with code 3 (attempt 1)", "app unready", "app restart (attempt 1)", "app started (attempt 2)",
            "app ready", "app died with code 3 (attempt 2)", "app unready", "app restart backed off by 10 s",
            "app started (attempt 3)", "app ready"])


def test_gap():
    """Nothing is shown of a trace that is not there: it is a gap, what came of it is at its end, and what came in it
    counts in no seconds."""
    with Folder() as folder:
        os.remove(folder.place(40))
        status, told, said = folder.tell("story", "web", "--without-why")
        expect("a gap: its status, and what is said", (status, said), (
            0, "story: n1.2026-01-01T00-01-00Z.trace.gz follows n1.2026-01-01T00-00-40Z.trace.gz, which is not there: "
               "its time is a gap\n"))
        expect_kept("a gap: the story", told, f"{KEPT}/gap")
        lines = records(folder.tell("json"))
        [gap] = [line for line in lines if line["record"] == "border" and line["is_gap"]]
        expect("a gap: its times", (gap["since"], gap["at"], gap["missing"]),
               (BEGIN + 40, BEGIN + 60, "n1.2026-01-01T00-00-40Z.trace.gz"))
        unready = {line["pod"]: line["unready_seconds"] for line in lines if line["record"] == "pod"}
        expect("a gap counts in no seconds", unready, {"shop/web": 22, "shop/quiet": 14})
        drawn = folder.tell("timeline", "shop/")[1]
        expect("a gap in a picture", "nothing was recorded from 2026-01-01 00:00:40Z" in drawn, True)
        page = folder.tell("page")[1]
        expect("a gap in a page", ('"gaps":[[40,60]]' in page, "of which nothing was recorded" in page), (True, True))
        answer = folder.tell("story", "web", "--at", "2026-01-01T00:00:50Z")
        expect("a short gap at the moment that is asked for", answer[0], 0)


def test_a_pod_that_went_before_a_gap():
    """A gap is none of a pod that was gone by then: its conditions lasted until it went."""
    play = restarting_play()
    play["pods"]["shop/early"] = {"from": 1, "until": 30, "spec": {"containers": [{"name": "app"}]}}
    play["containers"].append({"id": "e", "pod": "shop/early", "name": "app", "attempt": 0, "created": 2, "started": 3,
                               "exited": 29, "code": 0, "removed": 31})
    into = Into(play)
    into.into("--for", "90", "--each", "20s")
    os.remove(f"{into.folder}/n1.2026-01-01T00-00-40Z.trace.gz")
    told = run([f"{TOOLS}/story", "--traces", into.folder, "shop/early"])[1]
    conditions = told.partition("Conditions\n")[2].partition("\n\n")[0]
    expect("a pod that went before a gap", ("00:00:36Z" in conditions, "00:01:00Z" in conditions), (True, False))
    into.clean()


def test_gap_of_a_recorder():
    """A recorder that did not run for a while follows nothing: the time between is a gap."""
    with Folder() as folder:
        for second in (0, 20, 40):
            text = folder.text(second).replace(f":{BEGIN // 1000}", f":{BEGIN // 1000 - 4}")
            for other in (0, 20):
                text = text.replace(stamp(BEGIN + other), stamp(BEGIN + other - 4000))
            os.remove(folder.place(second))
            folder.write(f"n1.{stamp(BEGIN + second - 4000)}.trace", text)
        later = folder.text(60).replace('"follows"', '"followed"', 1)
        os.remove(folder.place(60))
        folder.write(f"n1.{stamp(BEGIN + 60)}.trace", later)
        status, told, said = folder.tell("story")
        expect("a recorder that did not run", (status, said, told.split("\n")[:2]), (0, "", [
            "5 traces, 2025-12-31 22:53:20Z to 2026-01-01 00:01:21Z",
            "1 gap in which nothing was recorded: 2025-12-31 22:54:19Z to 2026-01-01 00:01:00Z",
        ]))
        refused = folder.tell("story", "web", "--at", "2025-12-31T23:30Z")
        expect_refused("a moment in a gap", refused, 2, "nothing was recorded at 2025-12-31 23:30:00Z: the traces "
                       "around it are of 2025-12-31 22:53:20Z to 2025-12-31 22:54:19Z")
        refused = folder.tell("story", "web", "--at", "2025-12-31T23:55Z")
        expect_refused("a moment in a gap that another trace ends", refused, 2,
                       "there is a gap from 2025-12-31 22:54:19Z to 2026-01-01 00:01:00Z")


def test_recorder_that_starts_again():
    """Its first ticks show what the statuses of the pods have, and are before it began: nothing of that is shown in the
    gap, and a pod that was ready stays so."""
    first = Into(restarted_play(0))
    first.into("--for", "30", "--each", "1h")
    for shift, name, wanted in (
        (31, "a", ["started", "phase Running", "startup passed", "ready"]),
        (31, "b", ["started", "ready", "phase Running", "died with code 2 (by then, in the gap since 00:00:30Z)",
                   "restart (by then, in the gap since 00:00:30Z)", "unready (by then, in the gap since 00:00:30Z)",
                   "started", "ready"]),
        (31, "c", ["started", "phase Running", "ready", "unready (results counted only since 00:00:31Z)"]),
        (36, "b", ["started", "ready", "phase Running", "started (by then, in the gap since 00:00:30Z)"]),
    ):
        again = Into(restarted_play(shift))
        shutil.rmtree(again.folder)
        shutil.copytree(first.folder, again.folder)
        again.into("--for", "20", "--each", "1h")
        status, told, said = run([f"{TOOLS}/story", "--traces", again.folder, f"shop/{name}", "--without-why"])
        table = told.split("Events\n")[1].split("\n\n")[0].split("\n")[1:]
        expect(f"a recorder that starts again {shift} s later: {name}",
               (status, said, f"1 gap in which nothing was recorded: 2026-01-01 00:00:30Z to 2026-01-01 00:00:{shift}Z" in told,
                [line[44:].strip() for line in table]), (0, "", True, wanted))
        again.clean()
    first.clean()


def met_again(uid, is_told=True, **container):
    """What is shown of a pod of a name that is recorded for 30 s, and again from 40 s on, by when it may be another
    one; and the texts of the traces, which may be without uids."""
    def play(begin, uid, **container):
        made = {"id": uid, "uid": uid, "pod": "shop/web", "name": "app", "attempt": 0, **container}
        return {"begin": BEGIN + begin, "samples": {"-1": {"memory": 4294967296}}, "containers": [made], "pods": {
            "shop/web": {"from": -90, "uid": uid, "spec": {"restartPolicy": "Never", "containers": [{"name": "app"}]}}}}

    first = Into(play(0, "one", created=2, started=3, **container))
    again = Into(play(40, uid, created=-5, started=-4))
    first.into("--for", "30", "--each", "1h")
    shutil.rmtree(again.folder)
    shutil.copytree(first.folder, again.folder)
    again.into("--for", "20", "--each", "10s")
    texts = again.texts()
    for name, text in zip(again.names(), texts):
        with gzip.open(f"{again.folder}/{name}", "wt", encoding="utf-8") as file:
            file.write(text if is_told else re.sub('"uid":"[a-z]*",', "", text))
    told = run([f"{TOOLS}/story", "--traces", again.folder, "shop/web", "--without-why"])
    lines = records(run([f"{TOOLS}/json", "--traces", again.folder]))
    for into in (first, again):
        into.clean()
    return told, [[line["phase"], line["first_tick"] - BEGIN, line["deaths"]] for line in lines
                  if line["record"] == "pod"], texts


def test_a_pod_of_the_same_name_behind_a_gap():
    """A pod that came under the name of another one while no recorder ran is shown as another one, by its uid."""
    (status, told, said), pods, texts = met_again("two", exited=20, code=3)
    expect("another pod behind a gap: the uids", [re.findall('"uid":"([a-z]*)"', text) for text in texts],
           [["one"], ["two"], ["two"]])
    expect("another pod behind a gap", (status, said, pods), (0, "", [["Failed", 0, 1], ["Running", 40, 0]]))
    expect("another pod behind a gap: its first lines", [line for line in told.split("\n") if "first tick" in line], [
        "first tick 2026-01-01 00:00:00Z, ended 2026-01-01 00:00:20Z as Failed, gone before 2026-01-01 00:00:40Z",
        "first tick 2026-01-01 00:00:40Z"])
    expect("another pod behind a gap: its exit", len([line for line in told.split("\n") if "died with code 3" in line
                                                     and not line.startswith("the worst")]), 1)
    expect("another pod that runs too", met_again("two")[1], [["Running", 0, 0], ["Running", 40, 0]])
    expect("the same pod behind a gap", met_again("one")[1], [["Running", 0, 0]])
    expect("traces without uids", met_again("two", is_told=False)[1], [["Running", 0, 0]])


def evicted_meanwhile(at, has_begun=True, is_left=False, is_probed=True):
    """What a recorder that goes on in a folder writes of a pod that was evicted before it began, by its status at a
    moment: in which trace and line, and what is shown of all traces together."""
    first, play = Into(restarted_play(0)), restarted_play(60)
    play["containers"] = [each if is_probed else {**each, "shown": {}} for each in play["containers"]
                          if each["pod"] != "shop/c"]
    play["pods"]["shop/c"] |= {"evicted": -30, "message": "The node was low on resource: memory. ",
                               **({} if at is None else {"condition": at - 60})}
    again = Into(play)
    if has_begun:
        first.into("--for", "30", "--each", "1h")
        [name] = first.names()
        if is_left:
            cut = unpacked(f"{first.folder}/{name}") + '{"kind":"ti'
            again.put(name.replace(".gz", ".part"), cut.encode())
        else:
            shutil.copy(f"{first.folder}/{name}", again.folder)
    status, _, said = again.into("--for", "25", "--each", "10s")
    told = [(place, line["kubelet"]) for place, text in enumerate(again.texts())
            for line in map(json.loads, text.splitlines()) if "kubelet" in line]
    lines = records(run([f"{TOOLS}/json", "--traces", again.folder]))
    story = run([f"{TOOLS}/story", "--traces", again.folder, "shop/c"])
    for tool in ("page", "timeline"):
        answer = run([f"{TOOLS}/{tool}", "--traces", again.folder])
        expect(f"{tool} of what was evicted in a gap", (answer[0], answer[2]), (0, ""))
    for into in (first, again):
        into.clean()
    did = [(line["pod"], line["at"] - BEGIN) for line in lines if line["record"] == "decision"]
    return (status, said.count("shop/c is left out: the kubelet had evicted it before")), told, did, story


def test_evicted_while_no_recorder_ran():
    """A recorder that goes on in a folder has in its first tick whom the kubelet has evicted since."""
    wanted = {"evicted": [{"pod": "shop/c", "uid": "uid-c", "at": BEGIN + 45, "reason": "Evicted", "leftOut": True,
                           "message": "The node was low on resource: memory."}]}
    for name, how in (("a trace", {}), ("a part that was left", {"is_left": True}),
                      ("no probes", {"is_probed": False})):
        answer, told, did, story = evicted_meanwhile(45, **how)
        expect(f"evicted behind {name}", (answer, told, did), ((0, 1), [(1, wanted)], [("shop/c", 45)]))
        expect(f"evicted behind {name}: the story", [
            line for line in story[1].split("\n")
            if ("evict" in line or line.startswith("the rules")) and not line.startswith("the worst")][:3], [
            "the kubelet evicted it at 2026-01-01 00:00:45Z: low on memory",
            "the rules, over the recorded samples, differ: they do not evict it; nothing was recorded then",
            f"{' ' * 13}00:00:45Z  -                -  the kubelet evicted it: low on memory"])
    for name, at, has_begun in (("before the trace ended", 15, True), ("at no moment", None, True),
                                ("before the first recording", 45, False)):
        expect(f"evicted {name}", evicted_meanwhile(at, has_begun)[:3], ((0, 1), [], []))
