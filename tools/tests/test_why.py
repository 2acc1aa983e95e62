"""The tests of tools/why, and of tools/story with a trace: traces with their reports and what is shown of a pod."""

import glob
import json
import os
import re
import shutil
import tempfile

import cases
from checks import HERE, REPLAY, TOOLS, TOP, expect, expect_kept, expect_refused, read, replayed, run

from replay_tools import amounts, report as reports, telling, traces, why

load_tests = cases.loaded(__name__)

WHYS = f"{HERE}/whys"
TEXTS = f"{TOP}/crates/case_runner/data/texts"
CASES = f"{TOP}/crates/case_runner/data/traces"


def trace_and_report(name):
    folder = f"{WHYS}/{name}"
    if os.path.exists(f"{folder}/trace"):
        return f"{folder}/trace", f"{folder}/report"
    return f"{TOP}/examples/{name}.trace", f"{TOP}/examples/{name}.report"


def test_whys():
    for name in sorted(os.listdir(WHYS)):
        trace, report = trace_and_report(name)
        expect(f"why {name}: the report is the trace's", replayed(read(trace)), (0, read(report), ""))
        answers = [answer for answer in os.listdir(f"{WHYS}/{name}") if answer.startswith("of_")]
        for answer in sorted(answers):
            pod = answer.removeprefix("of_").replace("_", "/", 1)
            status, told, said = run([f"{TOOLS}/why", pod, "--trace", trace], read(report))
            expect(f"why {name} {pod}", (status, said), (0, ""))
            expect_kept(f"why {name} {pod}: the text", told, f"{WHYS}/{name}/{answer}")


def moved_in(report, trace):
    """Events and evictions that the report alone gives to another pod than the one that was there."""
    for said in (*report.events, *report.evictions):
        pod = None if said.number is None else trace.pods[said.number]
        if said.pod and (pod is None or pod.key != said.pod or not pod.is_present(trace.places[said.at])):
            yield f"{said.at} {said.pod} of {said.number}"


def test_amounts():
    """Each text that the program takes has the value that its own tests have for it."""
    for kind, value_of in (("quantity", amounts.quantity), ("percentage", amounts.hundredths),
                           ("duration", amounts.duration)):
        rows = [line.split("\t") for line in read(f"{TEXTS}/{kind}.table").split("\n") if line and line[0] != "#"]
        taken = [(text, int(value)) for text, value in rows if value.isdigit()]
        expect(f"amounts of a {kind}", [(text, value_of(text)) for text, _ in taken], taken)
    for thousandths, wanted in ((0, "0"), (1023000, "1023"), (1024000, "1Ki"), (1610612736000, "1.5Gi"),
                                (-52428800000, "-50Mi"), (None, "-")):
        expect(f"amount {wanted}", amounts.amount_text(thousandths, True), wanted)


def in_a_row(runs, result):
    """How many results of a kind end the runs, where unknown ones neither count nor end them."""
    count = 0
    for found, moments in reversed(runs):
        if found == result:
            count += len(moments)
        elif found != "unknown":
            break
    return count


def doubts_of(around):
    """What the results of an event do not have, though the event has it."""
    wanted = {"kill": "failure", "unready": "failure", "ready": "success"}.get(around.event.word)
    for results in around.results:
        most = results.probe.success_threshold if wanted == "success" else results.probe.failure_threshold
        if wanted and (wanted, results.kind) != ("success", "startup") and in_a_row(results.runs, wanted) < most:
            yield f"{around.event.at} {results.kind}"
    if around.evicted and not around.evicted.is_victim_first:
        yield f"{around.event.at} evicted"


def test_cases():
    """In each case of the program an event of a probe has its results, an evicted pod comes first in its table, and
    each event is of the pod of its key that was there."""
    doubts, kinds, count = [], {"kill": 0, "unready": 0, "ready": 0, "evicted": 0}, 0
    for path in sorted(glob.glob(f"{CASES}/**/*.report", recursive=True)):
        report = reports.read_report(read(path))
        trace = traces.read_trace(path.removesuffix("report") + "trace")
        traces.check_belongs(trace, report, path)
        doubts += [f"{path} {moved}" for moved in moved_in(report, trace)]
        count += 1
        for pod in report.pods:
            for around in why.around_events(trace, report, pod):
                doubts += [f"{path} {pod.key} {doubt}" for doubt in doubts_of(around)]
                if around.event.word in kinds and (around.results or around.evicted):
                    kinds[around.event.word] += 1
    expect("why of the program's cases", doubts, [])
    expect("there are cases of each kind", (count > 400, [word for word, seen in kinds.items() if seen < 20]),
           (True, []))


def test_why_with_story():
    trace, report = trace_and_report("probes")
    story = run([f"{TOOLS}/story", "shop/web", "--trace", trace, "--without-why"], read(report))[1]
    both = run([f"{TOOLS}/story", "shop/web", "--trace", trace], read(report))
    # the story has the worst above it already
    why = re.sub(r"^the worst: .*\n", "", read(f"{WHYS}/probes/of_shop_web"), flags=re.M)
    expect("story with a trace", both, (0, f"{story}\n{why}", ""))
    utc = run([f"{TOOLS}/why", "--utc", "shop/web", f"--trace={trace}"], read(report))[1].split("\n")
    expect("why --utc", utc[3], "1970-01-01 00:00:05Z  app started (attempt 0)")


REBOOTED = f"{WHYS}/rebooted"
BEGIN = 1795730000
BOOTED = f"the node was rebooted at {BEGIN + 70}: 3 containers exited 255, 1 container exited 137"
NOT_READY = f"the node was NotReady from {BEGIN + 12} to {BEGIN + 24}: NodeStatusUnknown"


def told_of(tool, *words, folder=None):
    """The lines that a tool prints of the trace of a node that was rebooted, or of the traces of a folder."""
    given = ["--traces", folder] if folder else ["--trace", f"{REBOOTED}/trace"]
    status, told, said = run([f"{TOOLS}/{tool}", "--seconds", *words, *given], "" if folder else
                             read(f"{REBOOTED}/report"))
    expect(f"{tool} {' '.join(words)} of a node that was rebooted", (status, said), (0, ""))
    return told.splitlines()


def of_node(lines):
    return [line.strip() for line in lines if line.startswith("the node was")]


def test_node_is_told():
    """A reboot with the exits of before and after it, and when the node was not Ready where a pod of it became
    unready then."""
    story = told_of("story", "web", "--without-why")
    expect("story: the node", of_node(story), [NOT_READY, BOOTED])
    rows = [line.split(maxsplit=3)[0::3] for line in story if "  the node was" in line]
    expect("story: its rows", rows, [
        [str(BEGIN + 12), f"the node was NotReady until {BEGIN + 24}: NodeStatusUnknown"],
        [str(BEGIN + 70), BOOTED.replace(f" at {BEGIN + 70}", "")]])
    expect("story: a pod that stayed ready", of_node(told_of("story", "job", "--without-why")), [BOOTED])
    expect("story: the list of pods", of_node(told_of("story")), [NOT_READY, BOOTED])
    why_told = told_of("why", "web")
    place = why_told.index(f"{BEGIN + 70}  {BOOTED.replace(f' at {BEGIN + 70}', '')}")
    expect("why: of which of its containers", why_told[place + 1 : place + 4],
           ["  of this pod app exited 255", "  of this pod proxy exited 255", ""])
    not_ready = f"{BEGIN + 12}  the node was NotReady until {BEGIN + 24}: NodeStatusUnknown"
    expect("why: the node was not Ready", not_ready in why_told, True)


def test_throttling_is_told():
    """Where the trace has it, with a kill and a death."""
    parts = [part.split("\n") for part in "\n".join(told_of("why", "web")).split("\n\n")]
    throttled = [(lines[0].split("  ")[0], lines[-1].strip()) for lines in parts if "throttled" in lines[-1]]
    expect("why: throttling", throttled, [
        (str(BEGIN + 24), f"its processor was throttled for 9.3 s of the 20 s to {BEGIN + 20}, and for 9.3 s since it "
         "began"), *[(str(BEGIN + at), "its processor was throttled for 0.1 s since it began") for at in (40, 90)]])


def test_odd_words_of_a_node():
    """What has another shape shows nothing, since the formats do not read it; a moment that is none is the tick's."""
    text, report = read(f"{REBOOTED}/trace"), reports.read_report(read(f"{REBOOTED}/report"))
    said = f'{{"status":"Unknown","reason":"NodeStatusUnknown","since":{BEGIN + 12}}}'
    for odd, wanted in (("null", []), ("5", []), ("[]", []), ("{}", []), ('"x"', []), ('{"status":"True"}', []),
                        ('{"status":["False"]}', []), ('{"status":"False"}', [(15, None)]),
                        ('{"status":"False","since":-1,"reason":7}', [(15, None)]),
                        ('{"status":"Unknown","since":1e9,"reason":"\\u001b"}', [(15, "\\x1b")])):
        trace = traces.trace_of(text.replace(said, odd).encode(), "it")
        expect(f"not ready: {odd}", [(one.since - BEGIN, one.reason) for one in telling.times_not_ready(trace)], wanted)
    for odd in ("null", "-5", "[]", '"x"', "true", "1e9", str(BEGIN), str(BEGIN - 1), str(BEGIN + 999)):
        trace = traces.trace_of(text.replace(f'"bootedAt":{BEGIN + 70}', f'"bootedAt":{odd}').encode(), "it")
        expect(f"booted: {odd}", telling.reboots(trace, report), [])


def test_not_ready_over_a_gap():
    """It lasts over a gap if the condition shows it after it; else it is known up to the gap."""
    for since, wanted in ((5, [(5, 60)]), (45, [(5, 20), (45, 60)]), (None, [(5, 20)])):
        said = [(10, 5), (20, 5), (50, since), (60, None)]
        ticks = [{"kind": "tick", "at": at, "pods": [], **({} if begun is None else {
            "nodeReady": {"status": "False", "since": begun}})} for at, begun in said]
        lines = [{"kind": "node", "name": "n1"}, *ticks]
        trace = traces.trace_of("\n".join(map(json.dumps, lines)).encode(), "it")
        trace.gaps = [(20, 50)]
        found = [(one.since, one.until) for one in telling.times_not_ready(trace)]
        expect(f"not ready over a gap, since {since}", found, wanted)


def test_use_is_told():
    """What an instance had used that ran out of memory, and of no other death."""
    told = told_of("why", "web")
    place = told.index("  what it used:")
    expect("why: what it used", [line.split() for line in told[place + 1 : place + 5]], [
        ["moment", "memory", "cores"], [str(BEGIN), "20Mi", "0.08"], [str(BEGIN + 9), "40Mi", "0.45"],
        [str(BEGIN + 20), "61Mi", "0.5"]])
    expect("why: what it used is told once", told.count("  what it used:"), 1)
    head = next(line for line in told if "OOMKilled" in line and line.startswith(str(BEGIN + 24)))
    expect("why: the last value before an OOM kill", head.partition(": ")[2],
           "OOMKilled, its memory limit is 64Mi, it used 61Mi 4 s before (attempt 0)")


def test_node_over_two_traces():
    """A reboot ends a recorder, so it lies in the gap between two traces, each of which has its own boot."""
    lines = read(f"{REBOOTED}/trace").splitlines(keepends=True)
    before = lines[0].replace(str(BEGIN + 70), str(BEGIN - 500))
    behind = [place for place, line in enumerate(lines) if f'"at":{BEGIN + 90},' in line][0]
    with tempfile.TemporaryDirectory() as folder:
        for name, text in (("a", [before, *lines[1:behind]]), ("b", lines[:4] + lines[behind:])):
            with open(f"{folder}/{name}.trace", "w") as file:
                file.writelines(text)
        expect("story over a reboot", of_node(told_of("story", folder=folder)), [NOT_READY, BOOTED])
        expect("story of a pod over a reboot", of_node(told_of("story", "db", folder=folder)), [BOOTED])
        with open(f"{folder}/b.trace", "w") as file:
            file.writelines(lines[:4] + lines[behind + 1 :])
        late = BOOTED.partition(": ")[0] + ": 1 container exited 137, 3 containers exited with an unknown code"
        expect("story over a reboot, recorded late", of_node(told_of("story", folder=folder)), [NOT_READY, late])
        os.remove(f"{folder}/b.trace")
        expect("story before a reboot", of_node(told_of("story", folder=folder)), [NOT_READY])


def test_dates_once():
    """A date is there where it is another than in the row above, and in a text where it is another than the row's."""
    rows = [["2026-11-25 23:59:58Z", "at 2026-11-25 23:59:58Z, at 2026-11-26 00:00:03Z", "-"],
            ["2026-11-25 23:59:59Z", "-", "2026-11-25 23:59:59Z, 2026-11-26 00:00:00Z"],
            ["2026-11-26 00:00:01Z", "-", "2026-11-26 00:00:01Z, 2026-11-26 00:00:02Z"],
            ["2026-11-26 00:00:02Z", "2026-11-26 00:00:02Z.trace", "end"], ["5", "-", "-"]]
    expect("a table has each date once", telling.dated_once(rows), [
        ["2026-11-25 23:59:58Z", "at 23:59:58Z, at 2026-11-26 00:00:03Z", "-"],
        ["           23:59:59Z", "-", "2026-11-25 23:59:59Z, 2026-11-26 00:00:00Z"],
        ["2026-11-26 00:00:01Z", "-", "2026-11-26 00:00:01Z, 00:00:02Z"],
        ["           00:00:02Z", "00:00:02Z.trace", "end"], ["5", "-", "-"]])


def trace_of_turns():
    """Results of liveness by turns, success at even moments and failure at odd ones, and failures from 29 on."""
    lines = ['{"kind":"node","name":"n1"}',
             '{"kind":"pod","pod":{"metadata":{"name":"a"},"spec":{"containers":[{"name":"c","livenessProbe":'
             '{"failureThreshold":2}}]}}}']
    for at in range(32):
        result = "success" if at % 2 == 0 and at < 29 else "failure"
        lines.append(f'{{"kind":"tick","at":{at},"pods":[{{"pod":"default/a","containers":[{{"name":"c","state":1}}],'
                     f'"probes":[{{"container":"c","probe":"liveness","result":"{result}"}}]}}]}}')
    return "\n".join(lines) + "\n"


def test_why_leaves_out():
    """Up to the kill at 30 there are 29 runs of one result, and one of two: the last 12 begin with the run of 18."""
    folder, trace = tempfile.mkdtemp(), trace_of_turns()
    with open(f"{folder}/trace", "w") as file:
        file.write(trace)
    told = run([f"{TOOLS}/why", "default/a", "--trace", f"{folder}/trace"], run([REPLAY], trace)[1])[1].split("\n")
    kill = told.index("30  c kill order: liveness (attempt 0)")
    expect("why leaves out runs", [told[kill + 4].split(), told[kill + 15].split()],
           [["success", "1", "18"], ["failure", "2", "29,", "30"]])
    expect("why says how many", told[kill + 16], "  18 earlier runs of results are left out")
    shutil.rmtree(folder)


def test_refused_whys():
    trace, report = trace_and_report("probes")
    folder, given = tempfile.mkdtemp(), read(trace)
    for name, text, words in (
        ("of another node", given.replace('"n1"', '"n2"'), "its node is n2, the report's n1"),
        ("of another length", given[: given.rindex("\n", 0, -1) + 1], "its number of ticks is 13, the report's 14"),
        ("of another pod", given.replace('"name":"web"', '"name":"wab"').replace("shop/web", "shop/wab"),
         "pod 0 is shop/wab, the report's shop/web"),
        ("of another container", given.replace('"app"', '"main"'), "pod 0 is shop/web with other containers"),
        ("of other moments", given.replace('"at":45', '"at":46'), "it has no tick at 45"),
        ("with another listing", given.replace('"at":5,"pods":[{"pod":"shop/web","containers":[{"name":"app"',
                                               '"at":5,"pods":[{"pod":"shop/web","containers":[{"name":"other"'),
         "at 5 it does not list attempt 0 of app of shop/web as running"),
        ("that is none", "{}\n", "line 1 is no line of a trace"),
        ("that is a report", "node n1\n", "is a report, and it needs the trace that the report is of"),
        ("without a node line", given[given.index("\n") + 1 :], "line 1 is no line of a trace"),
        ("with a cut line", given[:-30], "line 16 is no line of a trace"),
        ("with nothing", "", "it has no line"),
    ):
        with open(f"{folder}/trace", "w") as file:
            file.write(text)
        for tool in ("why", "story"):
            answer = run([f"{TOOLS}/{tool}", "shop/web", "--trace", f"{folder}/trace"], read(report))
            expect_refused(f"{tool}: a trace {name}", answer, 2, words)
    os.truncate(f"{folder}/trace", (64 << 20) + 1)
    answer = run([f"{TOOLS}/why", "shop/web", "--trace", f"{folder}/trace"], read(report))
    expect_refused("why: a trace that is too long", answer, 2, "it has more than 64 MiB")
    shutil.rmtree(folder)
    expect_refused("why: a trace that is not there",
                   run([f"{TOOLS}/why", "shop/web", "--trace", "/nonexistent"], read(report)), 2, "can't be read")


def test_refused_words_of_why():
    trace, report = trace_and_report("file_system")
    for pod, said in (("default/lte", "nearest: default/late"), ("lte", "nearest: default/late"),
                      ("zzzzz", "a pod is NAMESPACE/NAME"), ("zz\nzz", "no pod zz\\nzz; a pod is")):
        expect_refused(f"why {pod}", run([f"{TOOLS}/why", pod, "--trace", trace], read(report)), 2, said)
        expect_refused(f"story {pod}", run([f"{TOOLS}/story", pod], read(report)), 2, said)
    for words, said in (([], "one pod, not 0"), (["a/b", "c/d", "--trace", trace], "one pod, not 2"),
                        (["a/b"], "it needs -f FILE, a trace"), (["a/b", "--trace"], "--trace needs a value"),
                        (["--all"], "--all is no known argument")):
        expect_refused(f"why {' '.join(words)}", run([f"{TOOLS}/why", *words], read(report)), 2, said)
    expect_refused("why of no report", run([f"{TOOLS}/why", "a/b", "--trace", trace], "no\n"), 2, "line 1 ")
