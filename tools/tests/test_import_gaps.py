"""The tests of what tools/import makes of a journal that lacks lines, of clocks that jump, and of the rounds of the
eviction manager: where a trace ends, and what is shown of the time between."""

import gzip
import json
import os
import shutil
import tempfile
import time

import cases
from checks import expect, read
from test_import import FOLDER, HEADER, checked, imported, lines_of, listings_of

load_tests = cases.loaded(__name__)


def test_import_of_a_kubelet_that_is_started_anew():
    """A trace ends where the kubelet does, and the next one begins as at a crash; what ran goes on."""
    text = read(f"{FOLDER}/keyed.log")
    at = text.index("I0301 10:00:54")
    begin = ('I0301 10:00:52.000000    9999 server.go:1187] "Started kubelet"\n'
             'I0301 10:00:52.500000    9999 kubelet.go:9] "SyncLoop ADD" source="api" pods=["shop/web","shop/hog"]\n')
    rest = text[at:].replace("    2211 ", "    9999 ")
    folder = tempfile.mkdtemp()
    status, _, said = imported("--into", folder, given=text[:at] + begin + rest)
    expect("import of a kubelet that is started anew", (status, "the kubelet was restarted" in said), (0, True))
    traces = []
    for name in sorted(os.listdir(folder)):
        with gzip.open(f"{folder}/{name}", "rt", encoding="utf-8") as file:
            traces.append([json.loads(line) for line in file])
    expect("import of a kubelet that is started anew: its traces", len(traces), 2)
    node, *lines = traces[1]
    expect("a trace behind a gap follows none", "follows" in node, False)
    first = next(line for line in lines if line["kind"] == "tick")
    running = {entry["pod"]: entry["containers"][0]["attempt"] for entry in first["pods"]}
    expect("a trace behind a gap has what runs", running, {"shop/web": 2, "shop/hog": 0})
    alone = imported(given=text[:at] + begin + rest)[1]
    gaps = [line["gap"] for line in map(json.loads, alone.splitlines()) if "gap" in line]
    expect("a trace alone of a kubelet that is started anew", gaps, [{"since": 1772359250, "until": 1772359252}])
    shutil.rmtree(folder)


def traces_of(given, *words):
    """The lines of each trace that is written into a folder, and the messages."""
    with tempfile.TemporaryDirectory() as folder:
        status, _, said = imported("--into", folder, *words, given=given)
        expect("import --into of a journal with a gap", status, 0)
        traces = []
        for name in sorted(os.listdir(folder)):
            with gzip.open(f"{folder}/{name}", "rt", encoding="utf-8") as file:
                text = file.read()
            expect(f"import of a journal with a gap: {name}", checked(text), 0)
            traces.append([json.loads(line) for line in text.splitlines()])
        return traces, said


def ticks_of(lines):
    return [line for line in lines if line["kind"] == "tick"]


def attempts_of(tick):
    return {entry["pod"]: entry["containers"][0]["attempt"] for entry in tick["pods"]}


def test_import_of_a_clock_that_went_back():
    """The trace ends there, and the next one has the moments that the clock shows from there on; what ran goes on. In a
    trace alone they go on. The first tick after it is marked in both."""
    text = read(f"{FOLDER}/keyed.log")
    at = text.index("I0301 10:00:54")
    given = text[:at] + text[at:].replace("I0301 10:", "I0301 09:")
    status, trace, said = imported(given=given)
    expect("import of a clock that went back", (status, "the clock went back by" in said, checked(trace)), (0, True, 0))
    ticks = ticks_of(map(json.loads, trace.splitlines()))
    moments = [tick["at"] for tick in ticks]
    expect("import of a clock that went back: moments rise", moments, sorted(set(moments)))
    [marked] = [tick for tick in ticks if "gap" in tick]
    expect("import of a clock that went back: the mark", marked["gap"], {
        "since": 1772359250, "until": 1772359251, "clockBack": 3597})
    wanted = [row[1:] for row in listings_of(read(f"{FOLDER}/keyed.trace"))]
    expect("import of a clock that went back: what happened", [row[1:] for row in listings_of(trace)], wanted)
    traces, _ = traces_of(given)
    expect("import of a clock that went back: its traces", len(traces), 2)
    behind, before = map(ticks_of, traces)
    expect("a trace behind a clock that went back follows none", "follows" in traces[0][0], False)
    expect("a trace behind a clock that went back has its moments", (behind[0]["at"], behind[-1]["at"]),
           (1772355654, 1772355683))
    expect("a trace behind a clock that went back has what runs", attempts_of(behind[0]), {
        "shop/web": 2, "shop/hog": 0})
    expect("a trace before a clock that went back", (before[0]["at"], before[-1]["at"]), (1772359200, 1772359250))
    expect("a moment a little before is none", "gap" in imported(given=text[:at] + text[at:].replace(
        "I0301 10:00:54", "I0301 10:00:30"))[1], False)


def imported_of(*texts):
    """What is made of several journals: one trace, and traces in a folder."""
    with tempfile.TemporaryDirectory() as folder:
        words = []
        for number, text in enumerate(texts):
            words += ["--journal", f"{folder}/{number}"]
            with open(f"{folder}/{number}", "w", encoding="utf-8") as file:
                file.write(text)
        alone = imported(*words)
        traces, _ = traces_of("", *words, "--each", "1d")
        return alone, traces


def test_import_of_two_journals_whose_clock_went_back():
    """The kubelet and the runtime show it by lines of other moments, and it is one clock. Where each of two journals,
    one after the other, has a turn of its own, there are two."""
    text = read(f"{FOLDER}/keyed.log")
    at = text.index("I0301 10:00:54")
    kubelet = text[:at] + text[at:].replace("I0301 10:", "I0301 09:")
    ends = r'id:\"aaaa000000a2\" pid:73 exit_status:0 exited_at:{seconds:1772355681 nanos:850000000}"'
    event = r'time="2026-03-01T09:01:21.900Z" level=info msg="received exit event container_id:\"aaaa000000a2\" '
    runtime = (read(f"{FOLDER}/containerd.log") + event + ends + "\n").replace(
        "aaaa0000f0f0", f"aaaa{56 * '0'}f0f0").replace("aaaa000000a", f"aaaa{58 * '0'}a")
    for texts in ((kubelet, runtime), (runtime, kubelet)):
        (status, trace, said), traces = imported_of(*texts)
        tick, _ = gap_in(trace)
        expect("import of two journals of one clock", (status, tick and tick["gap"], "1 time the clock went" in said), (
            0, {"since": 1772359250, "until": 1772359251, "clockBack": 3597}, True))
        ticks = list(map(ticks_of, traces))
        expect("import of two journals of one clock: their traces", [(each[0]["at"], each[-1]["at"]) for each in ticks],
               [(1772355654, 1772355683), (1772359200, 1772359250)])
        [exited] = [row for row in listings_of("\n".join(map(json.dumps, traces[0]))) if row[3:5] == (2, "EXITED")]
        expect("import of two journals of one clock: an exact moment", exited[0], 1772355681)
    other = kubelet[kubelet.index("I0301 10:00:05"):].replace("0301 ", "0302 ").replace("aaaa0", "dddd0").replace(
        "bbbb0", "eeee0").replace("11111111-", "33333333-").replace("22222222-", "44444444-")
    (status, trace, said), traces = imported_of(kubelet, other)
    begins = sorted(lines[place]["at"] for lines in map(ticks_of, traces) for place in (0, -1))
    day = 86400
    expect("import of two journals, each with a turn of its own", (status, checked(trace), "2 times the clock" in said,
                                                                   begins[0], begins[-1]), (
        0, 0, True, 1772355654, 1772359250 + day))
    expect("import of two journals, each with a turn of its own: behind the second", 1772355654 + day in begins, True)


def records(text, hole, has_others, sequence="a1", step=1):
    """The records of a journal whose lines have numbers, of which one is missing before a line; after each may be one
    of another program."""
    made, number = [], 4094
    for line, second, fraction, process, *_ in lines_of(text):
        number += hole is not None and hole in line
        for program, said in [("kubelet", line), ("sshd", "hello")][:1 + has_others]:
            number += step
            made.append({
                "__CURSOR": f"s={sequence};i={number:x};b=b0;m=1;t={int(f'{second}{fraction}'):x};x=1",
                "__REALTIME_TIMESTAMP": f"{second}{fraction}", "_HOSTNAME": "worker-3",
                "SYSLOG_IDENTIFIER": program, "_PID": process if program == "kubelet" else "7", "MESSAGE": said})
    return made


def by_number(made):
    """Records as another export has them, with their numbers next to their cursors."""
    return [{**{name: value for name, value in record.items() if name != "__CURSOR"},
             "__SEQNUM": str(int(record["__CURSOR"].split(";")[1][2:], 16))} for record in made]


def as_lines(made):
    return "".join(json.dumps(record, separators=(",", ":")) + "\n" for record in made)


def as_export(made):
    return "".join("".join(f"{name}={value}\n" for name, value in record.items()) + "\n" for record in made)


def test_import_of_a_journal_with_a_hole():
    """Numbers that are missing in the journal of all programs end a trace; in the journal of some they are missing all
    along, which shows nothing."""
    text, wanted = read(f"{FOLDER}/keyed.log"), read(f"{FOLDER}/keyed.trace")
    hole = "I0301 10:01:20.000"
    for name, form, made in (("json", as_lines, lambda made: made), ("export", as_export, lambda made: made),
                             ("json with numbers", as_lines, by_number), ("export with numbers", as_export, by_number)):
        traces, said = traces_of(form(made(records(text, hole, True))))
        expect(f"import of a hole of {name}", (len(traces), "1 place where numbers of the journal's lines" in said),
               (2, True))
        expect(f"import of a hole of {name}: the next one follows none", "follows" in traces[-1][0], False)
        alone = imported(given=form(made(records(text, hole, True))))[1]
        gaps = [tick["gap"] for tick in ticks_of(map(json.loads, alone.splitlines())) if "gap" in tick]
        expect(f"import of a hole of {name}: the mark", gaps, [{"since": 1772359263, "until": 1772359280}])
        for what, given in (("no hole", records(text, None, True)), ("one program", records(text, hole, False)),
                            ("the lines of some programs", records(text, None, True, step=3)),
                            ("a hole at its begin", records(text, "I0301 10:00:54", True))):
            status, trace, said = imported(given=form(made(given)))
            expect(f"import of {what} of {name}", (status, trace == wanted, "numbers" in said), (0, True, False))
    at = text.index(hole)
    anew = as_lines(records(text[:at], None, False) + records(text[at:], None, False, "b2"))
    traces, said = traces_of(anew)
    expect("import of a journal that begins anew", (len(traces), "numbers" in said), (2, True))


def later(text, place, seconds):
    """A log whose lines are so much later from a place on."""
    at = text.index(place)
    made = [text[:at]]
    for line, second, fraction, *_ in lines_of(text[at:]):
        stamp_of = time.strftime("%m%d %H:%M:%S", time.gmtime(second + seconds))
        made.append(f"{line[0]}{stamp_of}.{fraction}{HEADER.match(line)[0][21:]}{line[HEADER.match(line).end():]}\n")
    return "".join(made)


def gap_in(trace):
    """The tick after the gap of a trace, the moment of the tick before it, and both traces of a folder."""
    ticks = ticks_of(map(json.loads, trace.splitlines()))
    place = next((place for place, tick in enumerate(ticks) if "gap" in tick), None)
    return (None, None) if place is None else (ticks[place], ticks[place - 1]["at"])


def test_import_of_the_kubelets_journal_with_a_hole():
    """A kubelet that logs its rounds and shows nothing for a minute, or whose container starts again without a line of
    its exit: the trace ends there. Below -v=3 a kubelet may be silent for long."""
    text = read(f"{FOLDER}/keyed.log")
    rounds = [f'I0301 10:{minute:02}:{second}0.500000    2211 eviction_manager.go:2] "Eviction manager: synchronize '
              'housekeeping"\n' for minute in (0, 1) for second in range(6)]
    told = "".join(sorted(text.splitlines(keepends=True) + rounds, key=lambda line: line[1:]))
    given = later(told, "I0301 10:00:54", 300)
    at = given.index("I0301 10:05:54")
    given = given[:at] + "".join(line for line in given[at:].splitlines(keepends=True)
                                 if "shop/hog" not in line and "bbbb0" not in line)
    status, trace, said = imported(given=given)
    tick, before = gap_in(trace)
    expect("import of a silent kubelet", (status, checked(trace), tick and tick["gap"], before), (
        0, 0, {"since": 1772359250, "until": 1772359554}, 1772359250))
    expect("import of a silent kubelet: what is said", [line for line in said.split("\n") if "after a gap" in line
                                                        or "lines are missing" in line], [
        "import: 1 time without a line of the kubelet's, which would have written something there: lines are missing",
        "import: 1 pod that no line after a gap names (shop/hog): as before it"])
    listed = {entry["pod"]: [(each["attempt"], each.get("guessed")) for each in entry["containers"]]
              for entry in tick["pods"]}
    expect("import of a silent kubelet: a pod of which no line speaks", listed, {
        "shop/web": [(2, None)], "shop/hog": [(0, ["state"])]})
    traces, _ = traces_of(given)
    expect("import of a silent kubelet: its traces", (len(traces), "follows" in traces[1][0]), (2, False))
    expect("import of a kubelet that tells of no round", gap_in(imported(given=later(text, "I0301 10:00:54", 300))[1]),
           (None, None))


def test_import_of_an_exit_in_a_hole():
    """An exit that no line has was in the longest time without one; so was the end of a pod whose name another one
    has."""
    text = read(f"{FOLDER}/keyed.log")
    lost = "".join(line for line in text.splitlines(keepends=True) if "10:00:40" not in line)
    status, trace, _ = imported(given=later(lost, "I0301 10:00:50", 300))
    tick, before = gap_in(trace)
    expect("import of an exit in a hole", (status, checked(trace), tick and tick["gap"], before), (
        0, 0, {"since": 1772359235, "until": 1772359550}, 1772359235))
    [web] = [entry["containers"] for entry in tick["pods"] if entry["pod"] == "shop/web"]
    expect("import of an exit in a hole: the exit", [(each["attempt"], each["ended"]) for each in web], [
        (2, {"attempt": 1, "exitCode": 137, "guessed": ["exitCode", "exit"]})])
    at = text.index("I0301 10:00:50")
    other = text[at:].replace("11111111-", "99999999-").replace("aaaa0", "cccc0")
    status, trace, _ = imported(given=later(text[:at] + other, "I0301 10:00:50", 300))
    tick, before = gap_in(trace)
    lines = list(map(json.loads, trace.splitlines()))
    expect("import of a pod that went in a hole", (status, checked(trace), tick and tick["gap"]["until"], before), (
        0, 0, 1772359550, 1772359240))
    expect("import of a pod that went in a hole: its lines", [
        line.get("uid", "gone")[:4] for line in lines if "shop/web" in (line.get("pod"), line["kind"] == "pod" and
        "/".join(line["pod"]["metadata"][name] for name in ("namespace", "name")))], ["1111", "gone", "9999", "gone"])


def test_import_of_rounds():
    """Each round of the eviction manager is one sync tick, of the moment of its first observation; a round that finds
    nothing is none, though the second in which it begins has a tick."""
    begins = '"Eviction manager: synchronize housekeeping"'
    found = '"Eviction manager: observations" signal="{}" available="{}" capacity="8Gi" time="2026-03-01 10:00:20 UTC"'
    more = [f"I0301 10:00:{at}    2211 helpers.go:1] {said}\n" for at, said in (
        ("20.045000", begins), ("20.999000", found.format("memory.available", "2Gi")),
        ("21.001000", found.format("nodefs.available", "4Gi")), ("22.045000", begins),
        ("50.100000", begins), ("50.200000", found.format("memory.available", "1Gi")))]
    lines = read(f"{FOLDER}/keyed.log").splitlines(keepends=True)
    text = "".join(sorted(lines + more, key=lambda line: line[1:]))
    status, trace, said = imported(given=text)
    judged = [(tick["at"], tick["signals"]) for tick in ticks_of(map(json.loads, trace.splitlines()))
              if tick.get("judged") is not False]
    gi = 1 << 30
    expect("import of rounds", (status, judged, "no rounds" in said), (0, [
        (1772359220, {"memory.available": 2 * gi, "nodefs.available": 4 * gi}),
        (1772359250, {"memory.available": gi, "nodefs.available": 4 * gi})], False))


def test_import_of_a_clock_that_went_forward():
    """By the time since the node's start that journald has for each line; where the node was only silent the clock did
    not jump."""
    text = read(f"{FOLDER}/keyed.log")
    made, quiet = [], []
    for kept, leap in ((made, 300), (quiet, 0)):
        for record in records(later(text, "I0301 10:00:54", 300), None, False):
            stamp = int(record["__REALTIME_TIMESTAMP"])
            since_start = stamp - 1772359000 * 10 ** 6 - (leap * 10 ** 6 if stamp > 1772359500 * 10 ** 6 else 0)
            kept.append({**record, "__CURSOR": record["__CURSOR"].replace("m=1", f"m={since_start:x}"),
                         "__MONOTONIC_TIMESTAMP": str(since_start), "_BOOT_ID": "b0"})
    for name, form, numbered in (("json", as_lines, False), ("export", as_export, False),
                                 ("json with numbers", as_lines, True), ("export with numbers", as_export, True)):
        status, trace, said = imported(given=form(by_number(made) if numbered else made))
        tick, before = gap_in(trace)
        is_said = "1 time the clock went forward, or" in said
        expect(f"import of a clock that went forward, {name}", (status, tick and tick["gap"], before, is_said), (
            0, {"since": 1772359250, "until": 1772359554}, 1772359250, True))
        expect(f"import of a node that says nothing, {name}",
               gap_in(imported(given=form(by_number(quiet) if numbered else quiet))[1]), (None, None))
