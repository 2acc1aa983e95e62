"""The tests of the thresholds that tools/import reads from a journal: what a kubelet logs as it starts, by its flags
and in its rounds, in both forms; and the conditions that the rules make of a real kubelet's log, next to the conditions
that its rounds showed."""

import calendar
import gzip
import json
import lzma
import os
import re
import shutil
import tempfile
import time

import cases
from checks import HERE, TOOLS, expect, read, replayed, run
from test_import import FOLDER, YEAR, checked, imported, pod_lines

load_tests = cases.loaded(__name__)

RECORDING = f"{HERE}/recordings/imported_journal"
MEMORY, DISK = "memory.available", "nodefs.available"
GI = 1 << 30
HARD = ("HardEvictionThresholds:[{Signal:memory.available Operator:LessThan Value:{Quantity:100Mi Percentage:0} "
        "GracePeriod:0s MinReclaim:<nil>} {Signal:nodefs.available Operator:LessThan Value:{Quantity:<nil> "
        "Percentage:0.1} GracePeriod:0s MinReclaim:<nil>}]")
AS_JSON = {"HardEvictionThresholds": [
    {"Signal": MEMORY, "Operator": "LessThan", "Value": {"Quantity": "100Mi", "Percentage": 0}, "GracePeriod": 0,
     "MinReclaim": None},
    {"Signal": DISK, "Operator": "LessThan", "Value": {"Quantity": None, "Percentage": 0.1}, "GracePeriod": 0,
     "MinReclaim": None}]}
SOFT = ("threshold(signal=memory.available, operator=LessThan, value={2Gi 0}, gracePeriod=1m30s), duration: 0s")
PERIOD = "evictionPressureTransitionPeriod"


def line(moment, said, process=2211):
    """A line of a kubelet's log, so many seconds after ten o'clock."""
    stamp = time.strftime("%m%d %H:%M:%S", time.gmtime(1772359200 + int(moment)))
    return f"I{stamp}.{round(moment % 1 * 10 ** 6):06} {process:7} helpers.go:1] {said}\n"


def configured(value=HARD, is_keyed=False, moment=0.15, process=2211):
    words = "Creating Container Manager object based on Node Config"
    plain = f"{words}: {{CgroupsPerQOS:true {value}}} QOSReserved:map[]}}"
    return line(moment, f'"{words}" nodeConfig={value}' if is_keyed else plain, process)


def round_of(moment, memory, met="", true="", limits=(), unreclaimed=(), process=2211):
    """The lines of a round of the eviction manager, with the conditions that it met, and those that are true by it."""
    said = ["synchronize housekeeping",
            f"observations: signal=memory.available, available: {memory}, capacity: 8Gi, time: 2026-03-01 10:00:20 UTC",
            "observations: signal=nodefs.available, available: 20Gi, capacity: 40Gi, time: 2026-03-01 10:00:20 UTC"]
    said += [f"thresholds - ignoring grace period: threshold [signal={MEMORY}, quantity={limit}] observed {memory}"
             for limit in limits]
    said += [f"thresholds - reclaim not satisfied: threshold [signal={MEMORY}, quantity={limit}] observed {memory}"
             for limit in (*limits, *unreclaimed)]
    said += [f"node conditions - observed: [{met}]"] if met else []
    said += [f"node conditions - transition period not met: [{true}]"] if true else []
    return "".join(line(moment + place / 1000, f"eviction manager: {each}", process)
                   for place, each in enumerate(said))


def with_lines(*more):
    """The log of the tests with more lines."""
    lines = read(f"{FOLDER}/keyed.log").splitlines(keepends=True)
    lines += [each for text in more for each in text.splitlines(keepends=True)]
    return "".join(sorted(lines, key=lambda each: each[1:]))


def node_of(*more):
    """What the node line has, and the messages at the end."""
    status, trace, said = imported(given=with_lines(*more))
    expect("import of thresholds: each pod is spared", (status, {pod.get("spared") for pod in pod_lines(trace)}),
           (0, {True}))
    return json.loads(trace.split("\n")[0]), said


def thresholds_in(node):
    return {name: value for name, value in node.items() if name.startswith("eviction") or name == "guessed"}


def test_import_of_hard_thresholds():
    """They are in the node line as the kubelet logs them when it starts, in each form; a part of a capacity that no
    line has sets none."""
    rounds = round_of(20, "4Gi")
    wanted = {"evictionHard": {MEMORY: "100Mi", DISK: "10%"}, "evictionsRecorded": True}
    json_text = json.dumps(AS_JSON, separators=(",", ":"))
    for name, text in (("sentences", configured()), ("keys", configured(f'"{{{HARD}}}"', True)),
                       ("keys and JSON", configured(json_text, True)),
                       ("bare keys", configured(f"{{CgroupRoot:/ {HARD}}} QOSReserved:map[]}}", True))):
        node, said = node_of(text, rounds)
        expect(f"import of hard thresholds, {name}", thresholds_in(node), wanted)
        expect(f"import of hard thresholds, {name}: what is said",
               "thresholds: memory.available 100Mi (hard), nodefs.available 10% (hard)" in said, True)
    node, _ = node_of(configured())
    expect("import of hard thresholds without a round", thresholds_in(node), {
        "evictionHard": {MEMORY: "100Mi"}, "evictionsRecorded": True})
    expect("import of a kubelet without thresholds", thresholds_in(node_of(configured(
        "HardEvictionThresholds:[]"), rounds)[0]), {"evictionHard": {}, "evictionsRecorded": True})
    _, said = node_of()
    expect("import without thresholds: what is said", "no thresholds (a kubelet writes" in said, True)


def test_import_of_soft_thresholds():
    """A soft one is in the round in which it is met; a journal that begins after the kubelet's start has those
    alone that rounds show."""
    rounds = round_of(20, "1Gi", "MemoryPressure", "MemoryPressure", ["2Gi"])
    for name, text in (("sentences", line(20.5, f"eviction manager: eviction criteria not yet met for {SOFT}")),
                       ("keys", line(20.5, f'"Eviction manager: eviction criteria not yet met" '
                                           f'threshold="{SOFT.partition(", duration")[0]}" duration="0s"'))):
        node, _ = node_of(configured(), rounds, text)
        expect(f"import of soft thresholds, {name}", thresholds_in(node), {
            "evictionHard": {MEMORY: "100Mi", DISK: "10%"}, "evictionSoft": {MEMORY: "2Gi"},
            "evictionSoftGracePeriod": {MEMORY: "1m30s"}, "evictionsRecorded": True})
    soft = line(20.5, f"eviction manager: eviction criteria not yet met for {SOFT}")
    expect("import of thresholds that rounds show", thresholds_in(node_of(round_of(
        20, "1Gi", "MemoryPressure", "MemoryPressure", ["2Gi", "1536Mi"]), soft)[0]), {
            "evictionHard": {MEMORY: str(3 * GI // 2)}, "evictionSoft": {MEMORY: "2Gi"},
            "evictionSoftGracePeriod": {MEMORY: "1m30s"}, "evictionsRecorded": True})
    keyed = [line(20 + place / 10, f'"Eviction manager:{said}')
             for place, said in enumerate((
                 ' synchronize housekeeping"', '" log="observations" signal="memory.available" resourceName="memory" '
                 'available="1Gi" capacity="8Gi" time="2026-03-01 10:00:20 UTC"',
                 ' threshold observed resource" log="thresholds - ignoring grace period" signal="memory.available" '
                 'resourceName="memory" quantity="2Gi" resource="1Gi"',
                 ' node conditions - observed" nodeCondition=["MemoryPressure"]'))]
    expect("import of thresholds that rounds show, keys", thresholds_in(node_of(*keyed)[0]), {
        "evictionHard": {MEMORY: str(2 * GI)}, "evictionsRecorded": True})


def flags(**values):
    return "".join(line(0.11 + place / 1000, f'FLAG: --{name.replace("_", "-")}="{value}"')
                   for place, (name, value) in enumerate(values.items()))


def test_import_of_flags():
    """Flags set thresholds where no file of a configuration is given, and next to one where they are not a kubelet's
    own; a configuration that is printed goes before them."""
    given = {"eviction_hard": "memory.available<500Mi,nodefs.available<10%", "eviction_soft": "memory.available<1Gi",
             "eviction_soft_grace_period": "memory.available=1m30s", "eviction_minimum_reclaim":
             "memory.available=200Mi", "eviction_pressure_transition_period": "30s"}
    wanted = {"evictionHard": {MEMORY: "500Mi", DISK: "10%"}, "evictionSoft": {MEMORY: "1Gi"},
              "evictionSoftGracePeriod": {MEMORY: "1m30s"}, "evictionMinimumReclaim": {MEMORY: "200Mi"}, PERIOD: "30s",
              "evictionsRecorded": True}
    rounds = round_of(20, "4Gi")
    for name, config in (("alone", ""), ("beside a file", "/etc/kubelet.yaml")):
        expect(f"import of flags {name}", thresholds_in(node_of(flags(config=config, **given), rounds)[0]), wanted)
    own = {"eviction_hard": "imagefs.available<15%,memory.available<100Mi,nodefs.available<10%,nodefs.inodesFree<5%",
           "eviction_soft": "", "eviction_minimum_reclaim": "", "eviction_pressure_transition_period": "5m0s"}
    expect("import of a kubelet's own flags", thresholds_in(node_of(flags(config="", **own), rounds)[0]), {
        "evictionHard": {MEMORY: "100Mi", DISK: "10%"}, "evictionsRecorded": True})
    expect("import of a kubelet's own flags beside a file", thresholds_in(node_of(flags(
        config="/etc/kubelet.yaml", **own), rounds)[0]), {"evictionHard": {}, "evictionsRecorded": True})
    expect("import of flags and a configuration", thresholds_in(node_of(flags(
        config="/etc/kubelet.yaml", **own), configured(), rounds)[0])["evictionHard"], {MEMORY: "100Mi", DISK: "10%"})


def test_import_of_what_rounds_show():
    """No line has how long a condition stays after the last round that met it, and how much has to be reclaimed: the
    import takes what fits the rounds, and marks it."""
    met = round_of(20, "1Gi", "MemoryPressure", "MemoryPressure", ["2Gi"])
    stays = round_of(30, "3Gi", "", "MemoryPressure") + round_of(40, "3Gi", "", "MemoryPressure")
    node, said = node_of(configured(), met, stays, round_of(52, "3Gi"), round_of(62, "3Gi"))
    expect("import of a transition period", (node.get(PERIOD), node.get("guessed")), ("30s", [PERIOD]))
    expect("import of a transition period: what is said", f"and no line has it: {PERIOD}" in said, True)
    expect("import of a condition that stays", PERIOD in node_of(configured(), met, stays)[0], False)
    long = "".join(round_of(20 + 10 * place, "3Gi", "", "MemoryPressure") for place in range(1, 35))
    expect("import of a condition that stays for longer than a kubelet's own period", node_of(
        configured(), met, long)[0].get(PERIOD), "360s")
    more = round_of(30, "2304Mi", "", "MemoryPressure", [], ["2Gi"])
    node, _ = node_of(configured(), met, more)
    expect("import of a minimum reclaim", (node.get("evictionMinimumReclaim"), node.get("guessed")), (
        {MEMORY: str(256 * 1024 * 1024 + 1)}, ["evictionMinimumReclaim"]))


def test_import_of_thresholds_that_come_late():
    """A trace alone has all that the journal shows; of traces in a folder the next one begins before the round that
    shows it first, by no more than what is held back."""
    lines = "".join(round_of(second, "4Gi") for second in range(20, 1500, 10))
    lines += round_of(1500, "1Gi", "MemoryPressure", "MemoryPressure", ["2Gi"])
    lines += round_of(1510, "4Gi", "", "MemoryPressure")
    node, _ = node_of(lines)
    expect("import of a threshold that is shown late", node["evictionHard"], {MEMORY: str(2 * GI)})
    folder = tempfile.mkdtemp()
    status, *_ = imported("--into", folder, "--each", "1d", given=with_lines(lines))
    made = []
    for name in sorted(os.listdir(folder)):
        with gzip.open(f"{folder}/{name}", "rt", encoding="utf-8") as file:
            text = file.read()
        expect(f"import --into of a threshold that is shown late: {name}", checked(text), 0)
        made.append([json.loads(each) for each in text.splitlines()])
    expect("import --into of a threshold that is shown late", (status, [each[0]["evictionHard"] for each in made]), (
        0, [{}, {MEMORY: str(2 * GI)}]))
    first = [tick["at"] for tick in made[1] if tick["kind"] == "tick" and tick.get("judged") is not False][0]
    expect("import --into of a threshold that is shown late: where, and behind what", (
        1772360700 - 800 < first <= 1772360700, made[1][0]["follows"]["at"] == made[0][-1]["at"],
        made[0][-1]["at"] < first), (True, True, True))
    shutil.rmtree(folder)


def test_import_of_a_kubelet_that_is_started_anew_with_other_thresholds():
    """A trace alone has the ones that stayed the same, and a line reports that; traces in a folder have each their
    own."""
    other = HARD.replace("100Mi", "1Gi")
    more = [configured(), round_of(20, "4Gi"), configured(other, False, 61.6, 9999), round_of(
        70, "4Gi", process=9999)]
    text = with_lines(*more)
    at = text.index("I0301 10:01:01.6")
    text = text[:at] + text[at:].replace("    2211 ", "    9999 ")
    status, trace, said = imported(given=text)
    expect("import of other thresholds: a trace alone", (
        status, json.loads(trace.split("\n")[0])["evictionHard"], "restarted with other thresholds" in said), (
            0, {DISK: "10%"}, True))
    folder = tempfile.mkdtemp()
    imported("--into", folder, given=text)
    limits = []
    for name in sorted(os.listdir(folder)):
        with gzip.open(f"{folder}/{name}", "rt", encoding="utf-8") as file:
            limits.append(json.loads(file.readline())["evictionHard"][MEMORY])
    expect("import of other thresholds: traces in a folder", limits, ["100Mi", "1Gi"])
    shutil.rmtree(folder)


# --- next to a real kubelet ---

TOLD = re.compile(r"I(\d\d)(\d\d) (\d\d):(\d\d):(\d\d)\.\d+ .*?\] eviction manager: (synchronize|observations: |"
                  r"node conditions - transition period not met: \[(.*?)\])")


def turns_told(log):
    """The conditions that turn, by what the rounds of a log show: (moment, condition, whether it is true)."""
    rounds = []
    for *moment, what, conditions in TOLD.findall(log):
        if what == "synchronize":
            rounds.append([None, set()])
        elif what.startswith("observations") and rounds[-1][0] is None:
            rounds[-1][0] = calendar.timegm((YEAR, *map(int, moment)))
        elif rounds:
            rounds[-1][1] |= set(conditions.split())
    found, true = [], set()
    for at, now in rounds:
        if at is not None:
            found += [(at, each, each in now) for each in sorted(now ^ true)]
            true = now
    return found


def test_import_of_conditions():
    """The conditions of a real kubelet turn in the report of the trace in the seconds in which its rounds show it, and
    the rules name nobody. docs/import.md has how many they are."""
    with lzma.open(f"{RECORDING}/kubelet.log.xz", "rt", encoding="utf-8", errors="replace") as file:
        log = file.read()
    status, trace, _ = run([f"{TOOLS}/import", "--pods", f"{RECORDING}/pods.json", "--year", str(YEAR)], log)
    node = json.loads(trace.split("\n")[0])
    expect("import of a real kubelet's thresholds", (status, thresholds_in(node)), (0, {
        "evictionHard": {MEMORY: "36.16%"}, PERIOD: "20s", "guessed": [PERIOD], "evictionsRecorded": True}))
    status, report, _ = replayed(trace)
    events = [each.split() for each in report.splitlines() if each.startswith("event ")]
    turns = [(int(at), what[1], what[2] == "True") for _, at, _, *what in events if what[0] == "pressure"]
    expect("import of a real kubelet's conditions", (status, turns), (0, turns_told(log)))
    named = [each for each in events if each[3] in ("names", "evicted")]
    expect("import of a real kubelet's conditions: the rules name nobody", named, [])
    with tempfile.TemporaryDirectory() as folder:
        with open(f"{folder}/trace", "w", encoding="utf-8") as file:
            file.write(trace)
        picture = run([f"{TOOLS}/timeline", "--trace", f"{folder}/trace"], report)[1]
        why = run([f"{TOOLS}/why", "shop/oomer", "--trace", f"{folder}/trace"], report)[1]
    said = re.findall(r"Evicted at [^<]*by the rules", picture)
    expect("timeline of a real kubelet's conditions: who evicted", said, [])
    expect("why of a real kubelet's eviction", [words in why for words in (
        "memory.available hard: below 8.51Gi (36.16%)", "each pod that was present is exempt, so none is ranked")],
           [True, True])
