"""Random scripts of nodes, in each format: the trace is accepted, and it has each start and each exit with its code; in
the extended format also each pod for as long as it was there, and none of what it ran dies by its going. And an hour of
a quiet node, with its bytes."""

import json
import os
import random
import shutil
import tempfile
from concurrent.futures import ThreadPoolExecutor

from chance import BEGIN, SECONDS, play_of
import cases
from checks import HERE, REPLAY, TOOLS, expect, read, run
from into_plays import Into

from replay_tools.report import read_report
from replay_tools.traces import read_trace

load_tests = cases.loaded(__name__)

PLAYS = 32
# how late a start or an exit may be where all sources answer, as what shares a second is in those after it
LATEST = 5
PODS_SECONDS = 10


def recorded(play, *words):
    """The status of a recording of a script, its trace, and the messages."""
    folder = tempfile.mkdtemp()
    with open(f"{folder}/play.json", "w", encoding="utf-8") as file:
        json.dump(play, file)
    answer = run([f"{HERE}/commands/played_record", "--node", "n1", *words],
                 PATH=f"{HERE}/commands:{os.environ['PATH']}", RECORDING=folder, RUN=folder)
    shutil.rmtree(folder)
    return answer


# --- what a scripted node did ---


def lives_in(play):
    """The lives of a script's pods by their uids, each with its name in `one_name_each`."""
    return {life["uid"]: {**life, "named": named(key, number)} for key, lives in play["pods"].items()
            for number, life in enumerate(lives)}


def named(key, number):
    return f"{key}-{number}"


def last_moment(play, life, is_extended):
    """Up to when what happens in a pod is needed. In the extended format an evicted pod is gone when that is seen, and
    in the standard one a pod that was made again under its name has no line. Where a source is silent, what goes
    meanwhile is not seen."""
    if play["fails"] and ("until" in life or "evicted" in life or not life["named"].endswith("-0")):
        return 0
    if is_extended:
        return life.get("evicted", SECONDS)
    return SECONDS if life["named"].endswith("-0") else 0


def wanted_of(play, look, is_extended):
    """What a recording has to have of the instances, but of the last seconds: {(pod, container, words): moment}."""
    wanted, lives = {}, lives_in(play)
    # a runtime that is silent to the end has not shown what happened meanwhile
    silent = [fault["from"] for fault in play["fails"] if fault["kind"] == "ps" and fault["until"] > SECONDS - look]
    for each in play["containers"]:
        life = lives[each["uid"]]
        latest = min([SECONDS, *silent]) - 2 * look
        latest = min(latest, last_moment(play, life, is_extended))
        for word, moment in (("started", each.get("started", SECONDS)), ("died", each.get("exited", SECONDS))):
            if 1 < moment < latest:
                words = f"{word} {each['attempt']}" + (f" {each['code']}" if word == "died" else "")
                wanted[life["named"], each["name"], words] = int(moment)
    return wanted


# --- what a recording has ---


def one_name_each(text):
    """A trace in which each pod has a name of its own, so that a line of its report shows which of them it is of."""
    lines, counts = [], {}
    for line in map(json.loads, text.splitlines()):
        if line["kind"] == "pod":
            metadata = line["pod"]["metadata"]
            key = f"{metadata['namespace']}/{metadata['name']}"
            counts[key] = counts.get(key, -1) + 1
            metadata["name"] = named(metadata["name"], counts[key])
        for entry in line.get("pods", []):
            entry["pod"] = named(entry["pod"], counts[entry["pod"]])
        if line["kind"] == "gone":
            line["pod"] = named(line["pod"], counts[line["pod"]])
        lines.append(json.dumps(line))
    return "".join(f"{line}\n" for line in lines)


def report_of(text):
    """The program's report of a trace, or why it is rejected."""
    with tempfile.NamedTemporaryFile("w", suffix=".trace") as file:
        file.write(text)
        file.flush()
        return run([REPLAY, "run", file.name, "--extended"])


def said_by_number(text):
    """What a report has, as `said_in` returns it, where several pods have one name: by what `read_report` makes of
    it."""
    report = read_report(text)
    names = names_of(report)
    return {(names[event.number], event.container or "-", " ".join([event.word, *event.rest])): event.at - BEGIN
            for event in report.events if event.pod and event.rest}


def said_in(report):
    events = [line.split(" ", 4) for line in report.split("\n") if line.startswith("event ") and line.count(" ") > 4]
    events = [event for event in events if event[2] != "node"]
    return {(pod, container, words): int(moment) - BEGIN for _, moment, pod, container, words in events}


def read_text(text):
    with tempfile.NamedTemporaryFile("w", suffix=".trace") as file:
        file.write(text)
        file.flush()
        return read_trace(file.name)


def names_of(found):
    """The names of the pods of a trace or a report in `one_name_each`, in their order."""
    counts, names = {}, []
    for pod in found.pods:
        counts[pod.key] = counts.get(pod.key, -1) + 1
        names.append(named(pod.key, counts[pod.key]))
    return names


def steps_of(trace, pod, container):
    """What the ticks of a trace have of one container: its starts and its exits, as (words, moment). The ones after the
    tick with which the node has ended the pod are left out."""
    before, started = None, set()
    last = trace.failed[pod.number].at if pod.number in trace.failed else trace.ticks[-1].at
    for place in range(pod.first, len(trace.ticks) if pod.gone is None else pod.gone):
        if trace.ticks[place].at > last:
            return
        listing, moment = trace.listing(pod, container, place), trace.ticks[place].at - BEGIN
        is_other = before is not None and (listing is None or listing.attempt != before.attempt)
        if is_other and before.state != "CONTAINER_EXITED":
            yield f"died {before.attempt} 137", moment
        if listing is not None and (is_other or before is None or before.state != listing.state):
            if listing.state == "CONTAINER_RUNNING" and listing.attempt not in started:
                started.add(listing.attempt)
                yield f"started {listing.attempt}", moment
            elif listing.state == "CONTAINER_EXITED":
                yield f"died {listing.attempt} {listing.code}", moment
        before = listing


def steps_in(trace):
    return {(name, container.name, words): moment for name, pod in zip(names_of(trace), trace.pods)
            for container in pod.containers for words, moment in steps_of(trace, pod, container.name)}


# --- the comparison ---


def missing_in(said, play, look, is_extended):
    """What a recording lacks, or has at another moment than it happened; None where it has all."""
    for place, moment in wanted_of(play, look, is_extended).items():
        if place not in said:
            return f"there is no {' '.join(place)}"
        latest = LATEST if place[0].endswith("-0") else LATEST + look
        if not play["fails"] and not 0 <= said[place] - moment <= latest:
            return f"{' '.join(place)} at {said[place]}, not at {moment}"
    return None


def other_steps(said, trace):
    """A start or an exit that the report has and the ticks of that pod do not, or the other way round."""
    steps = steps_in(trace)
    told = {place: moment for place, moment in said.items() if place[2].split()[0] in ("started", "died")}
    other = min((place for place in told.keys() | steps.keys() if told.get(place) != steps.get(place)), default=None)
    return other and f"{' '.join(other)} at {told.get(other)} in the report, at {steps.get(other)} in the ticks"


def said_when_gone(said, trace):
    """An event of a pod after its last tick; what was left out of all later ones has not died by that."""
    last = {name: trace.ticks[pod.gone - 1].at - BEGIN for name, pod in zip(names_of(trace), trace.pods) if pod.gone}
    late = min((place for place, moment in said.items() if moment > last.get(place[0], moment)), default=None)
    return late and f"{' '.join(late)} at {said[late]}, when its pod was gone"


def unnamed_137(report, play, warnings):
    """An exit that counts as 137 and had another code, and that standard error does not name; or one that it names
    though all sources answered."""
    codes = {(life["named"], each["name"], f"died {each['attempt']} 137"): each.get("code") for life, each in
             ((lives_in(play)[each["uid"]], each) for each in play["containers"])}
    for place in said_in(report):
        pod, container, words = place
        if words.endswith(" 137") and codes[place] != 137:
            key, attempt = pod.rpartition("-")[0], words.split()[1]
            if f"record: {key} {container}: attempt {attempt} was removed" not in warnings:
                return f"{' '.join(place)} is not named"
    named_one = next((line for line in warnings.split("\n") if "was removed" in line or "unseen" in line), None)
    return None if play["fails"] else named_one


def end_of(play, life):
    """When a pod is gone: it was evicted, deleted or is not listed, and nothing of it runs; None where it stays."""
    exits = [each["exited"] for each in play["containers"] if each["uid"] == life["uid"] and "exited" in each]
    told = [life[word] for word in ("evicted", "deleted", "until") if word in life]
    return max(told[0], *exits, 0) if told else None


def presence_fault(trace, play, look):
    """What is wrong with when the pods of a trace come and go; the runtime shows their ends, or the list of pods does
    at its next turn."""
    found, late = dict(zip(names_of(trace), trace.pods)), PODS_SECONDS + 2 * look
    for life in lives_in(play).values():
        end, name = end_of(play, life), life["named"]
        if "refused" in life and name in found:
            return f"{name} is there, and was refused"
        if life["from"] >= SECONDS - late or "refused" in life:
            continue
        if name not in found:
            return f"there is no {name}"
        gone = found[name].gone
        last = None if gone is None else trace.ticks[gone - 1].at - BEGIN
        if end is None and gone is not None:
            return f"{name} goes behind {last}, and should stay"
        if end is not None and end < SECONDS - late and (last is None or not int(end) <= last <= end + late):
            return f"{name} goes behind {last}, not at {end}"
    return None


def fault_of(seed):
    """What is wrong with the recordings of one script, or None."""
    chance = random.Random(seed)
    look = chance.choice([1, 1, 1, 2, 5])
    play = play_of(chance, look)
    for word in ("--standard", "--extended"):
        is_extended = word == "--extended"
        _, text, warnings = recorded(play, "--look", str(look), "--for", str(SECONDS), word)
        status, report, refused = report_of(one_name_each(text))
        if status != 0:
            return f"play {seed} {word}: {refused.strip()}"
        trace = read_text(text)
        fault = missing_in(said_in(report), play, look, is_extended)
        fault = fault or other_steps(said_in(report), trace) or said_when_gone(said_in(report), trace)
        if said_by_number(report_of(text)[1]) != said_in(report):
            fault = fault or "under its own names the report gives events to other pods"
        fault = fault or missing_in(steps_in(trace), play, look, is_extended)
        fault = fault or unnamed_137(report, play, warnings)
        fault = fault or (presence_fault(trace, play, look) if is_extended and not play["fails"] else None)
        if fault is not None:
            return f"play {seed} {word}: {fault}"
    return None


def test_plays():
    with ThreadPoolExecutor(4) as threads:
        faults_found = [fault for fault in threads.map(fault_of, range(PLAYS)) if fault is not None]
    expect("plays made by chance", faults_found[:1], [])


# --- a quiet node ---


def quiet_node(pods, seconds):
    """A node on which nothing happens: each pod has one container with two probes, which pass each 10 s."""
    probe = {"periodSeconds": 10}
    spec = {"containers": [{"name": "app", "livenessProbe": probe, "readinessProbe": probe}]}
    names = [f"web-{number}" for number in range(pods)]
    moments = {name: [number % 10 + 10 * turn for turn in range(-10, seconds // 10 + 1)]
               for number, name in enumerate(names)}
    return {"begin": BEGIN, "pods": {f"shop/{name}": {"spec": spec} for name in names},
            "containers": [{"id": f"c{number}", "pod": f"shop/{name}", "name": "app", "attempt": 0, "created": -101,
                            "started": -100} for number, name in enumerate(names)],
            "probes": [{"pod": f"shop/{name}", "container": "app", "probe": kind, "result": "success",
                        "at": moments[name]} for name in names for kind in ("liveness", "readiness")],
            "samples": {str(10 * turn - 5): {"memory": 4294967296 - 4096 * turn, "pods": {
                f"uid-{name}": 100000000 + 4096 * turn for name in names}} for turn in range(seconds // 10 + 2)}}


def size_of(every):
    """What an hour of a quiet node with 30 pods makes, as tools/README.md has it."""
    # some 8 s on a machine that does nothing else
    status, trace, said = recorded(quiet_node(30, 3600), "--for", "3600", "--every", str(every), "--standard")
    expect(f"an hour of a quiet node, every {every} s", (status, said), (0, ""))
    ticks = trace.count('"kind":"tick"')
    return f"{ticks} ticks and {len(trace.encode()) / 10 ** 6:.1f} MB with `--every {every}`"


def test_quiet_hour():
    with ThreadPoolExecutor(2) as threads:
        sizes = list(threads.map(size_of, (10, 60)))
    page = " ".join(read(f"{TOOLS}/README.md").split())
    expect("an hour of a quiet node: its size in tools/README.md", [size for size in sizes if size not in page], [])


# --- slow looks ---


def slow_play(**more):
    """A node with one pod."""
    return {"begin": BEGIN, "pods": {"shop/web": {"from": -90, "spec": {"containers": [{"name": "app"}]}}},
            "containers": [], "samples": {"-1": {"memory": 4294967296}}, **more}


def ticks_of(trace):
    return [line for line in map(json.loads, trace.splitlines()) if line["kind"] == "tick"]


def test_samples_of_slow_looks():
    """A sample is at its own moment, also where it was taken after the begin of the look that saw it."""
    for words in ([], ["--look", "5"]):
        play = slow_play(slow={"probes": 3, "summary": 1},
                         samples={str(at): {"memory": 4294967296 - 4096 * max(at, 0)} for at in range(-1, 61)})
        status, trace, said = recorded(play, "--for", "60", "--standard", *words)
        expect("samples of slow looks: its status", (status, said), (0, ""))
        values = [(tick["at"] - BEGIN, (4294967296 - tick["signals"]["memory.available"]) // 4096)
                  for tick in ticks_of(trace)[1:]]
        first = {value: at for at, value in reversed(values)}
        expect("samples of slow looks: how many", len(first) > 4, True)
        expect(f"samples of slow looks {words}", {value: at for value, at in first.items() if value != at}, {})


def test_what_happens_in_slow_looks():
    """Also an exit, in a folder of traces too, and an eviction are at their own moments there."""
    ended = {"pod": "shop/web", "name": "app", "attempt": 0, "id": "a", "created": 2, "started": 3, "code": 7,
             "exited": 16.5}
    play = slow_play(slow={"probes": 3}, containers=[ended])
    expect("an exit in a slow look", codes_of(recorded(play, "--for", "40")), (0, [], {0: (7, 16)}))
    into = Into(play)
    status, _, said = into.into("--for", "40", "--each", "1h")
    [text] = into.texts()
    into.clean()
    expect("an exit in a slow look, in a folder", codes_of((status, text, said)), (0, [], {0: (7, 16)}))
    play = slow_play(slow={"probes": 1, "pods": 3})
    play["pods"]["shop/web"] |= {"evicted": 12, "condition": 12, "message": "The node was low on resource: memory. "}
    status, trace, _ = recorded(play, "--for", "40")
    at = [each["at"] - BEGIN for tick in ticks_of(trace) for each in tick.get("kubelet", {}).get("evicted", [])]
    expect("an eviction in a slow look", (status, at), (0, [12]))


def codes_of(answer):
    """The status of a recording, its messages about codes that are lost, and each exit that it has: its attempt, its
    code and the second at which it is."""
    (status, trace, said), found = answer, {}
    for tick in ticks_of(trace):
        for entry in tick["pods"]:
            for each in entry["containers"]:
                if each["state"] == "CONTAINER_EXITED":
                    found.setdefault(each["attempt"], (each["exitCode"], tick["at"] - BEGIN))
    return status, [line for line in said.splitlines() if "137" in line], found


def test_codes_that_a_status_has():
    """The code of an instance that was removed before it was asked for is the status's, also where that has it only
    some looks later, where the list of pods is silent meanwhile, or where the pod is listed no more by then."""
    ends = {"pod": "shop/web", "name": "app", "attempt": 0, "id": "a", "created": 2, "started": 3, "code": 7}
    silent = [{"kind": "pods", "from": 12, "until": 25, "text": "failed"}]
    for name, look, container, more in (
        ("a look later", 5, {"told": 18}, {}),
        ("two looks later", 5, {"told": 23}, {}),
        ("slow answers", 1, {"told": 26}, {"slow": {"probes": 3, "pods": 3}}),
        ("a silent list of pods", 1, {"told": 14}, {"fails": silent}),
        ("gone at the inspection", 5, {"created": 11, "started": 11.5, "lost": 15, "removed": 16, "told": 16}, {}),
        ("a pod that is gone", 5, {"told": 12.5}, {"slow": {"pods": 3}, "until": 14}),
    ):
        play = slow_play(containers=[{**ends, "exited": 12.5, "removed": 13, **container}], **more)
        play["pods"]["shop/web"]["until"] = play.get("until", 1000)
        expect(f"a code of the status, {name}", codes_of(recorded(play, "--for", "60", "--look", str(look))),
               (0, [], {0: (7, 12)}))
