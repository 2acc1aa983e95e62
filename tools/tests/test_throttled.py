"""The tests of for how long processors were throttled: what is read of the kubelet's /metrics/cadvisor, which answers
may do harm, when it is asked, and what a recording has of it. The lines are after cAdvisor's form as it is known; none
was captured."""

import json
import os
import re
import shutil
import signal
import subprocess
import time

import cases
from checks import TOOLS, expect, read, run, wait_until
from test_connections import ANSWERS, FORBIDDEN, NOTHING, TOKEN, Kubelet, Place, has_openssl
from test_used import BEGIN, busy_node, play_of, recorded, ticks_of, used_in, without

from replay_tools import traces, why
from replay_tools.record import throttled
from replay_tools.record.runtime import moment_of
from replay_tools.record.sources import Failed, Refused, Sources
from replay_tools.record.throttled import METRIC, Series, Throttled, Throttling

load_tests = cases.loaded(__name__)

ID, ANOTHER = "3f2a" * 16, "77c1" * 16
PATH = "/metrics/cadvisor"
LABELS = {"container": "app", "id": f"/kubepods.slice/kubepods-podu1.slice/cri-containerd-{ID}.scope",
          "image": "web:1", "name": ID, "namespace": "shop", "pod": "web"}
APP = Throttled("shop/web", "app", 12345, 1767225600.5)
LEFT_OUT = "for how long processors were throttled is left out"
# of another metric, as most of an answer is
OTHER = ('container_memory_usage_bytes{container="app",id="/kubepods/podu1/%s",namespace="shop",pod="web"} 5 1\n' % ID
         ).encode()


def line(value="12.345", moment=" 1767225600500", **others):
    """A line of the metric with others of its labels, of which None leaves one out."""
    labels = ",".join(f'{name}="{text}"' for name, text in {**LABELS, **others}.items() if text is not None)
    return f"{METRIC}{{{labels}}} {value}{moment}\n"


def read_by(answer, size=1 << 16):
    """What is read of an answer that comes in parts of so many bytes, or why nothing is."""
    data, series = answer if isinstance(answer, bytes) else answer.encode(), Series()
    try:
        for at in range(0, len(data), size):
            series.take(data[at:at + size])
    except Failed as failed:
        return str(failed)
    return series.whole()


def test_series():
    """Each line of the metric is of the instance that its cgroup names, however the answer comes in parts."""
    others = "".join((f"# HELP {METRIC} Total time duration the container has been throttled.\n", f"# TYPE {METRIC} ",
                      "counter\n", OTHER.decode(), f'{METRIC}_of_another{{id="/{ID}"}} 5\n', "\n"))
    for name, text, wanted in (
        ("a line", line(), {ID: APP}),
        ("without a moment", line(moment=""), {ID: Throttled("shop/web", "app", 12345)}),
        ("among others", others + line() + others + line("0", container="side", id=f"/a/podu1/{ANOTHER}") + others,
         {ID: APP, ANOTHER: Throttled("shop/web", "side", 0, 1767225600.5)}),
        ("of CRI-O", line(name="k8s_app_web_shop_u1_0", id=f"/kubepods.slice/kubepods-podu1.slice/crio-{ID}.scope"),
         {ID: APP}),
        ("of cgroupfs", line(id=f"/kubepods/burstable/podu1/{ID}"), {ID: APP}),
        ("of a name alone", line(id=None), {ID: APP}),
        ("of great numbers", line("1.2345e+06", image='a\\\\\\"b\\n'), {ID: Throttled(
            "shop/web", "app", 1234500000, 1767225600.5)}),
        ("said twice", line() + line(), {ID: APP}),
        # of no container of a pod
        ("of a pod", line(container="", name="", id="/kubepods.slice/kubepods-podu1.slice"), {}),
        ("of a sandbox", line(container="POD"), {}),
        ("cut", line()[:-1], {}),
        ("of none", "", {}),
    ):
        for size in (1, 7, 4096):
            expect(f"a series {name}, by {size} bytes", read_by(text, size), wanted)


def test_hostile_series():
    """What is no value, and what is no name, counts as not there, and hides nothing after it."""
    for name, text in (
        *((f"a value {value!r}", line(value)) for value in (
            "NaN", "nan", "+Inf", "inf", "-1", "-0", "1e999", "1e-", "0x10", "1_0", "", " ", "\u0661", "1" * 400,
            "1e40", "9" * 19)),
        *((f"a moment {moment!r}", line(moment=moment)) for moment in (
            " -1", " x", " 1e3", "  5", " 9" + "9" * 16, " 5 5", " 9999999999999999")),
        *((f"a {label} {text!r}", line(**{label: text})) for label in ("container", "namespace", "pod") for text in (
            "", "A", "../x", "a\\nb", 'a\\"', "\x1b[31m", "a\0b", "a" * 254, "a b", "\u00e9", None)),
        ("a cgroup of no id", line(id="/kubepods/burstable/podu1/\u00e9", name="")),
        ("a name of no id", line(id=None, name="../x")),
        ("a label twice", line().replace("} ", ',pod="other"} ')),
        ("a text without end", line().replace('"shop"', '"shop')),
        ("no labels", f"{METRIC}{{}} 5\n"),
        ("no braces", f"{METRIC} 5\n"),
        ("a byte that is no text", line(container="\udcff").encode("utf-8", "surrogateescape")),
        ("a long line", line(image="x" * throttled.LONGEST_LINE)),
        ("a line of many escapes", line(image='\\"' * (throttled.LONGEST_LINE // 2 - 200) + "\\")),
        ("two values of one instance", line() + line("5")),
        ("two containers of one instance", line() + line(container="side")),
    ):
        data = text if isinstance(text, bytes) else text.encode()
        behind = line("1", id=f"/a/{ANOTHER}").encode()
        wanted = {ANOTHER: Throttled("shop/web", "app", 1000, 1767225600.5)}
        for size in (1, 1 << 16):
            expect(f"a series with {name}, by {size} bytes", read_by(data + behind, size), wanted)


def test_long_answers():
    """A line without an end is not held, and an answer that is too long, or has too many series, is none."""
    series = Series()
    for _ in range(1000):
        series.take(b"x" * 60000)
    expect("a line without an end", (len(series.rest) <= throttled.LONGEST_LINE, series.whole()), (True, {}))
    series.take(b"\n" + line().encode())
    expect("what follows a long line", series.whole(), {ID: APP})
    expect("an answer without an end", read_by(OTHER * (throttled.MOST_BYTES // len(OTHER) + 1)),
           "answered with more than 64 MiB, the most that is read")
    many = "".join(line(id=f"/a/{number}a") for number in range(throttled.MOST_SERIES + 1))
    expect("many series", read_by(many), f"has more than {throttled.MOST_SERIES} series of {METRIC}, the most that are "
                                         "read")


class Asked(Throttling):
    """Asks a stand-in, and is asked at moments."""

    def __init__(self, answer, beside=lambda work: work()):
        self.count, self.said, self.answer = 0, [], answer
        super().__init__(Sources("n1", kubelet="https://a", read=self.give, beside=beside), self.said.append)

    def give(self, words, _, take):
        self.count += 1
        if isinstance(self.answer, Failed):
            raise self.answer
        take(self.answer.encode())

    def looks(self, since, until):
        """Looks each second: how often it was asked, and what came."""
        before, came = self.count, {}
        for moment in range(since, until):
            self.begin(moment + 0.3)
            came.update(self.taken())
        return self.count - before, came


def test_when_it_is_asked():
    """Once in ten seconds; more seldom where it takes long or does not come, which is reported once."""
    asked = Asked(line())
    expect("asked", (asked.looks(0, 60), asked.said), ((6, {ID: APP}), []))
    expect("asked as the clock goes back", asked.looks(10, 11), (1, {ID: APP}))
    for name, answer, said in (
        ("forbidden", Refused(403, "answered with 403 Forbidden: no"), f"{PATH} answered with 403 Forbidden: no"),
        ("not there", Refused(404, "answered with 404 Not Found: x"), f"{PATH} answered with 404 Not Found: x"),
        ("silent", Failed("gave no answer within 10 s"), f"{PATH} gave no answer within 10 s"),
    ):
        asked = Asked(answer)
        expect(f"asked, {name}", (asked.looks(0, 600), set(asked.said)), ((10, {}), {f"{said}; {LEFT_OUT}"}))
        asked.answer = line()
        expect(f"asked, {name}, and then there", asked.looks(600, 640), (4, {ID: APP}))
    asked = Asked(OTHER.decode())
    expect("asked, without the metric", (asked.looks(0, 15), asked.said), ((2, {}), []))
    expect("asked, without the metric for long", (asked.looks(15, 80), set(asked.said)),
           ((1, {}), {f"{PATH}: no {METRIC} in the answer; {LEFT_OUT}"}))
    asked, works = Asked(line()), []
    asked.sources = Sources("n1", kubelet="https://a", read=asked.give, beside=works.append)
    expect("nothing while it goes on", (asked.looks(0, 100), len(works)), ((0, {}), 1))
    asked.come = {ID: APP}, 3.0
    expect("an answer that took 3 s", (asked.taken(), asked.looks(100, 159), len(works)), ({ID: APP}, (0, {}), 2))
    asked = Asked(line(), beside=lambda work: (_ for _ in ()).throw(Failed("can't be asked: no room")))
    expect("no thread", (asked.looks(0, 30), set(asked.said)), ((0, {}), {f"{PATH} can't be asked: no room; {LEFT_OUT}"}))


LIMITED = {"limits": {"cpu": "500m"}}


def played(limits, throttling, containers=None, **others):
    """A script of a pod of one container that ran out of memory once, with what cAdvisor has of it."""
    made = containers or [
        {"id": "a0", "attempt": 0, "created": -3, "started": -2, "exited": 33.4, "code": 137, "reason": "OOMKilled"},
        {"id": "a1", "attempt": 1, "created": 34, "started": 34.4}]
    samples = {at: [10 + at, 12, 1500000, at] for at in (-1, 8, 18, 28, 38, 48)}
    play = {**play_of(made, samples), "throttled": {str(at): each for at, each in throttling.items()}, **others}
    play["pods"]["shop/web"]["spec"]["containers"][0]["resources"] = limits
    return play


RISES = {at: {"a0": [at / 4, at]} for at in (0, 8, 18, 28)} | {38: {"a0": [7, 28], "a1": [0.125, 38]},
                                                               48: {"a1": [0.5, 48]}}


def throttled_in(ticks):
    return [(at, attempt, used.get("throttled")) for at, attempt, used in used_in(ticks)]


def test_recorded():
    """It is with what the container used, of the instance that runs, and once more with its exit."""
    whole = [(0, 0, 0), (8, 0, 2000), (18, 0, 4500), (28, 0, 7000), (33, 0, 7000), (38, 1, 125), (48, 1, 500)]
    lacking = [(at, attempt, None) for at, attempt, _ in whole]
    words = ["--extended", "--for", "60"]
    for name, play, more, wanted in (
        ("asked", played(LIMITED, RISES), ["--throttled", "yes"], whole),
        ("not by kubectl", played(LIMITED, RISES), [], lacking),
        ("at the port", played(LIMITED, RISES), ["--kubelet", "https://127.0.0.1:10250"], whole),
        ("left out at the port", played(LIMITED, RISES), ["--kubelet", "https://127.0.0.1:10250", "--throttled", "no"],
         lacking),
        ("without a limit", played({"limits": {"memory": "1Gi"}, "requests": {"cpu": "1"}}, RISES),
         ["--throttled", "yes"], lacking),
        ("of another container's id", played(LIMITED, {0: {"a9": [5, 0]}}, [
            *played(LIMITED, RISES)["containers"], {"id": "a9", "pod": "shop/other", "name": "app", "attempt": 0,
                                                    "created": -9, "started": -9}]), ["--throttled", "yes"], lacking),
        ("of a count that went back", played(LIMITED, {**RISES, 28: {"a0": [4.25, 28]}}), ["--throttled", "yes"],
         [*whole[:3], (28, 0, 4500), (33, 0, 4500), *whole[5:]]),
        ("of old moments", played(LIMITED, {at: {"a0": [1, at - 40]} for at in (0, 8, 18, 28)}),
         ["--throttled", "yes"], lacking),
        ("of later moments", played(LIMITED, {at: {"a0": [at, at + 10 ** 6]} for at in (8, 18, 28)}),
         ["--throttled", "yes"], None),
    ):
        ticks, answer = ticks_of(play, *words, *more)
        expect(f"throttled, {name}: what is said", answer, (0, ""))
        if wanted is not None:
            expect(f"throttled, {name}", throttled_in(ticks), wanted)
    expect("throttled, as the tools read it", [(use.at - BEGIN, use.attempt, use.throttled) for use in uses_of(
        recorded(played(LIMITED, RISES), *words, "--throttled", "yes")[0])],
        [(-1, 0, 0), *(each for each in whole[1:] if each[0] != 33)])


def uses_of(text):
    trace = traces.trace_of(text.encode(), "it")
    ticks = why.Ticks()
    ticks.take_all(trace)
    [used] = ticks.of(trace, trace.pods[0]).used.values()
    return used.uses


def test_not_asked():
    """In the standard format, of the runtime alone, and where no limit is nothing is asked: a source that fails is not
    even noticed."""
    fails = {"fails": [{"kind": "cadvisor", "from": 0, "until": 99, "text": "answered with 404"}]}
    said = f"record: {PATH} answered with 404; {LEFT_OUT}\n"
    for name, limits, words, wanted in (
        ("asked", LIMITED, ["--extended", "--throttled", "yes"], said),
        ("the standard format", LIMITED, ["--standard", "--throttled", "yes"], ""),
        ("no limit", {}, ["--extended", "--throttled", "yes"], ""),
        ("the runtime alone", LIMITED, ["--extended", "--kubelet", "none", "--throttled", "yes"], ""),
    ):
        _, answer = recorded(played(limits, RISES, **fails), *words, "--for", "40")
        expect(f"a source that fails: {name}", answer, (0, wanted))
    play = played({}, RISES)
    play["pods"]["shop/web"]["resized"] = [{"from": 5, "resources": {"app": LIMITED}}]
    ticks, answer = ticks_of(play, "--extended", "--throttled", "yes", "--for", "40")
    found = throttled_in(ticks)
    # how long an answer took decides when the next one is asked for
    expect("a limit that came later", (answer, found[0], any(value for _, _, value in found)),
           ((0, ""), (0, 0, None), True))
    status, _, said = run([f"{TOOLS}/record", "--throttled", "maybe"])
    expect("a word of it", (status, said.startswith("record: --throttled takes yes or no, not 'maybe'")), (2, True))


# --- a server that answers as a kubelet does ---


def limited_pods():
    """The answer of the recordings, with a limit."""
    listed = json.loads(read(f"{ANSWERS}/pods.json"))
    for pod in listed["items"]:
        pod["spec"]["containers"][0]["resources"]["limits"]["cpu"] = "500m"
    return json.dumps(listed).encode()


def of_the_server(value="12.5"):
    """A line of the container that the recorded runtime lists, of the moment of its recorded sample."""
    [each] = json.loads(read(f"{ANSWERS}/ps.json"))["containers"]
    [pod] = json.loads(read(f"{ANSWERS}/summary.json"))["pods"]
    sampled = moment_of(pod["containers"][0]["memory"]["time"])
    return line(value, f" {round(sampled * 1000)}", container="server", pod="api-7f9c", name=each["id"],
                id=f"/kubepods/podu/{each['id']}")


def endless(handler):
    """A body without an end, chunk by chunk, of lines of other metrics."""
    handler.send_response(200)
    handler.send_header("Transfer-Encoding", "chunked")
    handler.end_headers()
    part = OTHER * 600
    try:
        while True:
            handler.wfile.write(f"{len(part):x}\r\n".encode() + part + b"\r\n")
    except OSError:
        handler.close_connection = True


def chunked(body):
    def answer(handler):
        handler.send_response(200)
        handler.send_header("Transfer-Encoding", "chunked")
        handler.end_headers()
        for at in range(0, len(body), 1000):
            part = body[at:at + 1000]
            handler.wfile.write(f"{len(part):x}\r\n".encode() + part + b"\r\n")
        handler.wfile.write(b"0\r\n\r\n")
    return answer


def never(handler):
    """No answer until the other side has gone."""
    handler.rfile.read(1)
    handler.close_connection = True


def recorded_until(words, settings, is_over):
    """Records until something holds of what is written and reported; the status and the messages."""
    paths = [f"{settings['RUN']}/{name}" for name in ("trace", "said")]
    with open(paths[0], "wb") as trace, open(paths[1], "wb") as said:
        process = subprocess.Popen([*words, "--extended"], stdout=trace, stderr=said, env={**os.environ, **settings})
    wait_until("the recording", lambda: is_over(*map(read, paths)))
    process.send_signal(signal.SIGTERM)
    return process.wait(), read(paths[1])


class OfKubelet:
    """A recorder next to a kubelet that gives this of throttling."""

    def __init__(self, other):
        self.place = Place()
        self.kubelet = Kubelet(self.place.folder)
        self.kubelet.others = {"/pods": (200, limited_pods()), PATH: other,
                               "/containerLogs/": FORBIDDEN}
        curl = self.place.curl_file(f'header = "Authorization: {TOKEN}"\ncacert = "{self.place.folder}/crt"\n')
        # how many looks there were by when a recorder asked for it
        self.seen = None
        self.words = [f"{TOOLS}/record", "--node", "worker-3", "--kubelet", self.kubelet.url, "--curl", curl]

    def record(self, is_over):
        """Records until something holds of what it has written and reported; its status and its messages."""
        self.kubelet.paths.clear()
        return recorded_until(self.words, self.place.settings, is_over)

    def has_gone_on(self, count=3):
        """Whether so many looks came after the one at which it was asked."""
        paths = self.kubelet.paths
        if not paths[PATH]:
            return False
        self.seen = paths["/metrics/probes"] if self.seen is None else self.seen
        return paths["/metrics/probes"] >= self.seen + count

    def check(self, *words):
        """What --check prints of it."""
        status, told, said = run([*self.words, "--check", *words], **self.place.settings)
        return status, said, [each for each in told.splitlines() if PATH in each]

    def end(self):
        self.kubelet.end()
        self.place.remove()


def test_of_a_kubelet():
    """A kubelet's answers, as they may come, are recorded or reported once, and all else is recorded."""
    if not has_openssl():
        return
    body = OTHER * 3000 + of_the_server().encode()
    works = f"works    {PATH}: 1 container whose processor has a limit"
    wants = f"it is at the kubelet's port 10250, and needs the permission to get nodes/metrics; {LEFT_OUT}"
    for name, other, said, told in (
        ("whole", (200, body), "", works),
        ("in chunks", chunked(body), "", works),
        ("forbidden", FORBIDDEN, f"{PATH} answered with 403 Forbidden: {FORBIDDEN[1].decode()}", None),
        ("not there", NOTHING, f"{PATH} answered with 404 Not Found: {NOTHING[1].decode()}", None),
        ("cut", (200, body, 9), f"{PATH} gave no answer: the answer ended before its length", None),
        ("without an end", endless, f"{PATH} answered with more than 64 MiB, the most that is read", None),
        ("without the metric", (200, OTHER), "", f"without  {PATH}: no {METRIC} in the answer, as where no container "
                                                 "that runs has a limit of its processor"),
        ("of zeros", (200, b"\0" * 100000), "", f"without  {PATH}: no {METRIC} in the answer, as where no container "
                                                "that runs has a limit of its processor"),
    ):
        kubelet = OfKubelet(other)
        expect(f"--check, {name}", kubelet.check(), (0, "", [told or f"without  {said}; {wants}"]))
        line = f"record: {said}; {LEFT_OUT}\n" if said else ""
        answer = kubelet.record(lambda trace, heard: kubelet.has_gone_on() and line in heard
                                and (told != works or '"throttled":12500' in trace))
        expect(f"a kubelet's answer, {name}", answer, (0, line))
        kubelet.end()
    kubelet = OfKubelet(NOTHING)
    expect("--check, left out", kubelet.check("--throttled", "no"),
           (0, "", [f"unasked  {PATH}: {LEFT_OUT}, as --throttled yes does not"]))
    kubelet.end()


def test_by_commands():
    """By kubectl's proxy, where it is asked for, and by a curl that is started for each answer."""
    place = Place()
    recording = f"{place.folder}/recording"
    shutil.copytree(os.path.dirname(ANSWERS), recording)
    for name, data in (("pods.json", limited_pods()), ("cadvisor.txt", of_the_server().encode())):
        with open(f"{recording}/1/{name}", "wb") as file:
            file.write(data)
    settings = {**place.settings, "RECORDING": recording}
    curl = place.curl_file('header = "Authorization: Bearer none"\nproxy = "http://127.0.0.1:1"\n')
    for name, words, said in (
        ("kubectl", ["--throttled", "yes"], ""),
        ("curl", ["--kubelet", "https://127.0.0.1:10250", "--curl", curl],
         f"record: {curl} has 'proxy', which is not read here: curl is started for each answer\n"),
    ):
        answer = recorded_until([f"{TOOLS}/record", "--node", "worker-3", *words], settings,
                                lambda trace, _: '"throttled":12500' in trace)
        expect(f"throttled by {name}", answer, (0, said))
    expect("throttled: kubectl's proxy leaves nothing", place.left(), [])
    place.remove()


def test_no_look_waits():
    """While an answer does not come looks go on as they would, and an interrupt ends the recorder."""
    if not has_openssl():
        return
    kubelet = OfKubelet(never)
    process = subprocess.Popen([*kubelet.words, "--extended"], stdout=subprocess.PIPE, stderr=subprocess.PIPE,
                               env={**os.environ, **kubelet.place.settings})
    wait_until("looks go on", kubelet.has_gone_on)
    expect("they go on while it waits", kubelet.kubelet.paths[PATH], 1)
    begun = time.monotonic()
    process.send_signal(signal.SIGTERM)
    trace, said = process.communicate()
    expect("it ends while it waits", (process.returncode, said, trace.count(b'"kind":"tick"') > 0,
                                      time.monotonic() - begun < 9), (0, b"", True, True))
    kubelet.end()


def test_memory():
    """An answer of tens of MB is read in steady memory."""
    if not has_openssl():
        return
    kubelet = OfKubelet((200, OTHER * (50 * 2 ** 20 // len(OTHER)) + of_the_server().encode()))
    process = subprocess.Popen([*kubelet.words, "--extended"], stdout=subprocess.DEVNULL, stderr=subprocess.PIPE,
                               env={**os.environ, **kubelet.place.settings})
    wait_until("looks go on", lambda: kubelet.has_gone_on(5))
    peak = re.search("VmHWM:\\s+([0-9]+) kB", read(f"/proc/{process.pid}/status"))
    process.send_signal(signal.SIGTERM)
    _, said = process.communicate()
    expect("a long answer takes little memory", (said, peak is not None and int(peak[1]) < 48 << 10), (b"", True))
    kubelet.end()


def test_growth():
    """With it a recording grows by at most a third by what containers use."""
    play = busy_node(30, 300)
    for pod in play["pods"].values():
        pod["spec"]["containers"][0]["resources"] = LIMITED
    play["throttled"] = {str(at): {f"c{number}": [1234.567 + at, at] for number in range(30)}
                         for at in range(-5, 300, 10)}
    ticks, answer = ticks_of(play, "--extended", "--throttled", "yes", "--for", "300")
    lean, whole = (len(json.dumps(each, separators=(",", ":"))) for each in (without(ticks), ticks))
    have = [used for _, _, used in used_in(ticks) if "throttled" in used]
    expect("throttled: each sample has it", len(have), len(used_in(ticks)))
    expect("throttled: how much a recording grows", (answer, lean < whole <= lean * 4 / 3), ((0, ""), True))
