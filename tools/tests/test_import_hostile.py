"""The tests of what a journal and a file of manifests may hold to do harm: lines, numbers and nests that are long,
aliases that multiply, characters that are none, and what does not end."""

import gzip
import json
import os
import subprocess
import tempfile
import time

import cases
from checks import expect, expect_refused, read
from test_import import FOLDER, IMPORT, YEAR, imported, journald
from test_import_forms import added

from replay_tools.importing import journals, keyed, messages, printed, records, runtimes

load_tests = cases.loaded(__name__)

LENGTH = 1 << 18
# of a quarter of a megabyte; what is quadratic takes minutes
SECONDS = 4.0
POD = "kind: Pod\nmetadata: {name: web, namespace: shop}\nspec: {containers: [{name: app}]}\n"


def seconds_of(function):
    begin = time.process_time()
    list(function())
    return time.process_time() - begin


def repeated(text):
    return (text * (LENGTH // len(text) + 1))[:LENGTH]


def test_import_of_long_lines():
    """The time is linear in the length of a line, whatever it repeats."""
    for body in (" a={", " a=[", ' a="', " a=&{", " a=<\n\t", ' a=\\"', " a={ b", "= "):
        text = '"Probe failed"' + repeated(body)
        expect(f"keys that repeat {body!r} take their time", seconds_of(lambda: messages.split(text)) < SECONDS, True)
    ended = "ContainerStateTerminated{ExitCode:1,Signal:1,Reason:,"
    for head, body in (('Readiness probe for "', "):"), ("Status for pod ", ended),
                       ("Creating Container Manager object", "HardEvictionThresholds:[")):
        message = messages.Message(1.0, 1, head + repeated(body))
        reader = printed.FORMS[head.partition(" ")[0]]
        expect(f"a sentence that repeats {body!r} takes its time", seconds_of(lambda: reader(message)) < SECONDS, True)
    for unit, body in (("containerd", "TaskOOM event"), ("kernel", "oom-kill:constraint=A,"),
                       ("kernel", "task_memcg=")):
        line = journals.Line(1.0, repeated(body).encode(), unit)
        expect(f"a runtime's line that repeats {body!r} takes its time",
               seconds_of(lambda: runtimes.Runtime().facts_of(line)) < SECONDS, True)
    for body in ("[", "{", '"', '\\"', '"\\', '[["', '{"a":', "[1,"):
        data = repeated(body).encode()
        pieces = [data[place:place + 4096] for place in range(0, len(data), 4096)]
        expect(f"a document that repeats {body!r} takes its time",
               seconds_of(lambda: records.of_documents(pieces, journals.Counts())) < SECONDS, True)


MULTIPLIED = POD + "x0: &x0 [a,a,a,a,a,a,a,a,a,a]\n" + "".join(
    f"x{number}: &x{number} [{','.join([f'*x{number - 1}'] * 10)}]\n" for number in range(1, 9))
CIRCLE = "kind: Pod\nmetadata: {name: web, namespace: shop}\nspec: &a\n  containers: [{name: app}]\n  me: *a\n"


def test_import_of_hostile_manifests():
    """Aliases that multiply or are a circle, numbers and nests that are long are one line each."""
    folder = tempfile.mkdtemp()
    for name, text, words in (
            ("aliases", MULTIPLIED, "its aliases multiply"),
            ("few aliases", MULTIPLIED.partition("x6:")[0], "its aliases multiply"), ("circle", CIRCLE, "or are a circle"),
            ("digits", f"{POD}x: {'9' * 5000}\n", "has a number that is too long"),
            ("sexagesimal", f"{POD}x: 1{':1' * 5000}\n", "has a number that is too long"),
            ("levels", f"{POD}x: {'[' * 1000}{']' * 1000}\n", "nests too deep"),
            ("many levels", f"{POD}x: {'[' * 100000}{']' * 100000}\n", "nests too deep"),
            ("levels of JSON", "[" * 900 + "]" * 900, "has no manifest of a pod"),
            ("many levels of JSON", "[" * 100000 + "]" * 100000, "is no JSON"),
            ("digits of JSON", f'{{"kind":"Pod","x":{"9" * 5000}}}', "")):
        path = f"{folder}/{name}"
        with open(path, "w", encoding="utf-8") as file:
            file.write(text)
        answer = imported("--journal", f"{FOLDER}/keyed.log", pods=path)
        expect_refused(f"import of manifests of {name}", answer, 2, words)
    with open(f"{folder}/long", "wb") as file:
        file.write(POD.encode() + b"x: |\n")
        file.writelines([b"  " + b"a" * (1 << 20) + b"\n"] * 65)
    answer = imported("--journal", f"{FOLDER}/keyed.log", pods=f"{folder}/long")
    expect_refused("import of manifests of more than 64 MiB", answer, 2, "has more than 64 MiB of YAML")
    deep = {"kind": "Pod", "metadata": {"name": "web", "namespace": "shop"},
            "spec": {"containers": [{"name": "app", "readinessProbe": json.loads("[" * 900 + "]" * 900)}]}}
    with open(f"{folder}/deep", "w", encoding="utf-8") as file:
        json.dump(deep, file)
    status, _, said = imported("--journal", f"{FOLDER}/keyed.log", pods=f"{folder}/deep")
    expect("import of a probe that nests", (status, "Traceback" in said, "shop/web is left out" in said), (
        0, False, True))


def test_import_of_characters_that_are_none():
    """Half of a surrogate pair in a journal and in manifests; a resource that is no word."""
    text = journald(read(f"{FOLDER}/keyed.log")).replace("statuscode: 503", "statuscode: 503 \\ud800")
    said = '{"__REALTIME_TIMESTAMP":"1772359205500000","_HOSTNAME":"worker-3","SYSLOG_IDENTIFIER":"kubelet","_PID":' \
           '"2211","MESSAGE":"I0301 10:00:05.500000    2211 a.go:1] \\"Probe failed\\" pod=\\"\\udfff\\ud800\\""}\n'
    status, _, errors = imported(given=said + text)
    expect("import of half of a pair", (status, "Traceback" in errors), (0, False))
    escape = "mem\\x1b[31mory"
    lines = [(59.0, f'"Eviction manager: attempting to reclaim" resourceName="{escape}"'),
             (59.01, '"Eviction manager: pods ranked for eviction" pods=["shop/hog"]'),
             (59.5, '"Eviction manager: pod is evicted successfully" pod="shop/hog"')]
    trace = imported(given=added(read(f"{FOLDER}/keyed.log"), *lines))[1]
    expect("import of a resource that is no word", ("\\u001b" in trace, "31mory" in trace), (False, False))
    [fact] = keyed.of_reclaim(messages.Message(1.0, 1, "", {"resourceName": "memory"}))
    expect("import of a resource", fact.resource, "memory")


def test_import_of_what_does_not_end():
    """A pipe that never ends is read up to --most, and a line reports that; a file that gzip cut is read up to the
    cut."""
    text = read(f"{FOLDER}/keyed.log")
    endless = subprocess.Popen(["yes", "I0301 10:02:00.000000    2211 a.go:1] \"SyncLoop (housekeeping)\""],
                               stdout=subprocess.PIPE)
    with tempfile.NamedTemporaryFile("w", suffix=".log") as begin:
        begin.write(text)
        begin.flush()
        both = subprocess.Popen(["cat", begin.name, "-"], stdin=endless.stdout, stdout=subprocess.PIPE)
        done = subprocess.run([IMPORT, "--year", str(YEAR), "--most", "2Mi"], stdin=both.stdout, capture_output=True,
                              timeout=120, check=False)
        for process in (both, endless):
            process.stdout.close()
            process.kill()
            process.wait()
    expect("import of a pipe that does not end", (done.returncode, b"has more than 2Mi, and no more of it was read "
                                                  b"(--most)" in done.stderr), (0, True))
    folder = tempfile.mkdtemp()
    rest = "".join(f"I0301 10:02:0{number}.000000    2211 a.go:1] {os.urandom(3000).hex()}\n" for number in range(9))
    with open(f"{folder}/cut.gz", "wb") as file:
        file.write(gzip.compress(f"{text}{rest}".encode())[:-4000])
    status, trace, said = imported("--journal", f"{folder}/cut.gz")
    missing = set(read(f"{FOLDER}/keyed.trace").splitlines()).difference(trace.splitlines())
    expect("import of a file that gzip cut", (status, missing, "can't be read to its end" in said), (0, set(), True))


def test_import_takes_sizes():
    for word in ("2", "2G", "0Mi", "99999Mi9"):
        answer = imported("--most", word, given="x")
        expect_refused(f"import --most {word}", answer, 2, "--most takes a number of bytes")


