"""The tests of answers that the recorder reads: long answers, answers that do not end or end too early, answers of a
large node, and answers of the runtime alone."""

import json
import os
import re
import shutil
import subprocess
import sys
import tempfile

import cases
from checks import HERE, TOOLS, expect, read, run
from test_connections import TOKEN, Kubelet, Place, has_openssl, kinds

import quiet_node
from replay_tools.record import alone, answers
from replay_tools.record.sources import Failed

load_tests = cases.loaded(__name__)

# texts that are JSON, and some that are none
TEXTS = ("", " ", "null", "12", "[1,2]", '"x"', "{}", ' { } ', '{"items":[]}', '{"items":null}',
         '{"items":[1, {"a":[]}]}', '{"a":1,"items":[{"b":"\\u00e9 \u00e9 \\"]"},-1.5e3 ],"c":{"items":[1]}}',
         '{"items":[1],"items":[2,3]}\n',
         '{"items":[1,]}', '{"items":[1}', '{"items":[1]', '{"items":[1]},', '{"items":[1]} 2', '{"a":1,}', "{1:2}",
         '{"a" 1}', '{"items":[tru]}', '{"items":["x]}', "[" * 100000, '{"items":[' + "[" * 100000, "\ufeff{}",
         '{"items":[' + ",".join(f'{{"number":{number}}}' for number in range(50)) + "]}")


def either(read, text):
    """What is read of a text, or that it is no JSON."""
    try:
        return read(text)
    except (ValueError, RecursionError):
        return "no JSON"
    except Failed as failed:
        return str(failed).removeprefix("it: the answer is ")


def test_long_answers():
    """A list is read value by value as it would be at once, however much of it is decoded at a time."""
    kept = answers.PIECE_BYTES
    for size in (1, 2, 7, 64, kept):
        answers.PIECE_BYTES = size
        for text in TEXTS:
            got = either(lambda given: answers.read_parts(given, "it", "items", lambda value: value), text.encode())
            expect(f"a long answer by {size} bytes: {text[:60]}", got, either(json.loads, text))
    answers.PIECE_BYTES = kept
    long = b'{"items":["' + b"x" * (answers.MOST_VALUE + 1) + b'"]}'
    expect("a long value", either(lambda given: answers.read_parts(given, "it", "items", len), long),
           "it: a value in the answer has more than 4 MiB")


def test_answers_without_their_end():
    """An answer is read up to 32 MiB, in steady memory, which a line reports; an answer that ends before its length is
    none."""
    if not has_openssl():
        return
    place = Place()
    kubelet = Kubelet(place.folder)
    kubelet.others = {"/metrics/probes": (200, b"# a comment\n" * (3 << 20)), "/stats/summary": (200, b"{}", 9)}
    with open(f"{place.folder}/crictl", "w", encoding="utf-8") as file:
        file.write("#!/bin/sh\nhead -c 300000000 /dev/zero | tee /dev/stderr\n")
    os.chmod(f"{place.folder}/crictl", 0o755)
    curl = place.curl_file(f'header = "Authorization: {TOKEN}"\ncacert = "{place.folder}/crt"\n')
    words = ["--check", "--node", "worker-3", "--kubelet", kubelet.url, "--curl", curl]
    status, told, said = run(["sh", "-c", 'ulimit -v 400000; exec "$@"', "sh", f"{TOOLS}/record", *words],
                             **{**place.settings, "PATH": f"{place.folder}:{place.settings['PATH']}"})
    kubelet.end()
    lines = [line for line in told.splitlines() if line.startswith("missing")]
    most = "answered with more than 32 MiB, the most that is read"
    expect("answers without end", (status, said, [line.partition("; ")[0] for line in lines]), (1, "", [
        f"missing  crictl ps {most}", f"missing  /metrics/probes {most}",
        "missing  /stats/summary gave no answer: the answer ended before its length"]))
    place.remove()


def test_a_large_node():
    """Of 250 pods and 7 MB of them no more is held than they take as bytes, and what is written."""
    if not has_openssl():
        return
    folder = tempfile.mkdtemp()
    stands = quiet_node.Stands(250, folder, 250)
    process = subprocess.Popen([f"{TOOLS}/record", "--node", "worker-1", "--kubelet", stands.url, "--curl",
                                f"{folder}/curl", "--every", "1", "--standard"], stdout=subprocess.PIPE,
                               env={**os.environ, "PATH": f"{folder}:{os.environ['PATH']}"})
    ticks = 0
    while ticks < 3 and (line := process.stdout.readline()):
        ticks += json.loads(line)["kind"] == "tick"
    peak = re.search("VmHWM:\\s+([0-9]+) kB", read(f"/proc/{process.pid}/status"))
    process.kill()
    process.communicate()
    stands.end()
    expect("a large node is recorded in little memory",
           (ticks, peak is not None and int(peak[1]) < 64 << 10), (3, True))
    shutil.rmtree(folder)


def listed_in(trace):
    """The listings of containers in a trace: what each tick has."""
    ticks = [json.loads(line) for line in trace.splitlines()]
    return [(tick["at"], pod["pod"], [(each["name"], each["attempt"], each["state"], each.get("exitCode"))
                                      for each in pod["containers"]])
            for tick in ticks if tick["kind"] == "tick" for pod in tick["pods"]]


def test_the_runtime_alone():
    """Where neither the kubelet nor the API server is asked, starts and exits are the same as in a whole recording."""
    place = Place()
    path = tempfile.mkdtemp()
    for name in ("sh", "env", "python3", "cat", "dirname", "readlink", "uname", "awk"):
        os.symlink(sys.executable if name == "python3" else shutil.which(name), f"{path}/{name}")
    for name in ("crictl", "recorded"):
        os.symlink(f"{HERE}/commands/{name}", f"{path}/{name}")
    words, settings = ["--node", "worker-3", "--kubelet", "none"], {**place.settings, "PATH": path}
    metrics = f"{path}/metrics.prom"
    status, trace, said = run([f"{TOOLS}/record", *words, "--for", "2", "--metrics", metrics], **settings)
    expect("the runtime alone", (status, kinds(trace)[:3], said), (0, ["node", "pod", "tick"], ""))
    expect("the runtime alone: what is not known", ("recordsKubelet" in trace, '"signals":{}' in trace), (False, True))
    counted = [name for name in ("restarts_total", "ready", "pressure", "available")
               if f"\nkubelet_recorder_{name}{{" in read(metrics)]
    expect("the runtime alone: no metric has what nobody sampled", counted, ["restarts_total", "ready"])
    status, told, said = run([f"{TOOLS}/record", "--check", *words], **settings)
    expect("the runtime alone: --check", (status, [line.split(":")[0] for line in told.splitlines()], said),
           (0, ["works    crictl ps", "works    crictl inspect"], ""))
    for name in ("fast_crash_loop", "came_and_went"):
        settings = {**place.settings, "RECORDING": f"{HERE}/recordings/{name}"}
        words = [word for word in read(f"{settings['RECORDING']}/words").split() if word != "--standard"]
        traces = [run([f"{HERE}/commands/played_record", *words, *more], **settings)[1]
                  for more in (["--extended"], ["--extended", "--kubelet", "none"])]
        whole, by_itself = map(listed_in, traces)
        expect(f"the runtime alone: {name}", (len(by_itself) > 3, [each for each in by_itself if each not in whole]),
               (True, []))
    shutil.rmtree(path)
    place.remove()


def listed(*containers):
    """What `crictl ps` lists."""
    return json.dumps({"containers": [{"createdAt": str(at), "labels": {
        f"io.kubernetes.{label}": value for label, value in (("pod.uid", f"uid-{pod}"), ("pod.namespace", "shop"),
                                                             ("pod.name", pod), ("container.name", name))}}
        for at, pod, name in containers] + [{"createdAt": "1", "labels": {}}, {}]})


def test_pods_of_the_runtime():
    """A pod is listed with the containers that have come by the time that no more come."""
    made, kept = alone.RuntimeAlone(), alone.SETTLED_SECONDS
    first = [(1, "old", "app"), (2, "old", "side"), (1, "old", "app")]
    late = [(5, "new", "one"), (7, "new", "two")]
    steps = []
    for containers, seconds in ((first, kept), ([*first, late[0]], kept), ([*first, *late], kept),
                                ([*first, *late], 0), ([*first, *late, (9, "new", "three")], 0), (late, kept)):
        alone.SETTLED_SECONDS = seconds
        steps.append({pod["metadata"]["name"]: [each["name"] for each in pod["spec"]["containers"]]
                      for pod in json.loads(made.pods(listed(*containers)))["items"]})
    alone.SETTLED_SECONDS = kept
    old, new = {"old": ["app", "side"]}, {"new": ["one", "two"]}
    expect("pods of the runtime", steps, [old, old, old, {**old, **new}, {**old, **new}, new])
