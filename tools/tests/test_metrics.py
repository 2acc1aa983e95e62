"""The tests of record --metrics: what the file has of a scripted node, and that its readers take it."""

import json
import os
import re
import shutil
import subprocess
import tempfile

import cases
from checks import TOP, expect, read
from into_plays import Into

from replay_tools.record.metrics import Metrics, fault_of

load_tests = cases.loaded(__name__)

BEGIN = 1767225600
PARSE = """
import sys
from prometheus_client.openmetrics.parser import text_string_to_metric_families
print(sum(len(family.samples) for family in text_string_to_metric_families(sys.stdin.read())))
"""
RULES = f"{TOP}/docs/recorder.rules.yml"
DASHBOARD = f"{TOP}/docs/recorder.dashboard.json"


def play():
    """A pod that crashes, one whose probe kills it, one that is evicted, one that ends well, and one that goes."""
    probe = {"periodSeconds": 1, "failureThreshold": 2}
    probes = {"livenessProbe": probe, "readinessProbe": probe}
    specs = {"crash": {}, "probed": probes, "hog": {}, "done": {}, "goes": {}}
    pods = {f"shop/{name}": {"spec": {"containers": [{"name": "app", **more}]}} for name, more in specs.items()}
    pods["shop/done"]["spec"]["restartPolicy"] = "Never"
    pods["shop/hog"]["evicted"] = 12.4
    pods["shop/goes"]["until"] = 9
    lives = {"crash": [(-2, 4.2, 1), (5.2, 9.4, 137), (9.6, 20.2, 3)], "probed": [(-2, 8.4, 143), (8.6, None, None)],
             "hog": [(-2, 13, 137)], "done": [(-2, 6.2, 0)], "goes": [(-2, 8.4, 0)]}
    made = [{"id": f"{name}{attempt}", "pod": f"shop/{name}", "name": "app", "attempt": attempt, "reason": "Error",
             "created": started - 0.1, "started": started, **({"exited": exited, "code": code} if exited else {})}
            for name, life in lives.items() for attempt, (started, exited, code) in enumerate(life)]
    found = [{"pod": "shop/probed", "container": "app", "probe": kind, "result": result, "at": at}
             for kind, result, at in (("liveness", "failure", [6.5, 7.5]), ("readiness", "success", [1.5, 2.5, 12.5]))]
    low = {"memory": 2 ** 26, "pods": {}}
    return {"begin": BEGIN, "pods": pods, "containers": made, "probes": found,
            "samples": {"0": {"memory": 2 ** 32, "pods": {}}, "12": low, "14": low},
            "configz": {"evictionHard": {"memory.available": "100Mi"}}}


def series_of(text, *names):
    """What a text has of some families: {labels: value}."""
    found = {}
    for line in text.splitlines():
        parts = re.fullmatch(r"kubelet_recorder_([a-z_]+?)(?:_total)?(?:\{(.*)\})? (\S+)", line)
        if parts and parts[1] in names:
            labels = re.findall(r'([a-z]+)="([^"]*)"', parts[2] or "")
            kept = [value for label, value in labels if label not in ("namespace", "container")]
            found[(parts[1], *kept)] = int(parts[3])
    return found


def recorded():
    place = Into(play())
    path = f"{place.run}/it.prom"
    status, trace, said = place.record("--extended", "--metrics", path, "--for", "40")
    text = read(path)
    left = [name for name in os.listdir(place.run) if name.startswith("it.prom") and name != "it.prom"]
    place.clean()
    return text, (status, left), trace, said


def test_metrics():
    """Counted manually: two restarts of the one that crashes, and its last exit; a kill; an eviction; no series of what
    has gone."""
    text, answer, _, _ = recorded()
    expect("metrics: the recording", answer, (0, []))
    expect("metrics: restarts and kills", series_of(text, "restarts", "kills"), {
        ("restarts", "crash"): 2, ("restarts", "probed"): 1, ("restarts", "done"): 0,
        ("kills", "probed", "liveness"): 1})
    expect("metrics: deaths", series_of(text, "deaths"), {
        ("deaths", "crash", "Error", "1"): 1, ("deaths", "crash", "Error", "137"): 1,
        ("deaths", "crash", "Error", "3"): 1, ("deaths", "probed", "Error", "143"): 1,
        ("deaths", "done", "Error", "0"): 1})
    expect("metrics: what is so now", series_of(text, "ready", "pressure", "available", "evictions", "ended"), {
        ("ready", "crash"): 0, ("ready", "done"): 0, ("ready", "probed"): 1,
        ("pressure", "MemoryPressure"): 1,
        ("available", "memory.available"): 2 ** 26, ("evictions",): 1, ("ended", "Evicted"): 1})
    unready = series_of(text, "unready_seconds")
    expect("metrics: seconds that were not ready", (unready["unready_seconds", "probed"],
                                                    ("unready_seconds", "done") in unready), (6, False))


def test_readers():
    """The parser of OpenMetrics takes it, and Debian's promtool finds nothing wrong with it and with the rules of
    docs/, which ask for what is there."""
    text = recorded()[0]
    done = subprocess.run(["/usr/bin/python3", "-c", PARSE], input=text, capture_output=True, text=True, check=False)
    if "No module" not in done.stderr:
        samples = sum(not line.startswith("#") for line in text.splitlines())
        expect("metrics: the parser of OpenMetrics", (done.stdout, done.stderr), (f"{samples}\n", ""))
    there = {name + ("_total" if kind == "counter" else "")
             for name, kind in re.findall(r"# TYPE kubelet_recorder_([a-z_]+) ([a-z]+)", text)}
    expect("metrics: what only rises is a counter", sorted(name for name in there if name.endswith("_total")), [
        "deaths_total", "ended_total", "evictions_total", "kills_total", "restarts_total", "unready_seconds_total"])
    expect("metrics: samples of counters", re.findall(r"(?m)^kubelet_recorder_(?:restarts|deaths|kills|evictions|ended)[ {]",
                                                     text), [])
    for name in (RULES, DASHBOARD):
        asked = set(re.findall(r"kubelet_recorder_([a-z_]+)", read(name)))
        expect(f"metrics: what {os.path.basename(name)} asks for", (asked - there, asked != set()), (set(), True))
    expect("metrics: the panels", len(json.loads(read(DASHBOARD))["panels"]), 10)
    if shutil.which("promtool") is None:
        print("left out: metrics and rules by promtool, since that is missing")
        return
    # promtool reads the older form, in which the type and the help of a counter have the name of its samples
    older = re.sub(r"(?m)^# TYPE (\S+) counter\n((?:# UNIT .*\n)?)# HELP \1 ",
                   r"# TYPE \1_total counter\n\2# HELP \1_total ", text)
    for name, words, given in (("metrics", ["check", "metrics"], older), ("rules", ["check", "rules", RULES], "")):
        done = subprocess.run(["promtool", *words], input=given, capture_output=True, text=True, check=False)
        expect(f"metrics: promtool, {name}", (done.returncode, done.stderr), (0, ""))


ALERTS = """\
rule_files: ["{rules}"]
evaluation_interval: 30s
tests:
- interval: 30s
  input_series:
  - {series: 'kubelet_recorder_deaths_total{pod="oom",container="app",namespace="shop",reason="OOMKilled",instance="n1"}',
     values: '_x60 1x80'}
  - {series: 'kubelet_recorder_deaths_total{pod="old",container="app",namespace="shop",reason="OOMKilled",instance="n1"}',
     values: '3x200'}
  - {series: 'kubelet_recorder_evictions_total{instance="n1"}', values: '0x60 1x80'}
  - {series: 'kubelet_recorder_restarts_total{pod="oom",container="app",namespace="shop",instance="n1"}',
     values: '0x60 1 2 3 4 5 6x80'}
  - {series: 'kubelet_recorder_kills_total{pod="hung",container="app",namespace="shop",probe="liveness",instance="n1"}',
     values: '_x60 1 1 2x80'}
  - {series: 'kubelet_recorder_last_tick_seconds{instance="n1"}', values: '0+30x200'}
  - {series: 'kubelet_recorder_last_tick_seconds{instance="n2"}', values: '0+30x50 1500x200'}
  - {series: 'kubelet_recorder_last_tick_seconds{instance="n3"}', values: '0+30x60 _x140'}
  - {series: 'kubelet_recorder_restarts_total{pod="loop",container="app",namespace="shop",instance="n1"}',
     values: '0x11 1x11 2x11 3x11 4x11 5x11 6x11 7x11 8x60'}
  alert_rule_test:
"""
# when each alert is there: minutes since the recorders began, and of which pods, or of which node
FIRED = (
    ("ContainerOutOfMemory", 29, []), ("ContainerOutOfMemory", 32, ["oom"]), ("ContainerOutOfMemory", 50, []),
    ("NodeEvicts", 29, []), ("NodeEvicts", 32, ["n1"]), ("NodeEvicts", 50, []),
    ("ContainerRestarts", 12, []), ("ContainerRestarts", 30, ["loop"]), ("ContainerRestarts", 34, ["oom", "loop"]),
    ("ContainerRestarts", 47, ["loop"]), ("ContainerRestarts", 60, []),
    ("ContainerKilledByProbe", 30, []), ("ContainerKilledByProbe", 32, ["hung"]), ("RecorderSilent", 32, []),
    ("RecorderSilent", 40, ["n2"]), ("RecorderGone", 35, []), ("RecorderGone", 50, ["n3"]), ("RecorderGone", 99, []),
    ("NoRecorder", 50, []))
SAYS = {"ContainerOutOfMemory": "shop/{0} app ran out of memory", "NodeEvicts": "the kubelet of {0} evicts pods",
        "ContainerRestarts": "shop/{0} app is restarted again and again",
        "ContainerKilledByProbe": "the liveness probe of shop/{0} kills it",
        "RecorderSilent": "the recorder of {0} has written nothing for five minutes",
        "RecorderGone": "the metrics of the recorder of {0} are gone"}
LABELS = {"ContainerOutOfMemory": {"severity": "warning", "reason": "OOMKilled"}, "NodeEvicts": {"severity": "critical"},
          "ContainerRestarts": {"severity": "warning"}, "RecorderSilent": {"severity": "warning"},
          "RecorderGone": {"severity": "warning"},
          "ContainerKilledByProbe": {"severity": "warning", "probe": "liveness"}}


def expressions():
    """What the panels of the dashboard ask for."""
    return [target["expr"] for panel in json.loads(read(DASHBOARD))["panels"] for target in panel["targets"]]


def test_alerts():
    """An alert, and the panel of deaths, shows the first death and the first eviction too, which a series begins with,
    and no old one."""
    if shutil.which("promtool") is None:
        print("left out: alerts by promtool, since that is missing")
        return
    text = ALERTS.replace("{rules}", RULES)
    for alert, minutes, names in FIRED:
        alerts = [{"exp_annotations": {"summary": SAYS[alert].format(name)}, "exp_labels": {
            **LABELS[alert], **({"instance": name} if name in ("n1", "n2", "n3") else {
                "instance": "n1", "namespace": "shop", "container": "app", "pod": name})}} for name in names]
        text += f"  - {json.dumps({'eval_time': f'{minutes}m', 'alertname': alert, 'exp_alerts': alerts})}\n"
    text += "  promql_expr_test:\n"
    [panel] = [expression for expression in expressions() if "recorder_deaths" in expression]
    for minutes, samples in ((29, []), (32, [{"labels": '{reason="OOMKilled"}', "value": 1}]), (45, [])):
        text += f"  - {json.dumps({'expr': panel, 'eval_time': f'{minutes}m', 'exp_samples': samples})}\n"
    with tempfile.TemporaryDirectory() as folder:
        with open(f"{folder}/alerts.yml", "w", encoding="utf-8") as file:
            file.write(text)
        done = subprocess.run(["promtool", "test", "rules", f"{folder}/alerts.yml"], capture_output=True, text=True,
                              check=False)
    expect("metrics: alerts", (done.returncode, done.stdout + done.stderr if done.returncode else ""), (0, ""))


def test_files_that_cannot_be():
    """A file that can't be written is reported once, and the recording goes on; another one is not replaced."""
    place = Into(play())
    said = []
    metrics = Metrics(f"{place.run}/nowhere/it", lambda text, _: said.append(text))
    metrics.write()
    expect("metrics: a file that can't be written", said, [
        f"--metrics: '{place.run}/nowhere/it' can't be written: No such file or directory"])
    paths = {name: f"{place.run}/{name}" for name in ("new", "empty", "ours", "other", "link")}
    for name, text in (("empty", ""), ("ours", metrics.text()), ("other", "# TYPE x gauge\n")):
        with open(paths[name], "w", encoding="utf-8") as file:
            file.write(text)
    os.symlink(paths["ours"], paths["link"])
    expect("metrics: files that are not replaced", [name for name, path in paths.items() if fault_of(path)],
           ["other", "link"])
    place.clean()
