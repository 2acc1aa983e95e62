"""The tests of the same lines as stores of logs export them, as journalctl prints them in its other forms, with names
before them, with colours, and in other orders. The forms are written from knowledge of what exports them."""

import csv
import gzip
import io
import json
import random
import time

import cases
from checks import expect, expect_refused, read
from test_import import FOLDER, as_json, imported, journald, lines_of, short_iso, stamp

load_tests = cases.loaded(__name__)

TEXT, WANTED = read(f"{FOLDER}/keyed.log"), read(f"{FOLDER}/keyed.trace")
RED, PLAIN = "\x1b[31m", "\x1b[0m"


def each_of(made):
    """A record of JSON for each line."""
    return lambda text: "".join(json.dumps(made(line, f"{stamp(second)}.{fraction}", second, fraction)) + "\n"
                                for line, second, fraction, *_ in lines_of(text))


def all_of(made, around):
    """One document with a record for each line, broken into lines."""
    return lambda text: json.dumps(around([made(line, f"{stamp(second)}.{fraction}", second, fraction)
                                           for line, second, fraction, *_ in lines_of(text)]), indent=2)


def gke(line, moment, *_):
    return {"insertId": "a", "jsonPayload": {"MESSAGE": line, "SYSLOG_IDENTIFIER": "kubelet"}, "labels": {},
            "logName": "projects/p/logs/kubelet", "receiveTimestamp": "2026-03-01T11:00:00Z", "resource": {
                "labels": {"node_name": "worker-3"}, "type": "k8s_node"}, "timestamp": f"{moment}Z"}


def cloudwatch(line, _, second, fraction):
    return {"message": line, "timestamp": second * 1000 + int(fraction[:3]), "eventId": "7", "ingestionTime": 1}


def elasticsearch(line, moment, *_):
    return {"_id": "x", "_source": {"host": {"name": "worker-3"}, "message": line, "@timestamp": f"{moment}Z",
                                    "systemd": {"unit": "kubelet.service"}}}


def fluent_bit(line, _, second, fraction):
    return {"log": line, "date": float(f"{second}.{fraction}"), "systemd_unit": "kubelet.service"}


def docker(text):
    """Long lines are in parts."""
    made = ""
    for line, second, fraction, *_ in lines_of(text):
        parts = [line[place:place + 120] for place in range(0, len(line), 120)]
        parts[-1] += "\n"
        made += "".join(json.dumps({"log": part, "stream": "stderr", "time": f"{stamp(second)}.{fraction}123Z"}) + "\n"
                        for part in parts)
    return made


def loki(text):
    """One stream of values: a moment and a line."""
    values = [[f"{second}{fraction}000", line] for line, second, fraction, *_ in lines_of(text)]
    return json.dumps({"status": "success", "data": {"resultType": "streams", "result": [
        {"stream": {"unit": "kubelet.service"}, "values": values}]}})


def insights(text):
    """What a query of CloudWatch answers."""
    rows = [{"@timestamp": f"{stamp(second).replace('T', ' ')}.{fraction[:3]}", "@message": line, "@ptr": "x"}
            for line, second, fraction, *_ in lines_of(text)]
    return json.dumps({"results": [[{"field": name, "value": value} for name, value in row.items()] for row in rows]},
                      indent=1)


def table(text, names=("TimeGenerated [UTC]", "Computer", "Message"), form="%m/%d/%Y, %I:%M:%S.000 %p", delimiter=","):
    made = io.StringIO()
    writer = csv.writer(made, delimiter=delimiter)
    writer.writerow(names)
    for line, second, *_ in lines_of(text):
        writer.writerow([time.strftime(form, time.gmtime(second)), "worker-3", line])
    return "\ufeff" + made.getvalue()


def kibana(text):
    return table(text, ("@timestamp", "host", "message"), "%b %d, %Y @ %H:%M:%S.000", "\t")


STORES = {
    "GKE": each_of(gke), "GKE, one list": all_of(gke, lambda records: records),
    "CloudWatch": all_of(cloudwatch, lambda records: {"events": records, "searchedLogStreams": []}),
    "a query of CloudWatch": insights, "Azure's CSV": table, "Kibana's CSV": kibana,
    "Azure": all_of(lambda line, moment, *_: {"TimeGenerated": f"{moment}Z", "Computer": "worker-3", "LogEntry": line},
                    lambda records: records),
    "Elasticsearch": all_of(elasticsearch, lambda records: {"hits": {"total": 3, "hits": records}}),
    "Elasticsearch, a line each": each_of(elasticsearch), "fluent-bit": each_of(fluent_bit), "docker": docker,
    "fluent-bit, one list": lambda text: json.dumps([json.loads(each) for each in
                                                     each_of(fluent_bit)(text).splitlines()]),
    "Loki": loki, "logcli -o jsonl": each_of(lambda line, moment, *_: {
        "labels": {"unit": "kubelet"}, "line": line, "timestamp": f"{moment}Z"}),
    "a message of JSON": each_of(lambda line, moment, *_: {
        "message": json.dumps({"MESSAGE": line, "_SYSTEMD_UNIT": "kubelet.service"}), "timestamp": f"{moment}Z"})}


def test_import_of_stores():
    """Any text of a record that begins as klog's line is one, in whatever order the members and the records are."""
    chance = random.Random(1)
    for name, form in STORES.items():
        given = form(TEXT)
        status, trace, said = imported("--node", "worker-3", given=given)
        expect(f"import of {name}", (status, trace if status == 0 else said), (0, WANTED))
    for name in ("GKE", "fluent-bit", "Elasticsearch, a line each"):
        lines = STORES[name](TEXT).splitlines(keepends=True)
        chance.shuffle(lines)
        members = "".join(json.dumps(dict(reversed(json.loads(each).items()))) + "\n" for each in lines)
        expect(f"import of {name} in no order", imported("--node", "worker-3", given=members)[:2], (0, WANTED))
    # of a whole cluster: other programs' lines have their own units, and a node's name decides
    records = [json.loads(each) for each in STORES["GKE"](TEXT).splitlines()]
    proxy = [{**each, "logName": "projects/p/logs/kube-proxy", "jsonPayload": {
        "MESSAGE": each["jsonPayload"]["MESSAGE"].replace("   2211 ", "     77 ")}} for each in records]
    other = [{**each, "resource": {"labels": {"node_name": "worker-4"}}} for each in records]
    given = "".join(json.dumps(each) + "\n" for each in [*other, *proxy, *records])
    expect("import of a cluster's records", imported("--node", "worker-3", given=given)[:2], (0, WANTED))
    expect_refused("import of a cluster's records of no node", imported(given=given), 1, "several nodes")


# --- the other forms of journalctl, names and colours ---


def verbose(text):
    made = ""
    for line, second, fraction, process, *_ in lines_of(text):
        micro = int(f"{second}{fraction}")
        made += f"Sun {stamp(second).replace('T', ' ')}.{fraction} UTC [s=a;i=1;b=c;m=1;t={micro:x};x=d]\n"
        made += f"    _HOSTNAME=worker-3\n    _SYSTEMD_UNIT=kubelet.service\n    _PID={process}\n    MESSAGE={line}\n"
    return made


def headed(head):
    """A text before each line."""
    return lambda text: "-- Journal begins --\n" + "".join(
        f"{head(second, fraction, process)} {line}\n" for line, second, fraction, process, *_ in lines_of(text))


def syslog(second, fraction, process):
    return f"{time.strftime('%b %d %H:%M:%S', time.gmtime(second))}.{fraction} worker-3 kubelet[{process}]:"


PRINTED = {
    "json-pretty": lambda text: "".join(json.dumps(json.loads(each), indent="\t") + "\n"
                                        for each in journald(text).splitlines()),
    "json-seq": lambda text: "".join(f"\x1e{each}\n" for each in journald(text).splitlines()),
    "json-sse": lambda text: "".join(f"data: {each}\n\n" for each in journald(text).splitlines()),
    "verbose": verbose,
    "short-full": headed(lambda second, _, process: f"Sun {stamp(second).replace('T', ' ')} UTC worker-3 "
                                                    f"kubelet[{process}]:"),
    "with-unit": headed(lambda second, fraction, process: f"Sun {stamp(second).replace('T', ' ')}.{fraction} UTC "
                                                          f"worker-3 kubelet.service[{process}]:"),
    "short-unix": headed(lambda second, fraction, process: f"{second}.{fraction} worker-3 kubelet[{process}]:"),
    "short-monotonic": headed(lambda second, fraction, process: f"[{second % 100000:5}.{fraction}] worker-3 "
                                                                f"kubelet[{process}]:"),
    "oc adm node-logs": headed(lambda *each: f"worker-3 {syslog(*each)}"),
    "kubectl logs --prefix": headed(lambda *_: "[pod/kubelet-x/kubelet]"),
    "kubectl logs --prefix --timestamps": headed(lambda second, fraction, _: f"[pod/kubelet-x/kubelet] {stamp(second)}."
                                                                             f"{fraction}Z"),
    "logcli": headed(lambda second, fraction, _: f'{stamp(second)}.{fraction}Z {{app="x", unit="kubelet.service"}}'),
    "colours": lambda text: "".join(f"{RED}{each}{PLAIN}\n" for each in text.splitlines()),
    "colours in short-iso": lambda text: "".join(f"{each.replace('kubelet', f'{RED}kubelet{PLAIN}', 1)}\n"
                                                 for each in short_iso(text).splitlines()),
    "ends of lines of Windows": lambda text: text.replace("\n", "\r\n")}


def test_import_of_what_journalctl_prints():
    for name, form in PRINTED.items():
        status, trace, said = imported("--node", "worker-3", given=form(TEXT))
        expect(f"import of {name}", (status, trace if status == 0 else said), (0, WANTED))
    given = PRINTED["oc adm node-logs"](TEXT)
    both = "".join(f"{each}\n{each.replace('worker-3', 'worker-4')}\n" for each in given.splitlines()[1:])
    expect("import of two nodes by their names", imported("--node", "worker-3", given=both)[:2], (0, WANTED))
    expect_refused("import of two nodes", imported(given=both), 1, "worker-3 and worker-4: give --node NAME")


# --- in another order ---


def newest_first(text):
    return "".join(reversed(text.splitlines(keepends=True)))


def test_import_of_the_newest_first():
    """As of journalctl -r: the lines are sorted, in each form; a line that goes on stays with its own."""
    forms = {"klog's lines": lambda text: text, "-o json": journald, "-o short-iso": lambda text: "\n".join(
        short_iso(text).splitlines()[1:]) + "\n", "--logging-format json": as_json,
        "logcli": lambda text: "".join(PRINTED["logcli"](text).splitlines(keepends=True)[1:]),
        "docker": lambda text: "".join(docker(each) for each in text.splitlines(keepends=True))}
    for name, form in forms.items():
        given = newest_first(form(TEXT)) if name != "docker" else docker(newest_first(TEXT))
        status, trace, said = imported("--node", "worker-3", given=given)
        expect(f"import of the newest first, {name}", (status, trace if status == 0 else said), (0, WANTED))
    packed = gzip.compress(newest_first(TEXT).encode()).decode("latin-1")
    expect("import of the newest first has its length", len(packed) > 0, True)
    goes_on = TEXT.replace('output="HTTP probe failed with statuscode: 503"',
                           "output=<\n\tHTTP probe failed with statuscode: 503\n\tand more\n >")
    entries = goes_on.replace("\n\t", "\0\t").replace("\n >", "\0 >").splitlines(keepends=True)
    given = "".join(reversed(entries)).replace("\0", "\n")
    expect("import of the newest first with lines that go on", imported("--node", "worker-3", given=given)[:2],
           (0, WANTED))
