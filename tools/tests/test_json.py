"""The tests of tools/json: a report and its lines, the schema, the tables, and what is rejected."""

import glob
import json
import os
import re
import shutil
import sqlite3
import stat
import tempfile

import cases
from checks import HERE, TOOLS, TOP, copy_package, expect, expect_kept, expect_refused, read, run

load_tests = cases.loaded(__name__)

try:
    import jsonschema
except ImportError:
    jsonschema = None

LINES = f"{HERE}/lines"
SCHEMA = f"{TOP}/docs/report.schema.json"
TABLES = {"nodes": "node", "pods": "pod", "containers": "container", "events": "event", "conditions": "condition",
          "evictions": "eviction", "decisions": "decision", "borders": "border", "resizes": "resize",
          "causes": "cause"}
# what a hand counts in lines/came_again.report
QUERIES = (
    ("SELECT node, pods, ticks, first_moment, last_moment, restarts, evictions FROM nodes",
     [("n1", 3, 6, 10, 60, 1, 1)]),
    ("SELECT memory_pressure_seconds, disk_pressure_seconds, pid_pressure_seconds FROM nodes", [(20, 0, 0)]),
    ("SELECT number, pod, restarts, unready_seconds, evicted_signal FROM pods ORDER BY number",
     [(0, "shop/db", 1, 10, None), (1, "shop/db", 0, 10, "memory.available"), (2, "shop/late", 0, 0, None)]),
    ("SELECT pod_number, starts, deaths FROM containers ORDER BY pod_number", [(0, 2, 1), (1, 1, 0), (2, 0, 0)]),
    ("SELECT at, pod_number, code FROM events WHERE event = 'died'", [(20, 0, 1)]),
    ("SELECT since FROM conditions WHERE pod IS NULL AND value", [(40,)]),
    ("SELECT pods.pod FROM evictions JOIN pods ON pods.number = evictions.pod_number", [("shop/db",)]),
)


def test_lines():
    for path in sorted(glob.glob(f"{LINES}/*.report")):
        name = os.path.basename(path).removesuffix(".report")
        status, lines, said = run([f"{TOOLS}/json"], read(path))
        expect(f"json {name}", (status, said), (0, ""))
        expect_kept(f"json {name}: the lines", lines, f"{LINES}/{name}.jsonl")


def reports():
    return sorted(glob.glob(f"{TOP}/examples/*.report") + glob.glob(f"{LINES}/*.report"))


def test_schema():
    if jsonschema is None:
        print("left out: the schema of tools/json, since python3-jsonschema is missing")
        return
    schema = json.loads(read(SCHEMA))
    jsonschema.Draft7Validator.check_schema(schema)
    validator = jsonschema.Draft7Validator(schema)
    for path in reports():
        lines = run([f"{TOOLS}/json"], read(path))[1].split("\n")[:-1]
        wrong = [line for line in lines if not validator.is_valid(json.loads(line))]
        expect(f"schema of {os.path.basename(path)}", (len(lines) > 4, wrong), (True, []))
    for wrong in ('{"record":"node"}', '{"record":"event","node":"n","number":0,"at":1,"event":"ready","pod":"a/b"}',
                  '{"record":"other"}', "[]"):
        expect(f"schema refuses {wrong}", validator.is_valid(json.loads(wrong)), False)


# how docs/report.md writes the fields of an event
WRITTEN = {"pod": "NAMESPACE/NAME", "delay_seconds": "DELAY", "grace_seconds": "GRACE", "probe": "startup",
           "active": "active", "value": "True"}


def test_events_of_the_documents():
    """Each kind of event of the table is in docs/report.md with the fields of its line."""
    page, missing = read(f"{TOP}/docs/report.md"), []
    for kind in json.loads(read(SCHEMA))["definitions"]["event"]["oneOf"]:
        line = re.sub(r"\{(\w+)\}", lambda found: WRITTEN.get(found[1], found[1].upper()), kind["line"])
        if f"`{line}`" not in page:
            missing.append(kind["properties"]["event"]["const"])
    # a program that names pods has it there
    expect("events without their line in docs/report.md", [word for word in missing if word != "names"], ["unready"])
    expect("the line of unready", "`NAMESPACE/NAME CONTAINER ready`, or `unready`" in page, True)


def test_without_the_table():
    """The tools without their table show what they lack."""
    folder = tempfile.mkdtemp()
    copy_package(folder)
    shutil.copy(f"{TOOLS}/json", f"{folder}/tools")
    os.remove(f"{folder}/tools/replay_tools/report.schema.json")
    answer = run([f"{folder}/tools/json"], read(f"{LINES}/came_again.report"))
    expect_refused("json without report.schema.json", answer, 1,
                   "/report.schema.json, which has the words of events, can't be read")
    shutil.rmtree(folder)


def test_schema_and_tables_agree():
    """A table has a column for each property that the schema gives its records."""
    folder = tempfile.mkdtemp()
    run([f"{TOOLS}/json", "--sqlite", f"{folder}/db"], read(f"{LINES}/came_again.report"))
    connection = sqlite3.connect(f"{folder}/db")
    definitions = json.loads(read(SCHEMA))["definitions"]
    for table, record in TABLES.items():
        columns = {row[1] for row in connection.execute(f"PRAGMA table_info({table})")}
        forms = definitions[record].get("oneOf", [definitions[record]])
        named = {name for form in forms for name in form["properties"]}
        expect(f"columns of {table}", columns, named - {"record"} | {"report"})
    connection.close()
    shutil.rmtree(folder)


def test_tables():
    folder = tempfile.mkdtemp()
    path = f"{folder}/node.db"
    expect("json --sqlite", run([f"{TOOLS}/json", "--sqlite", path], read(f"{TOP}/examples/liveness_kill.report")),
           (0, "", ""))
    answer = run([f"{TOOLS}/json", "--sqlite", path], read(f"{LINES}/came_again.report"))
    expect("json --sqlite over its database", answer, (0, "", ""))
    expect("json --sqlite leaves nothing behind", os.listdir(folder), ["node.db"])
    connection = sqlite3.connect(path)
    for query, wanted in QUERIES:
        expect(query, connection.execute(query).fetchall(), wanted)
    connection.close()
    shutil.rmtree(folder)


def test_records_of_pods_of_one_name():
    """Each has what happened while it was there: two of them left while they were not ready, 3 s before the next one's
    first tick, and a third is."""
    lines = run([f"{TOOLS}/json"], read(f"{HERE}/recordings/names_come_again_extended/report"))[1].split("\n")[:-1]
    records = [record for record in map(json.loads, lines) if record.get("pod") == "shop/db-0"]
    pods = [(record["number"], record["unready_seconds"], record["deaths"]) for record in records
            if record["record"] == "pod"]
    expect("pods of one name: not ready, and deaths", pods, [(0, 3, 1), (3, 3, 1), (4, 0, 0)])
    died = [(record["pod_number"], record["code"]) for record in records if record.get("event") == "died"]
    expect("pods of one name: which died with what", died, [(0, 0), (3, 137)])
    lines = run([f"{TOOLS}/json"], read(f"{HERE}/whys/gone_before_its_first_tick/report"))[1].split("\n")[:-1]
    firsts = [record["first_tick"] for record in map(json.loads, lines) if record["record"] == "pod"]
    expect("pods of one name: the one that was there at 0", firsts, [None, 0])


def test_unwritable_tables():
    folder = tempfile.mkdtemp()
    report = read(f"{LINES}/came_again.report")
    pipe = f"{folder}/pipe"
    os.mkfifo(pipe)
    for name, path in (("no folder", f"{folder}/none/node.db"), ("a folder", folder), ("/proc", "/proc/node.db"),
                       ("a pipe", pipe)):
        expect_refused(f"json --sqlite to {name}", run([f"{TOOLS}/json", "--sqlite", path], report), 2,
                       "can't be written")
    expect("json --sqlite takes no pipe away", stat.S_ISFIFO(os.stat(pipe).st_mode), True)
    os.remove(pipe)
    kept = f"{folder}/kept.db"
    run([f"{TOOLS}/json", "--sqlite", kept], report)
    tables = content(kept)
    expect_refused("json --sqlite of no report", run([f"{TOOLS}/json", "--sqlite", kept], "no report\n"), 2, "line 1 ")
    expect("a file stays where the report is refused", (os.listdir(folder), content(kept) == tables),
           (["kept.db"], True))
    shutil.rmtree(folder)


def content(path):
    with open(path, "rb") as file:
        return file.read()


def test_files_of_others():
    """A recording stays, and so does every file that is no database of json, a fleet's database too."""
    folder = tempfile.mkdtemp()
    report, trace = f"{TOP}/examples/liveness_kill.report", f"{TOP}/examples/liveness_kill.trace"
    shutil.copy(trace, f"{folder}/node.trace")
    shutil.copy(report, f"{folder}/node.report")
    open(f"{folder}/empty", "w").close()
    for name, number in (("fleet", b"fleT"), ("other", b"\0\0\0\0")):
        connection = sqlite3.connect(f"{folder}/{name}.db")
        connection.execute(f"PRAGMA application_id = {int.from_bytes(number, 'big')}")
        connection.execute("CREATE TABLE nodes (report INTEGER)")
        connection.close()
    for name in sorted(os.listdir(folder)):
        before = content(f"{folder}/{name}")
        answer = run([f"{TOOLS}/json", "--sqlite", f"{folder}/{name}"], read(report))
        expect_refused(f"json --sqlite over {name}", answer, 2, "no database that this tool has written")
        expect(f"{name} stays", content(f"{folder}/{name}") == before, True)
    expect("it leaves nothing behind", len(os.listdir(folder)), 5)
    shutil.rmtree(folder)


def test_refused_json():
    report = read(f"{LINES}/came_again.report")
    lines = report.split("\n")
    for name, text, words in (
        ("nothing", "", "whole report"),
        ("a cut report", report[:400], "whole report"),
        ("a code that is no number", report.replace("died 0 1", "died 0 one"), "line 5 "),
        ("a probe that there is not", report.replace("restart 0", "kill 0 readiness"), "line 7 "),
        ("a state that there is not", report.replace("state=Waiting", "state=Idle"), "line 35 "),
        ("a pod too few", "\n".join(lines[:29] + lines[35:]), "2 pods and counts 3"),
        ("a pod's number that is another", report.replace("pod 2 shop/late", "pod 4 shop/late"), "line 30 "),
    ):
        expect_refused(f"json of {name}", run([f"{TOOLS}/json"], text), 2, words)
    for words, said in ((["--table"], "--table is no known argument"), (["x"], "x is no known argument"), (["--sqlite"], "needs a value")):
        expect_refused(f"json {' '.join(words)}", run([f"{TOOLS}/json", *words], report), 2, said)
