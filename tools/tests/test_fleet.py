"""The tests of tools/fleet: its tables, what is kept, runs that end in the middle, what is rejected; and Dask
distributed and pyarrow where they are there."""

import glob
import json
import os
import pty
import re
import shutil
import signal
import sqlite3
import subprocess
import sys
import tempfile
import time

import cases
from checks import (HERE, LONGEST, REPLAY, TOOLS, TOP, copy_package, expect, expect_kept, expect_refused, read, run,
                    wait_until)

import fleet_runs
import node_traces
from replay_tools import entry
from replay_tools.fleet import database as databases, kept as keeping

load_tests = cases.loaded(__name__)

KEPT = f"{HERE}/fleet"
FLEET = f"{TOOLS}/fleet"
TABLES = ("traces", "nodes", "pods", "containers", "conditions", "evictions", "decisions", "causes")
COUNTED = {"KUBELET_REPLAY": f"{KEPT}/replay", "PROGRAM": REPLAY}


def make_traces():
    """A folder with the examples and the traces that are kept here."""
    folder = tempfile.mkdtemp()
    shutil.copytree(f"{KEPT}/traces", f"{folder}/traces")
    for path in glob.glob(f"{TOP}/examples/*.trace"):
        shutil.copy(path, f"{folder}/traces")
    return folder


def content(path):
    with open(path, "rb") as file:
        return file.read()


def plain(text, folder):
    """A text without what is another one each time: the folder, and the keys of kept answers."""
    return re.sub(r"-[0-9a-f]{16}\.report\.gz", "-KEY.report.gz", text.replace(folder, "FOLDER"))


def dump(path):
    connection = sqlite3.connect(path)
    try:
        return "".join(f"{line}\n" for line in connection.iterdump())
    finally:
        connection.close()


def rows_kept(database):
    return len(glob.glob(f"{database}.done/*.rows.gz"))


def runs_counted(folder):
    """How often the program was run since it was asked last."""
    count = read(f"{folder}/runs").count("run\n")
    os.remove(f"{folder}/runs")
    return count


def test_fleet_of_the_extended_format():
    """A trace of version 3 is replayed as one; pods of one name are rows of their own, and one line among the worst."""
    folder = tempfile.mkdtemp()
    shutil.copy(f"{HERE}/whys/came_again/trace", f"{folder}/one.trace")
    status, told, said = run([FLEET, "run", folder, "--out", f"{folder}/fleet.db", "--processes", "1"])
    expect("fleet of the extended format", (status, said, told.split("\n")[0]),
           (0, "", "1 trace: 1 replayed, 0 refused, 0 failed; 2 pods on 1 node"))
    worst = [line.split()[:8] for line in told.split("\n") if "shop/" in line]
    expect("fleet: pods of one name are one line", worst,
           [["n1", "shop/db", "1", "20", "-", "1", "memory.available", "1"]])
    connection = sqlite3.connect(f"{folder}/fleet.db")
    rows = connection.execute("SELECT number, pod, restarts, unready_seconds FROM pods ORDER BY number").fetchall()
    connection.close()
    expect("fleet: pods of one name are rows of their own", rows,
           [(0, "shop/db", 1, 10), (1, "shop/db", 0, 10), (2, "shop/late", 0, 0)])
    shutil.rmtree(folder)


def test_fleet_tables():
    folder = make_traces()
    database = f"{folder}/fleet.db"
    status, told, said = run([FLEET, "run", f"{folder}/traces", "--out", database, "--processes", "3"])
    expect("fleet run", (status, said), (0, ""))
    expect_kept("fleet run: what it prints", plain(told, folder), f"{KEPT}/printed")
    expect_kept("fleet run: the database", plain(dump(database), folder), f"{KEPT}/dump.sql")
    for by in ("restarts", "unready", "evicted"):
        status, told, said = run([FLEET, "worst", database, "--by", by, "--top", "3"])
        expect_kept(f"fleet worst by {by}", plain(told, folder) + said + f"status {status}\n", f"{KEPT}/worst_{by}")
    check_reports(database, folder)
    one = f"{folder}/one.db"
    words = [f"{folder}/traces/**/*.trace", f"{folder}/traces/cut.trace", "--out", one, "--processes", "1"]
    expect("fleet run by a pattern", run([FLEET, "run", *words])[0], 0)
    expect("the database of one process", content(one) == content(database), True)
    shutil.rmtree(folder)


def check_reports(database, folder):
    """The reports next to a database are the program's."""
    connection = sqlite3.connect(database)
    rows = connection.execute("SELECT path, report_file FROM traces WHERE status = 'replayed'").fetchall()
    connection.close()
    different = [path for path, name in rows
                 if run(["zcat", f"{database}.done/{name}"])[1] != run([REPLAY, "run", path])[1]]
    expect("fleet run: the reports", (len(rows) > 12, different), (True, []))


def test_fleet_copies():
    """A trace with the bytes of another one is a row that shows that, and counts nothing."""
    folder = tempfile.mkdtemp()
    traces, database = f"{folder}/traces", f"{folder}/fleet.db"
    shutil.copytree(f"{KEPT}/traces/n5", f"{traces}/n5")
    shutil.copy(f"{KEPT}/traces/no_container.trace", traces)
    words = [FLEET, "run", traces, "--out", database, "--by", "unready"]
    alone = run(words)[1]
    shutil.copy(f"{traces}/n5/hour_1.trace", f"{traces}/a_copy.trace")
    shutil.copytree(f"{traces}/n5", f"{traces}/n6")
    os.symlink("no_container.trace", f"{traces}/no_container_2.trace")
    status, told, said = run(words)
    counts = alone.split("\n")[0].replace("3 traces", "7 traces").replace("0 failed", "0 failed, 4 copies of others")
    expect("fleet of copies", (status, said, told.split("\n")[0]), (0, "", counts))
    expect("fleet of copies: what they count", plain(told, traces).split("\n")[1:],
           plain(alone, traces).replace("FOLDER/n5/hour_1", "FOLDER/a_copy").split("\n")[1:])
    connection = sqlite3.connect(database)
    rows = connection.execute("SELECT path, status, copy_of, line, report_file IS NULL FROM traces").fetchall()
    counted = {report for table in TABLES[1:]
               for [report] in connection.execute(f"SELECT report FROM {table}")}
    connection.close()
    expect("fleet of copies: their rows", [(os.path.relpath(path, traces), *row) for path, *row in rows], [
        ("a_copy.trace", "replayed", None, None, 0), ("n5/hour_1.trace", "copy", 1, None, 1),
        ("n5/hour_2.trace", "replayed", None, None, 0), ("n6/hour_1.trace", "copy", 1, None, 1),
        ("n6/hour_2.trace", "copy", 3, None, 1), ("no_container.trace", "refused", None, 2, 1),
        ("no_container_2.trace", "copy", 6, None, 1)])
    expect("fleet of copies: only the first have rows elsewhere", counted, {1, 3})
    shutil.rmtree(folder)


def test_fleet_names_with_escapes():
    """What a file's name has for a terminal to obey is shown, and not obeyed."""
    folder = tempfile.mkdtemp()
    shutil.copy(f"{KEPT}/traces/no_container.trace", f"{folder}/a\x1b[31m\a\u202eb.trace")
    shown = f"{folder}/a\\x1b[31m\\x07\\u202eb.trace"
    answer = run([FLEET, "run", folder, "--out", f"{folder}/fleet.db"])
    expect("fleet: a name with escapes", (answer[::2], shown in answer[1].split()), ((0, ""), True))
    words = [FLEET, "run", folder, "--out", f"{folder}/50%41?#.db"]
    expect("fleet: a database with a name of signs", (run(words)[0], run(words)[0]), (0, 0))
    answer = run([FLEET, "worst", f"{folder}/a\x1b[31m\n.db"])
    expect_refused("fleet: a word with escapes", answer, 2, f"{folder}/a\\x1b[31m\\n.db can't be read")
    shutil.rmtree(folder)


def hour_of_a_pod(first, results):
    """A trace of a pod whose readiness has these results, 10 s apart."""
    app = {"name": "app", "readinessProbe": {"failureThreshold": 1}}
    pod = {"metadata": {"name": "web", "namespace": "shop"}, "spec": {"containers": [app]}}
    shown = {"pod": "shop/web", "containers": [{"name": "app", "attempt": 0, "state": "CONTAINER_RUNNING"}]}
    ticks = [{"kind": "tick", "at": first + 10 * place,
              "pods": [{**shown, "probes": [{"container": "app", "probe": "readiness", "result": result}]}]}
             for place, result in enumerate(results)]
    lines = [{"kind": "node", "name": "n1"}, {"kind": "pod", "pod": pod}, *ticks]
    return "".join(json.dumps(line) + "\n" for line in lines)


def test_fleet_of_a_pod_that_turns_bad():
    """A pod that was well in its first hour is not left out."""
    folder = tempfile.mkdtemp()
    for name, text in (("hour_1", hour_of_a_pod(0, ["success", "success"])),
                       ("hour_2", hour_of_a_pod(3600, ["success", "failure", "failure", "success"]))):
        with open(f"{folder}/{name}.trace", "w") as file:
            file.write(text)
    told = run([FLEET, "run", folder, "--out", f"{folder}/fleet.db", "--by", "unready"])[1]
    expect("fleet of a pod that turns bad", [line.split()[:4] for line in told.split("\n") if "shop/web" in line],
           [["n1", "shop/web", "0", "20"]])
    shutil.rmtree(folder)


def test_fleet_begins_again():
    folder = make_traces()
    settings = {**COUNTED, "RUNS": f"{folder}/runs"}
    words = [FLEET, "run", f"{folder}/traces", "--out", f"{folder}/fleet.db"]
    count = len(glob.glob(f"{folder}/traces/**/*.trace", recursive=True))
    run(words, **settings)
    first, program_runs = content(f"{folder}/fleet.db"), runs_counted(folder)
    expect("fleet: each trace is replayed once, after one try", program_runs, count + 1)
    run(words, **settings)
    again = content(f"{folder}/fleet.db")
    expect("fleet again: nothing is replayed", (runs_counted(folder), again == first), (1, True))
    shutil.copy(f"{folder}/traces/crash_loop.trace", f"{folder}/traces/cut.trace")
    run(words, **settings)
    changed = content(f"{folder}/fleet.db")
    expect("fleet again: a trace that changed is replayed", (runs_counted(folder), changed != first), (2, True))
    run([*words, "--anew"], **settings)
    expect("fleet --anew", (runs_counted(folder), content(f"{folder}/fleet.db") == changed), (count + 1, True))
    shutil.rmtree(folder)


def hold(folder):
    """From now on a run stops in its eighth replay and the ones after it, until the file `hold` is gone."""
    with open(f"{folder}/runs", "w", encoding="ascii"), open(f"{folder}/hold", "w", encoding="ascii"):
        pass


def test_fleet_is_stopped():
    """A run that is ended leaves no database and no process, and a further one does what is left."""
    folder = make_traces()
    settings = {**COUNTED, "RUNS": f"{folder}/runs", "HOLD": f"{folder}/hold"}
    database = f"{folder}/fleet.db"
    words = [FLEET, "run", f"{folder}/traces", "--out", database, "--processes", "2"]
    for number, status in ((signal.SIGKILL, -9), (signal.SIGINT, 130)):
        before = rows_kept(database)
        hold(folder)
        # what a shell begins in the background ignores an interrupt
        process = subprocess.Popen(words, env={**os.environ, **settings}, stderr=subprocess.PIPE,
                                   preexec_fn=lambda: signal.signal(signal.SIGINT, signal.SIG_DFL))
        wait_until("rows", lambda: rows_kept(database) > before + 2, process)
        busy = run(words, **{**settings, "HOLD": ""})
        process.send_signal(number)
        os.remove(settings["HOLD"])
        # each of its processes holds this end of its standard error, so no process is left after it
        said = process.communicate(timeout=LONGEST)[1].decode()
        expect(f"fleet ended by {number.name}", (process.returncode, said, os.path.exists(database)),
               (status, "", False))
        expect_refused("fleet: two runs at a time", busy, 2, "another run writes")
    left = len(glob.glob(f"{folder}/traces/**/*.trace", recursive=True)) - rows_kept(database)
    os.remove(f"{folder}/runs")
    status, told, said = run(words, **settings)
    expect("fleet begun again does what is left", (status, runs_counted(folder)), (0, left + 1))
    expect("fleet begun again: what it prints", plain(told, folder), read(f"{KEPT}/printed"))
    shutil.rmtree(folder)


def test_fleet_whose_place_is_taken():
    """What came under the name of the database while a run went on is not replaced at its end."""
    folder = make_traces()
    database = f"{folder}/fleet.db"
    hold(folder)
    settings = {**COUNTED, "RUNS": f"{folder}/runs", "HOLD": f"{folder}/hold"}
    started = subprocess.Popen([FLEET, "run", f"{folder}/traces", "--out", database], stderr=subprocess.PIPE,
                               env={**os.environ, **settings})
    wait_until("rows", lambda: rows_kept(database) >= 3, started)
    with open(database, "w") as file:
        file.write("something else\n")
    os.remove(settings["HOLD"])
    said = started.communicate(timeout=LONGEST)[1].decode()
    expect_refused("fleet: its place is taken", (started.returncode, "", said), 2, "can't be written")
    expect("what took the place stays", read(database), "something else\n")
    shutil.rmtree(folder)


def test_fleet_failures():
    """What is no trace's fault is a row too, and is tried again."""
    folder = make_traces()
    os.mkfifo(f"{folder}/traces/pipe.trace")
    settings = {**COUNTED, "RUNS": f"{folder}/runs", "ENDS": "n5"}
    words = [FLEET, "run", f"{folder}/traces", "--out", f"{folder}/fleet.db", "--processes", "2"]
    status, _, said = run(words, **settings)
    expect("fleet: traces that fail", (status, said), (
        1, "fleet: 3 traces failed; the table traces has the reason, and a further run tries them again\n"))
    connection = sqlite3.connect(f"{folder}/fleet.db")
    rows = connection.execute("SELECT path, fault FROM traces WHERE status = 'failed'").fetchall()
    connection.close()
    ended = "each process that replayed it was ended"
    expect("fleet: why traces fail", [(os.path.basename(path), fault) for path, fault in rows],
           [("hour_1.trace", ended), ("hour_2.trace", ended), ("pipe.trace", "can't be read: it is no file")])
    os.remove(f"{folder}/traces/pipe.trace")
    os.remove(f"{folder}/runs")
    status, told, said = run(words, **{**settings, "ENDS": ""})
    expect("fleet: traces that failed are tried again", (status, said, runs_counted(folder)), (0, "", 3))
    expect("fleet: what is printed then", plain(told, folder), read(f"{KEPT}/printed"))
    shutil.rmtree(folder)


def shown_on_terminal(words):
    """What a run shows on standard error, which is a terminal."""
    master, terminal = pty.openpty()
    process = subprocess.Popen(words, stderr=terminal, stdout=subprocess.DEVNULL,
                               env={**os.environ, "KUBELET_REPLAY": REPLAY})
    os.close(terminal)
    process.wait()
    shown = os.read(master, 1 << 16).decode()
    os.close(master)
    return shown


def test_fleet_progress():
    folder = make_traces()
    words = [FLEET, "run", f"{folder}/traces", "--out", f"{folder}/fleet.db"]
    total = len(glob.glob(f"{folder}/traces/**/*.trace", recursive=True))
    shown = shown_on_terminal(words)
    expect("fleet shows how far it is on a terminal",
           (bool(re.match(rf"\r\x1b\[K1 of {total} traces, . refused, 0 failed, about \d+ s left", shown)),
            shown.endswith("\r\x1b[K")), (True, True))
    os.remove(next(iter(glob.glob(f"{folder}/fleet.db.done/first_tick-*.rows.gz"))))
    shown = shown_on_terminal(words)
    expect("fleet shows what is kept from before", shown.split("\r\x1b[K")[1],
           f"1 of {total} traces, 1 kept from before, 0 refused, 0 failed")
    shutil.rmtree(folder)


def test_fleet_refused():
    folder = make_traces()
    stood = {"<TRACES>": f"{folder}/traces", "<NEW>": f"{folder}/new.db", "<OTHER>": f"{folder}/other",
             "<DB>": f"{folder}/fleet.db", "<SQLITE>": f"{folder}/sqlite", "<EMPTY>": f"{folder}/empty",
             "<PIPE>": f"{folder}/pipe"}
    os.mkdir(stood["<EMPTY>"])
    os.mkfifo(stood["<PIPE>"])
    with open(stood["<OTHER>"], "w") as file:
        file.write("something else\n")
    connection = sqlite3.connect(stood["<SQLITE>"])
    connection.execute("CREATE TABLE traces (report INTEGER)")
    connection.close()
    run([FLEET, "run", f"{stood['<TRACES>']}/n5", "--out", stood["<DB>"]])
    there = sorted(os.listdir(folder))
    for line in read(f"{KEPT}/refused.table").split("\n")[1:-1]:
        words, status, said = line.split("\t")
        given = [] if words == "-" else re.sub("|".join(stood), lambda found: stood[found[0]], words).split()
        answer = run([FLEET, *given])
        wanted = [re.sub("|".join(stood), lambda found: stood[found[0]], text) for text in said.split("|")]
        found = next((text for text in wanted if text in answer[2]), wanted[0])
        expect_refused(f"fleet {words}", answer, answer[0] if status == "*" else int(status), found)
    expect("fleet: refused words leave nothing", sorted(os.listdir(folder)), there)
    answer = run([FLEET, "run", stood["<TRACES>"], "--out", stood["<NEW>"]], KUBELET_REPLAY="/nonexistent/program")
    expect_refused("fleet without the program", answer, 127, "/nonexistent/program is missing")
    answer = run([FLEET, "run", stood["<TRACES>"], "--out", stood["<NEW>"]], KUBELET_REPLAY="/bin/true")
    expect_refused("fleet with another program", answer, 127, "/bin/true writes no report")
    shutil.rmtree(folder)


def refusal_of(what):
    """The message with which a call is rejected, or None."""
    try:
        what()
    except entry.Fault as fault:
        return str(fault)
    return None


def test_fleet_in_a_folder_of_others():
    """Neither a database nor what is kept next to it is written where others may change it, or through a link."""
    folder = tempfile.mkdtemp()
    os.mkdir(f"{folder}/open")
    path = f"{folder}/open/fleet.db"
    expect("fleet in a folder of one's own", refusal_of(lambda: databases.check_replaceable(path)), None)
    os.chmod(f"{folder}/open", 0o777)
    expect("fleet in a folder that others may write", refusal_of(lambda: databases.check_replaceable(path)),
           f"{folder}/open may be written by others, who may change what is written there: chmod go-w, or chmod +t, "
           "mends that")
    os.chmod(f"{folder}/open", 0o1777)
    expect("fleet in a sticky folder", refusal_of(lambda: databases.check_replaceable(path)), None)
    os.mkdir(f"{folder}/elsewhere")
    os.symlink(f"{folder}/elsewhere", f"{path}.done")
    behind = refusal_of(lambda: keeping.Kept(f"{path}.done", "0"))
    expect("fleet keeps nothing behind a link", "can't be written" in str(behind), True)
    expect("fleet: nothing came behind the link", os.listdir(f"{folder}/elsewhere"), [])
    os.remove(f"{path}.done")
    os.mkdir(f"{path}.done")
    os.symlink(f"{folder}/victim", f"{path}.done/lock")
    behind = refusal_of(lambda: keeping.Kept(f"{path}.done", "0"))
    expect("fleet opens no lock behind a link", behind is None, False)
    expect("fleet: no lock came behind the link", os.path.exists(f"{folder}/victim"), False)
    os.remove(f"{path}.done/lock")
    os.chmod(f"{path}.done", 0o777)
    expect("fleet believes no rows that others may write", "may be written by others" in
           str(refusal_of(lambda: keeping.Kept(f"{path}.done", "0"))), True)
    shutil.rmtree(folder)


def test_program_of_a_checkout():
    """What many processes run is the program that ./kubelet_replay of a checkout built, not that script."""
    folder = tempfile.mkdtemp()
    built = f"{folder}/crates/replay_program/out/replay_program"
    os.makedirs(os.path.dirname(built))
    copy_package(folder)
    for path in (f"{folder}/kubelet_replay", built):
        with open(path, "w") as file:
            file.write("#!/bin/sh\nprintf 'node n1 pods=0 ticks=0\\n'\n")
        os.chmod(path, 0o755)
    ask = [sys.executable, "-c", "from replay_tools import program; print(program.checked_path())"]
    settings = {"PYTHONPATH": f"{folder}/tools", "KUBELET_REPLAY": ""}
    expect("the program of a checkout", run(ask, **settings), (0, f"{built}\n", ""))
    os.remove(built)
    expect("a program beside the tools", run(ask, **settings), (0, f"{folder}/kubelet_replay\n", ""))
    os.mkdir(f"{folder}/lib")
    os.rename(f"{folder}/kubelet_replay", f"{folder}/lib/kubelet_replay")
    expect("the program of a release", run(ask, **settings), (0, f"{folder}/lib/kubelet_replay\n", ""))
    shutil.rmtree(folder)


def python_with(module):
    """A python3 that has a module, or None."""
    for python in (sys.executable, "/usr/bin/python3"):
        if os.path.exists(python) and run([python, "-c", f"import {module}"])[0] == 0:
            return python
    return None


def test_fleet_parquet():
    """With pyarrow, or with a stand-in for it."""
    python, settings = python_with("pyarrow.parquet"), {}
    folder = make_traces()
    words = [FLEET, "run", f"{folder}/traces", "--out", f"{folder}/fleet.db", "--parquet", f"{folder}/set"]
    if python is None:
        print("left out: tools/fleet --parquet with pyarrow, since that is missing; a stand-in is in its place")
        expect_refused("fleet without pyarrow", run(words), 127, "pyarrow is missing")
        expect("fleet without pyarrow leaves nothing", os.listdir(folder), ["traces"])
        python, settings = sys.executable, {"PYTHONPATH": f"{KEPT}/stand_in"}
    begun = [python, f"{TOOLS}/replay_tools/__main__.py", "fleet"]
    expect("fleet --parquet", run([*begun, *words[1:]], **settings)[::2], (0, ""))
    show = ("import sys, pyarrow.parquet as parquet\n"
            "print([list(row.values()) for row in parquet.read_table(sys.argv[1]).to_pylist()])")
    connection = sqlite3.connect(f"{folder}/fleet.db")
    for table in TABLES:
        rows = [list(row) for row in connection.execute(f"SELECT * FROM {table} ORDER BY rowid")]
        shown = run([python, "-c", show, f"{folder}/set/{table}.parquet"], **settings)[1]
        expect(f"fleet --parquet: {table}", shown, f"{rows}\n")
    connection.close()
    expect("fleet --parquet over its tables", run([*begun, *words[1:]], **settings)[::2], (0, ""))
    expect("fleet --parquet leaves nothing behind", len(os.listdir(f"{folder}/set")), len(TABLES))
    with open(f"{folder}/set/pods.parquet", "w") as file:
        file.write("something else\n")
    expect_refused("fleet --parquet over another file", run([*begun, *words[1:]], **settings), 2,
                   "set/pods.parquet is there and is no table of kubelet-replay fleet")
    expect("the other file stays", read(f"{folder}/set/pods.parquet"), "something else\n")
    shutil.rmtree(folder)


def test_fleet_on_dask():
    """Three workers; in each of ten runs one is ended at another moment, and a new one comes. Then the scheduler."""
    python = python_with("distributed")
    folder = make_traces()
    words = [FLEET, "run", f"{folder}/traces", "--out"]
    if python is None:
        print("left out: tools/fleet --scheduler, since python3-distributed is missing")
        answer = run([*words, f"{folder}/fleet.db", "--scheduler", "tcp://127.0.0.1:1"])
        expect_refused("fleet without distributed", answer, 127, "python3-distributed")
        shutil.rmtree(folder)
        return
    begun = [python, f"{TOOLS}/replay_tools/__main__.py", "fleet", *words[1:]]
    settings = {**COUNTED, "RUNS": f"{folder}/runs", "HOLD": f"{folder}/hold"}
    run([*words, f"{folder}/one.db", "--processes", "1"], **settings)
    for workers, wait, check in ((3, "0.03", check_workers_that_end), (1, "0.1", check_scheduler_that_closes)):
        os.environ.update(settings, WAIT=wait)
        cluster = fleet_runs.Cluster(python, workers, tempfile.mkdtemp(dir=folder))
        try:
            check(lambda database: [*begun, database, "--scheduler", cluster.address], cluster, folder)
        finally:
            cluster.end()
            for name in (*settings, "WAIT"):
                del os.environ[name]
    os.environ["KUBELET_REPLAY"] = REPLAY
    answer = run([*begun, f"{folder}/none.db", "--scheduler", cluster.address])
    expect_refused("fleet: a scheduler that does not answer", answer, 2, "does not answer")
    expect("it leaves nothing", glob.glob(f"{folder}/none.db*"), [])
    shutil.rmtree(folder)


def check_workers_that_end(words, cluster, folder):
    """The database is the same as by one process, whether the worker had traces of its own or held answers that nobody
    fetched. The scheduler ends last."""
    one = content(f"{folder}/one.db")
    for kept in range(1, 11):
        database = f"{folder}/dask_{kept}.db"
        started = begun(words(database))
        wait_until("rows", lambda: rows_kept(database) >= kept)
        if kept % 2:
            end_worker_with_answers(started, cluster, f"{folder}/runs")
        else:
            cluster.end_worker()
        cluster.add_worker()
        told, said = started.communicate(timeout=LONGEST)
        expect(f"fleet on Dask, a worker ended after {kept}", (started.returncode, said), (0, b""))
        expect(f"fleet on Dask, a worker ended after {kept}: the database",
               os.path.exists(database) and content(database) == one, True)
    expect("fleet on Dask: what it prints", plain(told.decode(), folder), read(f"{KEPT}/printed"))
    check_lost(words, cluster.end_scheduler, folder, "that is ended")


def check_scheduler_that_closes(words, cluster, folder):
    check_lost(words, cluster.close_scheduler, folder, "that closes")


def begun(words):
    return subprocess.Popen(words, stdout=subprocess.PIPE, stderr=subprocess.PIPE)


def end_worker_with_answers(started, cluster, runs):
    """Ends it while the run that began waits, and nothing is left that the workers could do."""
    started.send_signal(signal.SIGSTOP)
    counted = None
    while counted != os.path.getsize(runs):
        counted = os.path.getsize(runs)
        time.sleep(0.4)
    cluster.end_worker()
    started.send_signal(signal.SIGCONT)


def check_lost(words, end, folder, how):
    """A run whose scheduler goes away."""
    database = f"{folder}/{end.__name__}.db"
    hold(folder)
    started = begun(words(database))
    wait_until("rows", lambda: rows_kept(database) >= 3, started)
    end()
    told, said = started.communicate(timeout=LONGEST)
    os.remove(f"{folder}/hold")
    expect_refused(f"fleet: a scheduler {how}", (started.returncode, told.decode(), said.decode()), 2,
                   "the scheduler went away")


def test_generated_traces():
    """The generator's traces are the same each time, and are rejected or replayed as it means them."""
    folder = tempfile.mkdtemp()
    run([f"{TOP}/bench/fleet", "traces", f"{folder}/traces", "40", "7"])
    expect("bench/fleet traces", [read(f"{folder}/traces/worker-{number:05}.trace") for number in (0, 39)],
           [node_traces.trace(7, number) for number in (0, 39)])
    status, told, said = run([FLEET, "run", f"{folder}/traces", "--out", f"{folder}/fleet.db"])
    expect("fleet of generated traces", (status, said, told.split(";")[0]),
           (0, "", "40 traces: 38 replayed, 2 refused, 0 failed"))
    shutil.rmtree(folder)
