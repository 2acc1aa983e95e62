"""The tests of nodes that send what they like: names of other nodes, listings and traces of any shape, more than there
is room for; and of folders into which others may write."""

import gzip
import os
import shutil
import sys

import cases
from checks import expect, expect_refused, run
from joined_plays import Folder
from test_cluster import COMMANDS, PART, PODS, Cluster, TOOLS

load_tests = cases.loaded(__name__)

FIRST = "n1.2026-01-01T00-00-00Z.trace.gz"
PEAK = ("import resource, subprocess, sys\n"
        "done = subprocess.run(sys.argv[1:])\n"
        "sys.stdout.write(f'{resource.getrusage(resource.RUSAGE_CHILDREN).ru_maxrss}\\n')\n"
        "sys.exit(done.returncode)\n")


def test_a_node_that_names_another():
    """A trace that is named after another node is not that node's, and takes the place of none."""
    with Folder() as folder, Cluster(folder) as cluster:
        cluster.list([*PODS[:2], ("evil", "recorder-e", "Running")])
        cluster.fetch("n1")
        with open(f"{cluster.path}/here/{FIRST}", "rb") as file:
            whole = file.read()
        os.mkdir(f"{cluster.path}/recorder-e")
        shutil.copy(folder.place(40), f"{cluster.path}/recorder-e/{FIRST}")
        for second, name in ((20, "n1"), (40, "evil"), (60, "n1")):
            with gzip.open(f"{cluster.path}/recorder-e/evil.2026-01-01T00-00-{second}Z.trace.gz", "wt") as file:
                file.write("\n" + folder.text(20).replace('"n1"', f'"{name}"'))
        status, told, said = cluster.fetch("evil")
        expect("a node that names another", (status, told.split(" into")[0], said.split("\n")), (1, (
            "evil: 1 trace copied"), [f"fetch: evil: {FIRST} is of another node, and is left out", *(
                f"fetch: evil: evil.2026-01-01T00-00-{second}Z.trace.gz does not begin with the node line of evil"
                for second in (20, 60)), ""]))
        with open(f"{cluster.path}/here/{FIRST}", "rb") as file:
            expect("a node that names another replaces nothing", file.read() == whole, True)


ODD = (f"{FIRST} xx 1767225681.5", f"{FIRST} -5 1767225681.5", f"{FIRST} 1 inf", f"{FIRST} 1 nan", f"{FIRST} 1 1e30",
       f"{FIRST} {'9' * 5000} 1767225681", f"{FIRST} 1 {'9' * 5000}",
       f"n1.2026-01-01T00-00-00Z_{'9' * 5000}.trace.gz 1 1",
       "n1.2026-01-01T00-00-00Z.trace.gz (copy).trace.gz 1 1", "n1\0.2026-01-01T00-00-00Z.trace.gz 1 1",
       "../n1.2026-01-01T00-00-00Z.trace.gz 1 1", "n1.0001-01-01T00-00-00Z.trace.gz 1 1",
       "n1.2026-13-01T00-00-00Z.trace.gz 1 1", "\x1b[31m.trace.gz 1 1", FIRST, ".trace.part")


def listing(cluster):
    return "".join(f"{name} {os.path.getsize(f'{cluster.traces}/{name}')} 1767225681.25\n"
                   for name in sorted(os.listdir(cluster.traces)))


def test_odd_listings():
    """What a listing has that is no trace of that node is left out and reported, and the traces next to it are
    copied."""
    with Folder() as folder, Cluster(folder) as cluster:
        whole = listing(cluster)
        for line in ODD:
            cluster.put("recorder-a.lists", f"{line}\n{whole}")
            name = line[:40].encode("unicode_escape").decode()
            status, told, said = cluster.fetch("n1")
            expect(f"fetch beside {name}", (status, told.split(" into")[0], said.count("\n"), " left out" in said,
                                            "\x1b" in said), (1, "n1: 5 traces copied", 1, True, False))
            row = cluster.run("nodes")[1].split("\n")[2]
            expect(f"nodes beside {name}", (row.split()[:2], "is left out" in row), (["n1", "5"], True))
            shutil.rmtree(f"{cluster.path}/here")
        cluster.put("recorder-a.lists", "".join(f"{line}\n" for line in ODD))
        expect_refused("fetch of odd names alone", cluster.run("kubectl-replay", "story", "web", "--node", "n1"), 1,
                       "it and 15 more are left out; its recorder has no trace yet")
        cluster.put("recorder-a.lists", "".join(f"{FIRST.replace('Z.', f'Z_{number}.')} 1 1\n"
                                                for number in range(2, 20_010)))
        expect_refused("fetch of a listing of very many traces", cluster.fetch("n1"), 1,
                       "n1: its folder lists more than 20000 traces")
        cluster.put("recorder-a.lists", "x" * (9 << 20))
        status, told, _ = cluster.run("nodes")
        expect("nodes with a listing without an end", (status, told.count("more than 8Mi came, and no more is taken")),
               (1, 1))


def test_parts_without_a_moment():
    """A part whose last tick is none is not copied, and the traces before it are."""
    with Folder() as folder, Cluster(folder) as cluster:
        for name, tick in (("text", '"at":"x"'), ("far", '"at":1' + "0" * 30), ("long", '"at":' + "9" * 5000),
                           ("below", '"at":-1'), ("nothing", '"in":1'), ("deep", '"at":1,"x":' + "[" * 100_000)):
            cluster.put(f"recorder-a/{PART}", cluster.part + f'{{"kind":"tick",{tick}}}\n')
            status, told, said = cluster.fetch("n1")
            expect(f"a part with a moment that is none, {name}", (status, told.split(" into")[0], said), (
                1, "n1: 4 traces copied", f"fetch: n1: {PART} ends with an invalid tick line\n"))
            expect(f"a part with a moment that is none, {name}: what is left", len(cluster.here()), 4)
            shutil.rmtree(f"{cluster.path}/here")


def test_more_than_there_is_room_for():
    """A node that sends without end is cut off, needs no more memory, and leaves the traces of others."""
    with Folder() as folder, Cluster(folder) as cluster:
        cluster.list([*PODS[:1], ("n9", "recorder-z", "Running")])
        name = "n9.2026-01-01T00-00-00Z.trace.gz"
        cluster.put("recorder-z.lists", f"{name} 1000 1767225681\n")
        cluster.put("recorder-z.sends", str(400 << 20))
        answer = run([sys.executable, "-c", PEAK, f"{TOOLS}/fetch", "--all", "--into", f"{cluster.path}/here"],
                     CLUSTER=cluster.path, PATH=f"{COMMANDS}:{os.environ['PATH']}")
        told, peak = answer[1].split("\n")[:2]
        expect("a trace without an end", (answer[0], told.split(" into")[0], answer[2]), (
            1, "n1: 5 traces copied", f"fetch: n9: {name}: more than 65Mi came, and no more is taken\n"))
        expect(f"a trace without an end takes little memory: {peak}", int(peak) < 100_000, True)
        expect("a trace without an end leaves nothing", [each for each in cluster.here() if "n9" in each], [])
        cluster.put("recorder-z.lists", f"{name} {10 ** 15} 1767225681\n{name.replace('Z.', 'Z_2.')} 5 1767225681\n")
        cluster.put("recorder-z.sends", "5")
        status, told, said = cluster.fetch("n9")
        expect("a trace that is said to be too long", (status, told, said.split("\n")), (1, "", [
            f"fetch: n9: {name} has 909.49Ti, more than a trace may",
            f"fetch: n9: {name.replace('Z.', 'Z_2.')} does not begin with the node line of n9", ""]))


def test_most_of_a_node():
    with Folder() as folder, Cluster(folder) as cluster:
        cluster.list([("n9", "recorder-z", "Running")])
        os.mkdir(f"{cluster.path}/recorder-z")
        for second in range(3):
            # what can't be unpacked is copied as it lies there
            with open(f"{cluster.path}/recorder-z/n9.2026-01-01T00-00-0{second}Z.trace.gz", "wb") as file:
                file.write(b"\x1f\x8b" + b"x" * (500 << 10))
        status, told, said = cluster.fetch("n9", "--most", "1Mi")
        expect("the most of a node", (status, told.split(" into")[0], said), (
            1, "n9: 2 traces copied", "fetch: n9: 1 more trace would pass 1Mi, the most that is copied (--most)\n"))
        expect("the rest of a node", cluster.fetch("n9", "--most=1Mi")[1].split(" into")[0], "n9: 1 trace copied")
        for value in ("1", "1000000", "much", "-5"):
            expect_refused(f"fetch --most {value}", cluster.fetch("n9", f"--most={value}"), 2,
                           f"--most takes a number of bytes of at least 1Mi, as 2Gi, not '{value}'")


# --- folders that others may write ---


def test_folders_of_others():
    """Nothing is written through a link, and nothing into a folder in which others may put one, unless it is sticky
    and each trace in it is a file of one's own."""
    with Folder() as folder, Cluster(folder) as cluster:
        here = f"{cluster.path}/here"
        os.mkdir(here, 0o755)
        cluster.put("victim", "kept\n")
        for name in (FIRST, f"{FIRST}.copy", PART, f"{PART}.copy"):
            os.symlink(f"{cluster.path}/victim", f"{here}/{name}")
        expect("fetch beside links", cluster.fetch("n1")[0], 0)
        with open(f"{cluster.path}/victim", encoding="utf-8") as file:
            expect("fetch writes through no link", file.read(), "kept\n")
        expect("fetch leaves no link", [name for name in cluster.here() if os.path.islink(f"{here}/{name}")], [])
        for mode in (0o777, 0o775):
            os.chmod(here, mode)
            expect_refused(f"fetch into a folder of mode {mode:o}", cluster.fetch("n1"), 2,
                           f"{here} may be written by others, who may change what is written there: chmod go-w")
        os.chmod(here, 0o1777)
        expect("fetch into a sticky folder", cluster.fetch("n1")[0], 0)
        os.symlink("/dev/null", f"{here}/n7.2026-01-01T00-00-00Z.trace.gz")
        expect_refused("fetch into a sticky folder with a link", cluster.fetch("n1"), 2,
                       "n7.2026-01-01T00-00-00Z.trace.gz in it is of another user, or is no file")
        os.remove(f"{here}/n7.2026-01-01T00-00-00Z.trace.gz")
        if os.geteuid() != 0:
            print("left out: folders and files of other users, which root alone can make")
            return
        os.chown(f"{here}/{FIRST}", 65534, -1)
        expect_refused("fetch into a sticky folder with a trace of another user", cluster.fetch("n1"), 2,
                       f"{FIRST} in it is of another user")
        os.chown(here, 65534, -1)
        os.chmod(here, 0o755)
        expect_refused("fetch into a folder of another user", cluster.fetch("n1"), 2,
                       f"{here} belongs to another user (65534)")


# --- what commands print ---


def test_escapes_of_commands():
    """What crictl and kubectl print on standard error is shown, and does nothing to a terminal."""
    with Folder() as folder, Cluster(folder) as cluster:
        os.mkdir(f"{cluster.path}/bin")
        for name in ("crictl", "kubectl"):
            with open(f"{cluster.path}/bin/{name}", "w", encoding="utf-8") as file:
                file.write("#!/bin/sh\nprintf '\\033]0;owned\\007 \\302\\233m no socket\\n' >&2\nexit 1\n")
            os.chmod(f"{cluster.path}/bin/{name}", 0o755)
        cluster.put("recorder-b.fails", "\x1b]0;owned\x07 no socket\n")
        bare = {"PATH": f"{cluster.path}/bin:{os.environ['PATH']}"}
        for name, answer in (
            ("record --check", run([f"{TOOLS}/record", "--check", "--node", "n1"], **bare)),
            ("record", run([f"{TOOLS}/record", "--node", "n1", "--ticks", "1"], **bare)),
            ("nodes of a kubectl that fails", run([f"{TOOLS}/nodes"], **bare)),
            ("nodes", cluster.run("nodes")), ("fetch", cluster.fetch("n2")),
        ):
            shown = answer[1] + answer[2]
            odd = sorted({each for each in shown if not each.isprintable() and each != "\n"})
            expect(f"{name} of escapes", (answer[0], "x1b]0;owned" in shown, odd), (1, True, []))
            expect(f"{name} of escapes: each is shown in one way", shown.count("]0;owned"),
                   shown.count("\\x1b]0;owned\\x07"))
