"""The tests of which traces are joined: the traces of a time, a part that is still written, files that can't be joined
or read at all, reports, and traces that gzip has packed."""

import gzip
import json
import os
import shutil
import tempfile

from chance import BEGIN
import cases
from checks import HERE, REPLAY, TOOLS, expect, expect_refused, read, replayed, run
from joined_plays import Folder

from replay_tools.joined import files, parts

load_tests = cases.loaded(__name__)


def test_time_of_traces():
    """--at and --since take the traces of a time and no more."""
    with Folder() as folder:
        heads = {}
        for words in (("--at", "2026-01-01T00:00:50Z"), ("--at", str(BEGIN + 50)), ("--since", str(BEGIN + 45)),
                      ("--since", "2026-01-01T01:00:45+01:00"), ("--since", "2026-01-01 00:00:45Z")):
            status, told, said = folder.tell("story", *words)
            heads[words] = told.split("\n")[0]
            expect(f"traces {' '.join(words)}", (status, said), (0, ""))
        whole = "5 traces, 2026-01-01 00:00:00Z to 2026-01-01 00:01:21Z"
        cut = "3 traces, 2026-01-01 00:00:40Z to 2026-01-01 00:01:21Z"
        expect("traces of a time", list(heads.values()), [whole, whole, cut, cut, cut])


def test_part_that_is_written():
    """The trace that is still written is read as far as its last whole line, and a line reports that."""
    with Folder() as folder:
        whole = folder.tell("story", "web")
        text = folder.text(80)
        os.remove(folder.place(80))
        part = folder.write("n1.2026-01-01T00-01-20Z.trace.part", text + '{"kind":"tick","at":17672')
        said = "story: n1.2026-01-01T00-01-20Z.trace.part is still written, or was left so: it is read up to " \
               "2026-01-01 00:01:21Z\n"
        expect("a part", folder.tell("story", "web"), (0, whole[1], said))
        os.remove(part)
        folder.write("n1.2026-01-01T00-01-20Z.trace.part", '{"kind":"node","na')
        status, told, said = folder.tell("story", "web")
        expect("a part without a whole line", (status, said), (
            0, "story: n1.2026-01-01T00-01-20Z.trace.part is left out: it has no line\n"))
        shutil.copy(folder.place(60), folder.place(80))
        ended = files.source_of(folder.place(60, "part"), False)
        expect("a part that has ended since the folder was read", (parts.text_of(ended).decode(), ended.is_part),
               (folder.text(60), False))
        gone = run([f"{TOOLS}/story", "web", "--traces", f"{folder.path}/n1.2026-01-01T00-01-20Z.trace.part"])
        expect_refused("a part without a whole line by its name", gone, 2, "trace.part: it has no line")
        status, _, said = folder.tell("story", "web")
        expect("traces of one time in a folder", (status, said.split("\n")[0]), (
            0, "story: n1.2026-01-01T00-01-20Z.trace.gz is left out: n1.2026-01-01T00-01-00Z.trace.gz is of the same time, "
               "and has more"))


def test_traces_of_a_slow_look():
    """A recorder that was killed after a slow poll leaves a trace that ends some seconds after the next one begins:
    they are joined. By more than that they overlap, and the longer one is kept; two that were named are rejected."""
    with Folder() as folder:
        text = folder.text(60)
        last = json.loads(text.splitlines()[-1])
        with gzip.open(folder.place(60), "wt") as file:
            file.write(text + json.dumps({**last, "at": last["at"] + 1}) + "\n")
        status, told, said = folder.tell("story", "web")
        expect("a trace that ends after the next one begins", (status, said, "shop/web on n1" in told), (0, "", True))
        with gzip.open(folder.place(60), "wt") as file:
            file.write(text + json.dumps({**last, "at": last["at"] + 100}) + "\n")
        status, told, said = folder.tell("story", "web")
        expect("traces that overlap", (status, said.split(".trace.gz is left out")[0], "shop/web on n1" in told),
               (0, "story: n1.2026-01-01T00-01-20Z", True))
        named = run([f"{TOOLS}/story", "web", "--traces", folder.place(60), "--traces", folder.place(80)])
        expect_refused("traces that overlap by their names", named, 2, "overlap: the one ends at")


def test_traces_that_are_left_out():
    """What can't be used of a folder is left out, and reported; by its name it is rejected."""
    with Folder() as folder:
        with open(folder.place(40), "rb") as file:
            packed = file.read()
        with open(folder.place(40), "wb") as file:
            file.write(packed[:200])
        name = "n1.2026-01-01T00-00-40Z.trace.gz"
        status, _, said = folder.tell("story", "web")
        expect("a damaged trace of a folder", (status, said.split("\n")[0]), (
            0, f"story: {name} is left out: it is damaged, and can't be unpacked: Compressed file ended before the "
               "end-of-stream marker was reached"))
        expect("a damaged trace of a folder is a gap", said.split("\n")[1][:60],
               "story: n1.2026-01-01T00-01-00Z.trace.gz follows n1.2026-01-01T00-00-40Z"[:60])
        expect_refused("a damaged trace by its name", folder.tell("story", "web", traces=folder.place(40)), 2,
                       "n1.2026-01-01T00-00-40Z.trace.gz: it is damaged, and can't be unpacked")
        for tool in ("json", "timeline", "page", "why", "story"):
            words = [f"{TOOLS}/{tool}", *(["web"] if tool in ("why", "story") else []), "--traces", folder.place(40)]
            expect_refused(f"{tool} of a damaged trace", run(words), 2, "it is damaged")
        with gzip.open(folder.place(40), "wt") as file:
            file.write('{"kind":"node","name":"n1","version":3}\n{"kind":"tick","at":5}\n{"kind":"tick","at":5}\n')
        status, _, said = folder.tell("story", "web")
        expect("a refused trace of a folder", (status, said.split("\n")[0]), (
            0, f"story: {name} is left out: it is rejected: line 3: 42 Moment (at is 5: the tick of line 2 has 5, and "
               "each is later than the one before: keep one tick of each second, in the order of their moments)"))
        expect_refused("a refused trace by its name", folder.tell("story", "web", traces=folder.place(40)), 2,
                       "it is rejected: line 3: 42 Moment", "")


def test_traces_that_are_none_together():
    with Folder() as folder:
        other = folder.write("n2.2026-01-01T00-00-00Z.trace", folder.text(0).replace('"n1"', '"n2"'))
        expect_refused("a folder of two nodes", folder.tell("story", "web"), 2,
                       "has traces of 2 nodes, n1, n2: choose one with --node")
        status, told, said = folder.tell("story", "web", "--node", "n1")
        expect("a node of a folder", (status, said, told.split(":")[0]), (0, "", "shop/web on n1"))
        expect_refused("a node that a folder has not", folder.tell("story", "--node", "n3"), 2,
                       "has no trace of n3; it has traces of n1, n2")
        two = run([f"{TOOLS}/story", "--traces", folder.place(0), "--traces", other])
        expect_refused("traces of two nodes by their names", two, 2, "is of n1 and")
        report = folder.write("report", replayed(folder.text(20))[1])
        mixed = run([f"{TOOLS}/story", "--traces", folder.place(0), "--traces", report])
        expect_refused("a trace and a report", mixed, 2, "all have to be the one, or all the other")
        twice = run([f"{TOOLS}/story", "--traces", folder.place(0), "--traces", folder.place(0)])
        expect_refused("a trace that is named twice", twice, 2, "overlap")
        for words, said in (
            (["--traces", f"{folder.path}/none"], "no trace found:"),
            (["--traces", HERE], "has no trace: no file in it ends with .trace"),
            (["--traces", "/dev/null"], "/dev/null: it is a device or a pipe"),
            (["--traces", f"{HERE}/run.py"], "run.py: it is rejected: line 1: 32 NotJson"),
            (["--traces", folder.place(0), "--at", "2026-01-02T00:00Z"], "nothing was recorded at 2026-01-02 00:00"),
            (["--traces", folder.path, "--node", "n1", "--at", "2025-12-31T12:00Z"], "there is no trace by 2025-12-31"),
            (["--traces", folder.path, "--node", "n1", "--since", "2h"], "nothing was recorded since "),
            (["--traces", folder.path, "--since", "2h", "--at", "03:10Z"], "exclude each other"),
            (["--traces", folder.path, "--at", "03:10"], "--at 03:10 lacks its zone: 03:10Z is UTC"),
            (["--traces", folder.path, "--at", "2026-02-30T03:10Z"], "is no time that there is"),
            (["--traces", folder.path, "--since", "tonight"], "--since takes a time, as 2026-11-27T03:10Z"),
            (["--traces", folder.path, "--trace", folder.place(0)], "--trace and --traces exclude each other"),
            (["--since", "2h"], "it needs -f FILE or FOLDER for traces that are here"),
        ):
            answer = run([f"{TOOLS}/story", *words])
            expect_refused(f"story {' '.join(words)}", answer, 2, said,
                           "" if "NotJson" in said else None)


def test_reports_alone():
    """Reports without their traces are joined too; between them nothing is known."""
    with Folder() as folder:
        words = []
        for second in (0, 20, 40):
            words += ["--traces", folder.write(f"report{second}", replayed(folder.text(second))[1])]
        status, told, said = run([f"{TOOLS}/story", "--seconds", "web", *words])
        starts = [line.split()[2:] for line in told.split("\n") if " started" in line and "ready" not in line]
        expect("reports alone", (status, said, starts), (0, "", [["0", "started"], ["1", "started"], ["2", "started"],
                                                                ["3", "started"], ["4", "started"]]))
        expect_refused("why of reports alone", run([f"{TOOLS}/why", "web", *words]), 2, "-f names reports")


def test_packed_traces():
    """Each tool reads a trace that gzip has packed as the one that it was."""
    trace = f"{HERE}/whys/kubelet/trace"
    folder = tempfile.mkdtemp()
    with gzip.open(f"{folder}/trace.gz", "wt") as file:
        file.write(read(trace))
    report = read(f"{HERE}/whys/kubelet/report")
    for words in ("story shop/agree --trace TRACE", "why shop/agree --trace TRACE", "timeline --trace TRACE",
                  "json --trace TRACE", "page TRACE"):
        one, other = (run([f"{TOOLS}/{words.split()[0]}", *words.replace("TRACE", path).split()[1:]], report)
                      for path in (trace, f"{folder}/trace.gz"))
        expect(f"{words} of a packed one", other, one)
    for words in ("run TRACE", "check TRACE", "run -f TRACE --fail-on evicted", "story -f TRACE agree",
                  "json -f TRACE", "explain TRACE"):
        one, other = (run([f"{TOOLS}/kubelet-replay", *words.replace("TRACE", path).split()])
                      for path in (trace, f"{folder}/trace.gz"))
        expect(f"kubelet-replay {words} of a packed one", (other[0], other[1].replace(f"{folder}/trace.gz", trace),
                                                          other[2]), one)
    shell = f"'{TOOLS}/what-if' 'node(.name = \"n9\")' < "
    expect("what-if of a packed one", run(["sh", "-c", f"{shell}'{folder}/trace.gz'"]),
           run(["sh", "-c", f"{shell}'{trace}'"]))
    answer = run(["sh", "-c", f"'{TOOLS}/story' < '{folder}/trace.gz'"])
    expect_refused("story of a packed trace on standard input", answer, 2,
                   "standard input is packed by gzip, and it needs a report; if it is a trace, -f FILE replays")
    piped = f"zcat '{folder}/trace.gz' | '{TOOLS}/kubelet-replay' run -"
    expect("zcat to the program", run(["sh", "-c", piped]), run([f"{TOOLS}/kubelet-replay", "run", trace]))
    piped = f"zcat '{folder}/trace.gz' | '{REPLAY}' run /dev/stdin --extended"
    expect("zcat to the program itself", run(["sh", "-c", piped]), run([REPLAY, "run", trace, "--extended"]))
    with open(f"{folder}/cut.gz", "wb") as file, open(f"{folder}/trace.gz", "rb") as whole:
        file.write(whole.read()[:300])
    for words in ("run CUT", "check CUT", "story -f CUT agree", "page -f CUT"):
        answer = run([f"{TOOLS}/kubelet-replay", *words.replace("CUT", f"{folder}/cut.gz").split()])
        expect_refused(f"kubelet-replay {words}, damaged", answer, 2, "it is damaged, and can't be unpacked")
    expect_refused("what-if, damaged", run(["sh", "-c", f"'{TOOLS}/what-if' . < '{folder}/cut.gz'"]), 2,
                   "standard input is damaged, and can't be unpacked")
    expect_refused("story --trace, damaged", run([f"{TOOLS}/story", "--trace", f"{folder}/cut.gz"], report), 2,
                   "it is damaged")
    shutil.rmtree(folder)


def test_command_of_several():
    """kubelet-replay passes files, folders and times on."""
    with Folder() as folder:
        wanted = folder.tell("story", "web", "--without-why")
        first, *rest = (folder.place(second) for second in (0, 20, 40, 60, 80))
        for words in (["-f", folder.path], ["-f", f"{folder.path}/*.gz"], ["-f", first, *rest],
                      [word for path in (first, *rest) for word in ("-f", path)], ["-f", folder.path, "--node", "n1"]):
            expect(f"kubelet-replay story {' '.join(words)[:60]}",
                   run([f"{TOOLS}/kubelet-replay", "story", *words, "web"]), wanted)
        listed = run([f"{TOOLS}/kubelet-replay", "story", "-f", folder.path, "-n", "shop"])
        expect("kubelet-replay story of a namespace", listed, folder.tell("story", "shop/"))
        at = ["--at", "2026-01-01T00:00:50Z"]
        expect("kubelet-replay why --at", run([f"{TOOLS}/kubelet-replay", "why", "-f", folder.path, *at, "web"]),
               folder.tell("why", "web", *at))
        for words, said in (
            (["what-if", ".", "-f", first, "-f", rest[0]], "it takes one file, not 2"),
            (["story", "--since", "2h"], "-f FILE or FOLDER for traces that are here, or for a cluster --node NODE"),
        ):
            expect_refused(f"kubelet-replay {words[0]}", run([f"{TOOLS}/kubelet-replay", *words]), 2, said)
