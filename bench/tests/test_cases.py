"""Tests of bench/cases, where a stand-in takes the place of the program."""
import lzma
import os
import re
import tempfile

from case_files import cases_of, counts_of
from case_runs import STEPS, Runs, ways
from common import TOP, Case, read, run, write
from writers import texts

NODE = '{"kind":"node","name":"n1"}\n'
REPORT = "node n1 pods=2 ticks=3\ntotals updates=6 events=0 orders=0\n"
# rejects what has no node line, and a text with an x where it is not in the extended format
PROGRAM = f"""#!/bin/sh
[ "$(head -n 1 "$2")" = '{NODE.rstrip()}' ] || {{ echo 'line 1: 34 Order' >&2; exit 2; }}
case $*,$(cat "$2") in
*--extended,* | *,*[!x]) ;;
*) echo 'line 2: 33 UnknownKind' >&2; exit 2 ;;
esac
[ "$1" = check ] && echo 'ok pods=2 ticks=3' && exit
printf 'node n1 pods=2 ticks=3\\ntotals updates=6 events=0 orders=0\\n'
"""
COUNTS = "traces/extended: 1 traces\ntraces/node: 2 traces\nlines/first: 3 lines\n"


class Cases(Case):
    def setUp(self):
        self.room = self.enterContext(tempfile.TemporaryDirectory())
        for folder in ("traces/node", "traces/extended", "lines"):
            os.makedirs(f"{self.room}/{folder}")
        for text, name in (
                (NODE, "traces/node/a.trace"), (REPORT, "traces/node/a.report"), ("", "traces/node/b.trace"),
                ("status 2: line 1: 34 Order\n", "traces/node/b.refusal"),
                (f"{NODE}x", "traces/extended/c.trace"), (REPORT, "traces/extended/c.report"),
                (NODE, "lines/first.before"), (COUNTS, "counts"),
                ("# what they are\na\taccepted\n\taccepted\nx\tstatus 2: line 2: 33 UnknownKind\n",
                 "lines/first.table")):
            write(text, self.room, name)
        self.give(PROGRAM)

    def give(self, program):
        write(program, self.room, "program")
        os.chmod(f"{self.room}/program", 0o755)

    def ran(self):
        status, said, fault = run("try cases", f"{self.room}/program", self.room)
        self.assertEqual(fault, "")
        return status, said.splitlines()

    def test_all_answered_as_expected(self):
        self.assertEqual(self.ran(), (0, ["60 runs of 6 cases, 0 otherwise than expected"]))

    def test_a_case_that_is_not_counted(self):
        write(COUNTS.replace("2", "1"), self.room, "counts")
        self.assertEqual(self.ran(), (1, ["the file counts differs from what there is:", *COUNTS.splitlines(),
                                          "60 runs of 6 cases, 1 otherwise than expected"]))

    def test_a_report_that_differs_by_some_workers(self):
        self.give(PROGRAM + '[ "$4" != 3 ] || echo more\n')
        self.assertEqual(self.ran(), (1, [
            f"{case}: run --workers 3: line 3 is b'more\\n', not b''"
            for case in ("traces/extended/c", "traces/node/a", "lines/first.table, line 2", "lines/first.table, line 3")
        ] + ["60 runs of 6 cases, 4 otherwise than expected"]))

    def test_a_play_that_differs(self):
        self.give(PROGRAM.replace("printf", '[ "$5" = 64 ] && exit 0\nprintf'))
        status, said = self.ran()
        self.assertEqual((status, said[0]), (1, "traces/extended/c: play last_first --workers 64: line 1 is b'', not "
                                                "b'node n1 pods=2 ticks=3\\n'"))

    def test_a_check_that_differs(self):
        self.give(PROGRAM.replace("ok pods=2", "ok pods=1"))
        status, said = self.ran()
        self.assertEqual((status, said[0]), (1, "traces/extended/c: check : line 1 is b'ok pods=1 ticks=3\\n', not "
                                                "b'ok pods=2 ticks=3\\n'"))

    def test_refusals_that_differ(self):
        for program, fault in ((PROGRAM.replace("34 Order", "32 NotJson"), "status 2: line 1: 32 NotJson"),
                               (PROGRAM.replace("exit 2; }", "exit 1; }"), "status 1: line 1: 34 Order"),
                               (PROGRAM.replace("echo 'line 1", "echo; echo 'line 1"), "something is written")):
            self.give(program)
            status, said = self.ran()
            self.assertEqual((status, said[0]), (1, f"traces/node/b: run --workers 1: {fault}"))
            self.assertEqual(said[-1], "60 runs of 6 cases, 10 otherwise than expected")

    def test_a_case_that_is_refused(self):
        self.give("#!/bin/sh\necho out of memory >&2\nexit 1\n")
        status, said = self.ran()
        self.assertEqual((status, said[0]), (1, "traces/extended/c: run --workers 1: status 1: out of memory"))
        self.assertEqual(said[-1], "60 runs of 6 cases, 60 otherwise than expected")

    def test_a_run_that_does_not_end(self):
        self.give(PROGRAM + '[ "$4" != 3 ] || exec sleep 60\n')
        case = next(case for case in cases_of(self.room) if case.name == "traces/node/a")
        runs, told = Runs(f"{self.room}/program", self.room, longest=3)(case)
        self.assertEqual((runs, told), (10, ["traces/node/a: run --workers 3: no end"]))

    def test_packed_ones(self):
        os.makedirs(f"{self.room}/traces/stretches")
        for name, text in (("long.trace.xz", NODE + "x"), ("long.report.xz", REPORT)):
            with lzma.open(f"{self.room}/traces/stretches/{name}", "w") as file:
                file.write(text.encode())
        write(COUNTS.replace("lines/", "traces/stretches: 1 traces\nlines/"), self.room, "counts")
        self.assertEqual(self.ran(), (0, ["70 runs of 7 cases, 0 otherwise than expected"]))

    def test_words(self):
        self.assert_wrong(run("try cases", "a", "b", "c"), "try cases", "unrecognized arguments: c")
        self.assertEqual(run("try cases", "/nowhere"), (2, "", "bench/try cases: there is no program /nowhere\n"))


class Files(Case):
    """The cases that there are."""

    def test_counts(self):
        data = f"{TOP}/crates/case_runner/data"
        self.assertEqual(counts_of(cases_of(data)), read(data, "counts"))

    def test_each_has_one_answer(self):
        for case in cases_of(f"{TOP}/crates/case_runner/data"):
            self.assertFalse(case.report is not None and case.refusal, case.name)
            self.assertTrue(case.report is None or case.report.startswith(b"node "), case.name)
            self.assertTrue(not case.refusal or case.refusal.startswith("status "), case.name)

    def test_stretches_start_threads(self):
        """Thirty of them have at least 4,096 updates: so many that each of four workers is worth its start."""
        enough = 0
        for case in cases_of(f"{TOP}/crates/case_runner/data"):
            if case.folder == "traces/stretches":
                counted = re.search(rb"^totals updates=(\d+) ", case.report or b"", re.MULTILINE)
                updates = int(counted.group(1)) if counted else case.trace.count(b'"pod":"')
                enough += updates >= 4096
        self.assertGreaterEqual(enough, 30)

    def test_each_word_has_a_text(self):
        """The second compiler's program replays a trace of each member that the page of the extended format adds."""
        page = read(TOP, "docs/extended.md")
        headings = re.findall(r"(?m)^## .*", page)
        fields = re.findall(r"(?m)^\| `(\w+)` \|", page.partition("\n## ")[0])
        words = {word.split(".")[-1].strip('"') for heading in headings for word in re.findall(r"`([^`]+)`", heading)}
        known = b" ".join(texts.WORDS).decode()
        self.assertEqual([word for word in sorted({*words, *fields} - {"--extended", "restartPolicy"})
                          if word.removeprefix('"kind":"') not in known], [])

    def test_ways(self):
        self.assertEqual([words[0] for words in ways("t", "s")], ["run"] * 5 + ["play"] * len(STEPS) + ["check"])
