"""Tests of bench/hostile: what may be answered, the broken traces and the worst shapes; and the whole with stand-ins of
the program."""
import glob
import hashlib
import itertools
import os
import re
import tempfile

from common import COMMANDS, TOP, Case, read, run, write
import answers
import journal_mutations
import mutations
import shapes
from tries import hostile

FAULTS = answers.faults_in(read(TOP, "docs/formats.md"))
REPORT = b"node n1 pods=2 ticks=3\ntotals updates=0 events=0 orders=0\n"
SEEDS = [b'{"kind":"node","name":"n1"}\n{"kind":"tick","at":1,"pods":[]}\n', b'{"a":[1,2,{"b":null}]}\n\n{}\n']


class Answers(Case):
    def test_the_faults_of_the_formats(self):
        self.assertTrue({"34 Order", "43 Backwards", "45 TooMany", "35 Manifest 11"} <= FAULTS, FAULTS)
        self.assertFalse([fault for fault in FAULTS if "OutOfMemory" in fault or fault == "35 Manifest"])

    def test_what_may_be_answered(self):
        for answer, kind in (
            ((0, REPORT, b""), "report"),
            ((0, REPORT, b"line 1: 34 Order\n"), "!status 0 without a whole report"),
            ((0, REPORT[:-1], b""), "!status 0 without a whole report"),
            ((2, b"", b"line 3: 34 Order\n"), "34 Order"),
            ((2, b"", b"line 4: 34 Order\n"), "!status 2, b'line 4: 34 Order\\n'"),
            ((2, b"", b"line 0: 34 Order\n"), "!status 2, b'line 0: 34 Order\\n'"),
            ((2, b"", b"line 1: 34 Disorder\n"), "!status 2, b'line 1: 34 Disorder\\n'"),
            ((2, b"x", b"line 1: 34 Order\n"), "!status 2 with output"),
            ((1, b"", b"input too long\n"), "input too long"),
            ((1, b"", b""), "!status 1, b''"),
            ((-11, b"", b""), "!ended by SIGSEGV"),
        ):
            self.assertEqual(answers.kind_of(answer, 2, FAULTS), kind)
        for status in (1, 2, 127):
            self.assertEqual(answers.kind_of((status, b"", b""), 2, FAULTS, tight=True),
                             f"status {status}, without memory for its line")

    def test_check_and_run(self):
        refused, ok = (2, b"", b"line 1: 34 Order\n"), (0, b"ok pods=2 ticks=3\n", b"")
        self.assertTrue(answers.agree((0, REPORT, b""), ok))
        self.assertTrue(answers.agree(refused, refused))
        self.assertTrue(answers.agree(refused, (1, b"", b"out of memory\n")))
        self.assertFalse(answers.agree((0, REPORT, b""), (0, b"ok pods=2 ticks=4\n", b"")))
        self.assertFalse(answers.agree(refused, ok))

    def test_answers_cut_short(self):
        ample = (2, b"", b"line 1: 34 Order\n")
        self.assertTrue(answers.is_cut_short((2, b"", b""), ample))
        self.assertTrue(answers.is_cut_short((1, b"", b"out of memory\n"), ample))
        self.assertFalse(answers.is_cut_short((2, b"", b"line 2: 34 Order\n"), ample))


class Journals(Case):
    def test_a_seed_settles_the_journals(self):
        seeds = journal_mutations.seeds_of(TOP)
        self.assertGreater(len(seeds), 2)
        made = [journal_mutations.mutated(1, number, seeds) for number in range(60)]
        self.assertEqual(made, [journal_mutations.mutated(1, number, seeds) for number in range(60)])
        self.assertGreater(len(set(made)), 50)

    def test_what_an_import_may_come_to(self):
        said, trace = b"import: it has no lines\n", b'{"kind":"node"}\n{"kind":"tick"}\n'
        for (status, out, error), kind in (
                ((0, trace, said), "a trace"), ((1, b"", said), "status 1"), ((2, b"", said), "status 2"),
                ((-14, b"", b""), "!status -14"), ((70, b"", said), "!status 70"),
                ((1, b"", b"Traceback (most recent call last):\nKeyError: 'a'\n"), "!KeyError: 'a'"),
                ((0, trace, b"import: \x1b[31m\n"), "!standard error is not lines that can be shown"),
                ((0, b"", said), "!no trace"), ((0, b'{"kind":"x"}\n', said), "!no trace")):
            self.assertEqual(journal_mutations.kind_of(status, out, error), kind)

    def test_imports_of_mutated_journals(self):
        status, out, _ = run("try hostile", "--import", "--jobs", "2", "40", "1")
        self.assertEqual((status, out.splitlines()[-1].rpartition("; ")[2]), (0, "0 failed"), out)


class Mutations(Case):
    def test_a_seed_settles_the_traces(self):
        made = [mutations.mutated(1, number, SEEDS) for number in range(300)]
        self.assertEqual(made, [mutations.mutated(1, number, SEEDS) for number in range(300)])
        self.assertNotEqual(made, [mutations.mutated(2, number, SEEDS) for number in range(300)])
        self.assertGreater(len({trace for trace, _ in made}), 250)
        self.assertEqual({workers for _, workers in made}, {None, 1, 3, 64})
        sums = hashlib.sha256(repr(made).encode()).hexdigest()[:16]
        self.assertEqual(sums, "e8f1859fd65847c8")

    def test_seeds_are_traces_that_are_short(self):
        with tempfile.TemporaryDirectory() as top:
            os.makedirs(f"{top}/examples")
            os.makedirs(f"{top}/crates/case_runner/data/traces/pod")
            write("b\n", top, "examples/b.trace")
            write("b\n", top, "crates/case_runner/data/traces/pod/b.trace")
            write("a\n", top, "crates/case_runner/data/traces/pod/a.trace")
            write("a\n", top, "crates/case_runner/data/traces/pod/a.report")
            write("x" * 100_001, top, "examples/long.trace")
            self.assertEqual(mutations.seeds_of(top), [b"a\n", b"b\n"])


class Shapes(Case):
    def test_no_shape_but_the_last_is_larger_than_an_input_may_be(self):
        sizes = {}
        for name, pieces in shapes.shapes():
            # the long ones of small lines take minutes
            sizes[name] = sum(map(len, itertools.islice(pieces, 70)))
        self.assertEqual(len(sizes), 27)
        over = [name for name, size in sizes.items() if size > shapes.LONGEST_INPUT]
        self.assertEqual(over, ["64 MiB and 1 byte"])

    def test_lines_up_to_the_room_that_there_is(self):
        self.assertEqual(list(shapes.lines_up_to(b"head\n", b"1#\n", 3)), [b"head\n", b"10\n", b"11\n", b"12\n"])
        head = b"x" * (shapes.LONGEST_INPUT - 7)
        self.assertEqual(list(shapes.lines_up_to(head, b"1#\n", 9))[1:], [b"10\n", b"11\n"])

    def test_a_line_that_is_filled(self):
        line = shapes.filled(b"<", b"[0", b",0", b"]", b">")
        self.assertTrue(shapes.MIB - 2 < len(line) <= shapes.MIB)
        self.assertTrue(line.startswith(b"<[0,0") and line.endswith(b",0]>"))


class ShapeAnswers(Case):
    def test_what_a_shape_was_answered(self):
        with tempfile.TemporaryDirectory() as room:
            runner = hostile.Runner("/bin/true", room)
            for status, written, said, answer in (
                (0, REPORT.decode(), "", ("report, 58 bytes", True)),
                (0, REPORT.decode().replace("totals", "x\n" * 9000 + "totals"), "", ("report, 18058 bytes", True)),
                (0, "x\n" * 9000, "", ("!status 0 without a whole report", False)),
                (1, "", "input too long\n", ("input too long", True)),
                (2, "", "line 7: 34 Order\n", ("line 7: 34 Order", True)),
                (-9, "", "", ("!ended by SIGKILL", False)),
            ):
                write(written, runner.written)
                write(said, runner.said)
                self.assertEqual(hostile.shape_answer(runner, status, FAULTS), answer)

    def test_a_run_has_its_answer_and_its_end(self):
        with tempfile.TemporaryDirectory() as room:
            runner = hostile.Runner("/bin/sh", room)
            self.assertEqual(runner.answer(["-c", "echo a; echo b >&2; exit 3"]), (3, b"a\n", b"b\n"))
            self.assertEqual(runner.run(["-c", "sleep 20"], seconds=1)[0], -9)
            self.assertEqual(runner.answer(["-c", "ulimit -d"], kib=40_000), (0, b"40000\n", b""))


class Whole(Case):
    def test_a_program_that_answers_well(self):
        with tempfile.TemporaryDirectory() as room:
            write("#!/bin/sh\necho 'line 1: 34 Order' >&2\nexit 2\n", room, "program")
            os.chmod(f"{room}/program", 0o755)
            status, said, fault = run("try hostile", "--jobs", "2", f"{room}/program", "30", "3")
        self.assertEqual((status, fault), (0, ""))
        self.assertRegex(said, r"^ {7}30 34 Order\n30 runs of seed 3 in \d+ seconds with jobs=2, \d+ a second; "
                               r"check was compared in 1; 0 failed\n$")

    def test_a_program_that_does_not(self):
        with tempfile.TemporaryDirectory() as room:
            status, said, fault = run("try hostile", "/bin/false", "20", "5", TMPDIR=room)
            kept = glob.glob(f"{room}/*.trace")
        self.assertEqual((status, fault), (1, ""))
        self.assertIn("!status 1, b'', with workers=", said)
        self.assertIn("; 19 failed\nthe first failure is run 0: status 1, b'', with workers=", said)
        self.assertEqual(kept, [re.search(r"its trace is (\S+)$", said)[1]])

    def test_words(self):
        self.assertEqual(run("try hostile", "/nowhere", "3"), (2, "", "bench/try hostile: there is no program /nowhere\n"))
        for words in ((f"{COMMANDS}/replay", "1", "2", "3"), (f"{COMMANDS}/replay", "x")):
            self.assertEqual(run("try hostile", *words), (
                2, "", "bench/try hostile: COUNT and SEED are whole numbers, and come after PROGRAM\n"))
        self.assert_wrong(run("try hostile", "--jobs", "0", "/bin/true"), "try hostile",
                          "argument --jobs: takes a whole number from 1, not '0'")
