"""Tests of bench/wrong_bodies: its parts, and the whole over theorem/small with the edits of wrong_bodies/edits, where
wrong_bodies/rt takes the place of the kit. Its words have the form of a check's, and follow from what the edits
write."""
import os
import shutil
import subprocess
import tempfile

from common import LONGEST, SMALL, TESTS, TOP, Case, commands_in, lay_over, read, run, write
import edits
import gate_page
import shelf

HERE = os.path.join(TESTS, "wrong_bodies")
CLAUSE = "src/lib.rt:10:5: the clause (`kept`)"
LINES = """\
marks: proved without an edit, 0 s
marks/a_clause: 0 s: clause: src/lib.rt:10:5: the clause (`kept`)
marks/b_proof: 0 s: proof file only: proofs/Lib.antt:4:1: error: Wrong is not in scope
marks/c_proved: 0 s: still proved:{space}
marks/d_killed: 0 s: NOT CHECKED: == marks
marks/e_twice: 0 s: BAD EDIT: it does not fit the file that it names
marks/f_no_file: 0 s: BAD EDIT: it does not fit the file that it names
marks/g_pairs: 0 s: clause: src/lib.rt:10:5: the clause (`kept`)
rejected by a clause: 2; only because a proof file no longer fits: 1; still proved: 1; NOT CHECKED: 1; BAD EDIT: 2
""".format(space=" ")


class Verdicts(Case):
    def test_what_refuses_an_edit(self):
        clause = "src/a.rt:1:2: it is not proved that the clause (`is_kept`) holds (`for all`)"
        broken = "src/a.rt:3:4: error: nothing fits\nsrc/a.rt:5:6: error: more"
        ended = "\nlogic=not-proved functions=1"
        for status, said, found in (
            (0, "logic=proved", ("still proved", "")),
            (1, clause + ended, ("clause", "src/a.rt:1:2: the clause (`is_kept`)")),
            (1, broken + "\nnote: " + clause + ended, ("clause", "src/a.rt:1:2: the clause (`is_kept`)")),
            (1, "a.rt:1:2: it is not proved that it ends" + ended, ("clause", "a.rt:1:2: it ends")),
            (1, "some words\n" + broken + ended, ("proof file only", "src/a.rt:3:4: error: nothing fits")),
            (1, "some words" + ended, ("proof file only", "some words")),
            (3, "a limit\nmore", ("NOT CHECKED", "a limit")),
            (137, "", ("NOT CHECKED", "")),
        ):
            self.assertEqual(edits.verdict(status, said), found)


class Texts(Case):
    def setUp(self):
        self.top = self.enterContext(tempfile.TemporaryDirectory())
        write("one\n  two\nthree\n", self.top, "text")

    def texts(self, *lines):
        write("\n".join(lines) + "\n", self.top, "edit")
        return edits.texts_of(f"{self.top}/edit", self.top)

    def test_pairs_are_applied_one_after_the_other(self):
        self.assertEqual(self.texts("file: text", "old:   two", "new:   2", "old: 2\tx", "old: 2", "new:"),
                         {"text": "one\n  \nthree\n"})

    def test_what_does_not_fit_is_none(self):
        for lines in (("file: text", "old: four", "new: 4"), ("file: text", "old: o", "new: 0"), ("file: text",),
                      ("file: gone", "old: one", "new: 1"), ("old: one", "new: 1"), ()):
            self.assertIsNone(self.texts(*lines), lines)


class Found(Case):
    def test_what_was_found_stands_in_the_order_of_the_crates(self):
        with tempfile.TemporaryDirectory() as top:
            os.mkdir(f"{top}/bench")
            shelf.record(top, ["a", "b", "c"], "c", {"clause": 2, "still proved": 1}, 12.6)
            shelf.record(top, ["a", "b", "c"], "a", {}, 0.2)
            shelf.record(top, ["a", "b", "c"], "c", {"clause": 3}, 9.2)
            self.assertEqual(read(top, "bench/wrong_bodies.tsv"), "\n".join((
                "crate\tedits\tclause\tproof file only\tstill proved\tseconds",
                "a\t0\t0\t0\t0\t0", "c\t3\t3\t0\t0\t9", "")))


class Shelf(Case):
    """The repository's own edits outside of the gate."""

    def test_each_edit_fits_its_file(self):
        for name in sorted(os.listdir(f"{TOP}/crates")):
            for edit in (path for part in ("wrong-bodies", shelf.UNTRIED, "must-fail")
                         for path in edits.paths_of(TOP, name, part)):
                with self.subTest(edit):
                    self.assertIsNotNone(edits.texts_of(edit, f"{TOP}/crates/{name}"))

    def test_each_row_has_the_number_of_its_folder(self):
        rows = {row["crate"]: int(row["edits"]) for row in shelf.read_found(TOP)}
        counts = {name: len(edits.paths_of(TOP, name, "wrong-bodies")) for name in os.listdir(f"{TOP}/crates")}
        self.assertEqual(rows, {name: count for name, count in counts.items() if count})

    def test_the_page_has_each_row_and_what_waits(self):
        said = read(TOP, "docs/gate.md").partition(gate_page.OUTSIDE)[2].partition(gate_page.REPLAYS)[0]
        self.assertEqual((gate_page.OUTSIDE + said).split("\n"), "\n".join([*gate_page.shelf(TOP), ""]).split("\n"))

    def test_each_edit_was_judged(self):
        for row in shelf.read_found(TOP):
            with self.subTest(row["crate"]):
                self.assertEqual(int(row["edits"]), sum(int(row[kind]) for kind in shelf.KINDS))


class Whole(Case):
    def setUp(self):
        self.top = self.enterContext(tempfile.TemporaryDirectory())
        lay_over(SMALL, self.top)
        shutil.copytree(f"{TOP}/bench", f"{self.top}/bench", ignore=shutil.ignore_patterns("tests", "*.tsv"))
        write("", self.top, "HANDLES")
        self.shelf("wrong-bodies", os.listdir(f"{HERE}/edits"))

    def shelf(self, name, names):
        os.makedirs(f"{self.top}/crates/marks/{name}")
        for edit in names:
            shutil.copy(f"{HERE}/edits/{edit}", f"{self.top}/crates/marks/{name}")

    def tried(self, *words):
        done = subprocess.run([f"{self.top}/bench/wrong_bodies", *words], capture_output=True, text=True, check=False,
                              timeout=LONGEST, env={**os.environ, "PATH": f"{HERE}:{os.environ['PATH']}",
                                               "RT_WAS_CALLED": f"{self.top}/called"})
        return done.returncode, done.stdout, done.stderr

    def found(self):
        path = f"{self.top}/bench/wrong_bodies.tsv"
        return read(path) if os.path.exists(path) else None

    def test_all_kinds(self):
        source = read(self.top, "crates/marks/src/lib.rt")
        self.assertEqual(self.tried(), (1, LINES, ""))
        logs = f"{self.top}/crates/marks/out/wrong-bodies"
        self.assertEqual(len(os.listdir(logs)), 7)
        self.assertEqual(read(logs, "d_killed.log"), "== marks\nrattle: killed\n")
        self.assertEqual(read(logs, "e_twice.log"), "")
        self.assertEqual(read(self.top, "called"), 6 * "check --jobs 1\n")
        # an edit whose log has nothing of a contract leaves the figures as they were
        self.assertIsNone(self.found())
        self.assertEqual(read(self.top, "crates/marks/src/lib.rt"), source)

    def test_a_shelf_that_is_refused(self):
        for name in ("c_proved", "d_killed", "e_twice", "f_no_file"):
            os.remove(f"{self.top}/crates/marks/wrong-bodies/{name}.edit")
        status, said, _ = self.tried("marks", "text")
        self.assertEqual((status, said.splitlines()[-1]), (
            0, "rejected by a clause: 2; only because a proof file no longer fits: 1"))
        self.assertEqual(self.found(), "crate\tedits\tclause\tproof file only\tstill proved\tseconds\n"
                                       "marks\t3\t2\t1\t0\t0\n")

    def test_edits_since_a_commit(self):
        for name in ("b_proof", "c_proved", "d_killed", "e_twice", "f_no_file"):
            os.remove(f"{self.top}/crates/marks/wrong-bodies/{name}.edit")
        self.assertEqual(self.tried("marks")[0], 0)
        for words in (("init", "--quiet"), ("add", "-A"), ("-c", "user.name=a", "-c", "user.email=a@a", "commit",
                                                           "--quiet", "--message", "edits")):
            subprocess.run(["git", "-C", self.top, *words], check=True, timeout=LONGEST)
        shutil.copy(f"{HERE}/edits/a_clause.edit", f"{self.top}/crates/marks/wrong-bodies/h_new.edit")
        status, said, _ = self.tried("--since", "HEAD", "marks")
        self.assertEqual((status, said.splitlines()[1:]), (0, [
            f"marks/h_new: 0 s: clause: {CLAUSE}",
            "rejected by a clause: 1; only because a proof file no longer fits: 0"]))
        self.assertIn("marks\t3\t3\t0\t0\t0\n", self.found())
        # of a row that has not all of the others nothing is known
        shutil.copy(f"{HERE}/edits/a_clause.edit", f"{self.top}/crates/marks/wrong-bodies/i_new.edit")
        write(self.found().replace("marks\t3\t3", "marks\t0\t0"), self.top, "bench/wrong_bodies.tsv")
        self.assertEqual(self.tried("--since", "HEAD")[0], 0)
        self.assertIn("marks\t0\t0\t0\t0\t0\n", self.found())
        self.assertEqual(self.tried("--since", "nothing")[0], 2)
        self.assert_wrong(self.tried("--since"), "try wrong_bodies", "argument --since: expected one argument")

    def test_edits_of_the_gate(self):
        self.shelf("must-fail", ["a_clause.edit"])
        status, said, _ = self.tried("--gate")
        self.assertEqual((status, said.splitlines()[1:]), (0, [
            f"marks/a_clause: 0 s: clause: {CLAUSE}",
            "rejected by a clause: 1; only because a proof file no longer fits: 0"]))
        self.assertIsNone(self.found())
        shutil.copy(f"{HERE}/edits/b_proof.edit", f"{self.top}/crates/marks/must-fail")
        self.assertEqual(self.tried("--gate", "marks")[0], 1)

    def test_a_crate_that_is_not_proved(self):
        write("Refused", self.top, "crates/marks/src/lib.rt")
        status, said, _ = self.tried()
        self.assertEqual((status, said.splitlines()[0], said.splitlines()[-1]), (
            1, "marks: NOT PROVED without an edit, 0 s",
            "rejected by a clause: 0; only because a proof file no longer fits: 0; NOT PROVED: 1"))

    def test_words(self):
        self.assertEqual(self.tried("nothing"), (2, "", "bench/try wrong_bodies: there is no crate nothing\n"))
        path = commands_in(self.top, "python3", "env")
        self.assertEqual(run("try wrong_bodies", PATH=path), (
            127, "", "bench/try wrong_bodies: the Rattle kit is missing: put its command rt on the PATH\n"))
