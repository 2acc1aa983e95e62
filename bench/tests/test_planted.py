"""Tests of bench/planted."""
import os
import tempfile

from common import Case, read, run, write
import gate_edits
import gate_figures
import planted_page

HEAD = "\t".join(planted_page.COLUMNS)
ROW = "a b\tall\t3\t1\t\t2\t\t2026-11-27\tit is slower"
EDITS = "\t".join(gate_edits.EDIT_COLUMNS)


class Planted(Case):
    def setUp(self):
        self.top = self.enterContext(tempfile.TemporaryDirectory())
        os.makedirs(f"{self.top}/bench")
        write("## Base\na:\nb: a\nc:\n## Rules\nd: a\n", self.top, "crates.txt")

    def planted(self, *lines, words=()):
        write("".join(f"{line}\n" for line in lines), self.top, "bench/planted.tsv")
        if not os.path.exists(f"{self.top}/bench/edits.tsv"):
            self.put_edits()
        return run("pages planted", *words, "--top", self.top)

    def put_edits(self, *lines):
        write("".join(f"{line}\n" for line in (EDITS, *lines)), self.top, "bench/edits.tsv")

    def test_edits_of_the_gate(self):
        for name in "a/must-fail/first.edit", "a/must-fail/second.edit", "b/wrong-bodies/third.edit":
            os.makedirs(f"{self.top}/crates/{os.path.dirname(name)}", exist_ok=True)
            write("", self.top, f"crates/{name}")
        rows = ["a\tfirst\t12\tit is first", "a\tsecond\t\tit is second"]
        self.put_edits(*rows)
        self.assertEqual(self.planted(HEAD, ROW), (0, "", ""))
        shown = "\n  - `first` (12 s): it is first.\n  - `second`: it is second.\n"
        self.assertIn("\n- `a`: 2 edits" + shown, read(self.top, "docs/planted.md"))
        figure = gate_figures.Figure(30.0, 60.0, 1e9, 40.2, "2 passed, 0 failed", "c1", "kit", "machine")
        gate_figures.keep(self.top, ["a"], "a", figure)
        self.assertEqual(self.planted(HEAD, ROW), (0, "", ""))
        self.assertIn("\n- `a`: 2 edits, 40 s" + shown, read(self.top, "docs/planted.md"))
        for lines, said in ((rows[:1], ": nothing describes what a/second alone shows"),
                            ([*rows, "b\tthird\t\tno edit of the gate"], ": the gate has no edit b/third"),
                            ([*rows, "a"], ":4: 1 cells, not 4"),
                            ([*rows, "a\tx\tsome\tx"], ":4: some is no number of seconds"),
                            ([*rows, "a\tx\t\t"], ":4: nothing describes what a/x alone shows")):
            self.put_edits(*lines)
            self.assertEqual(self.planted(HEAD, ROW, words=["--check"]), (
                1, "", f"bench/planted: bench/edits.tsv{said}\n"))

    def test_seconds_of_an_edit(self):
        os.makedirs(f"{self.top}/bench", exist_ok=True)
        self.put_edits("a\tfirst\t\tit is first", "a\tsecond\t7\tit is second")
        for edit, seconds in (("second", 11.6), ("third", 3.0)):
            gate_edits.record_seconds(self.top, "a", edit, seconds)
        self.assertEqual(read(self.top, "bench/edits.tsv"),
                         f"{EDITS}\na\tfirst\t\tit is first\na\tsecond\t12\tit is second\n")

    def test_the_page(self):
        self.assertEqual(self.planted(HEAD, ROW), (0, "", ""))
        text = read(self.top, "docs/planted.md")
        self.assertIn("| `a`, `b` | 3 | 1 | 0 | 2 | 2026-11-27 |  |\n", text)
        self.assertIn("In all, 3 were rejected, 1 proved, 0 not judged, and 2 not writable.", " ".join(text.split()))
        self.assertIn("- `a b`: it is slower.\n", text)
        self.assertEqual(self.planted(HEAD, ROW, words=["--check"]), (0, "", ""))
        self.assertEqual(self.planted(HEAD, ROW, ROW, words=["--check"]), (
            1, "", "bench/planted: docs/planted.md is stale: run bench/planted\n"))

    def test_crates_without_a_run(self):
        for rows, said in (([ROW], "\nNo run on record covers these 2 crates, so none shows what the prover rejects "
                                   "there:\n\n- Base: `c`\n- Rules: `d`\n"),
                           ([ROW, ROW.replace("a b", "c")], "covers this crate, so none shows what the prover rejects "
                                                            "there:\n\n- Rules: `d`\n"),
                           ([ROW, ROW.replace("a b", "c d")], "\nSome run on record covers each crate.\n")):
            self.assertEqual(self.planted(HEAD, *rows), (0, "", ""))
            self.assertIn(said, read(self.top, "docs/planted.md"))

    def test_the_runs_of_a_crate_are_one_line(self):
        later = ROW.replace("2026-11-27", "2026-11-30").replace("all", "private functions")
        later = later.replace("\t\t2026", "\tone more\t2026")
        self.assertEqual(self.planted(HEAD, ROW, ROW.replace("a b", "c"), later), (0, "", ""))
        text = read(self.top, "docs/planted.md")
        self.assertIn("| `a`, `b` | 6 | 2 | 0 | 4 | 2026-11-30 | one more |\n"
                      "| `c` | 3 | 1 | 0 | 2 | 2026-11-27 |  |\n\n", text)

    def test_faults(self):
        for lines, said in ((["crate"], f": the columns are not {', '.join(planted_page.COLUMNS)}"),
                            ([HEAD, "a\tall"], ":2: 2 cells, not 9"),
                            ([HEAD, ROW.replace("3", "some")], ":2: some is no number of refused"),
                            ([HEAD, ROW.replace("it is slower", "")],
                             ":2: what is proved of a b has no reason that it is right")):
            self.assertEqual(self.planted(*lines), (1, "", f"bench/planted: bench/planted.tsv{said}\n"))
