"""Tests of bench/gate: its parts with what was recorded, and the whole over theorem/small, where stand-ins take the
place of the gate, the kit and bench/ticks. gate/log has lines of a gate's log: the lines of proofs as a run of the kit
wrote them, with other names, the lines of edits and tests by the kit's words. gate/gate.md is the page for
gate/gate.tsv and gate/wrong_bodies.tsv."""
import os
import re
import shutil
import signal
import subprocess
import sys
import tempfile
import time

from common import LONGEST, SMALL, TESTS, TOP, Case, commands_in, lay_over, read, run, wait_until, write
import crates
import gate_figures
import gate_page
import processes
from gate_figures import Figure

HERE = os.path.join(TESTS, "gate")
LOG = read(HERE, "log")
NAMES = ["marks", "text", "grading", "event_book", "kubelet_replay"]
TICKS = " ticks  seconds\n  2000     0.04\n"
# works for some tenths of a second and holds 64 MiB
WORK = "import time; held = bytearray(64 << 20)\nwhile time.process_time() < 0.3: pass"
# what the kit is called with: a crate with edits without them first, and then with them
RUNS = ["ci marks", "ci marks, its edits", "ci text", "ci grading", "ci grading, its edits", "ci event_book",
        "ci kubelet_replay"]
# the kit: of text and of the edits of marks it works, and of grading it has kept an edit
KIT = f"""\
#!/bin/sh
[ "$1" != version ] || {{ echo kit; exit; }}
top=${{0%/kit/*}}
[ -d crates ] && [ -d .git ] && [ "$PWD" != "$top" ] || exit 9
said="rt: $2 proved"
if [ -d "crates/$2/must-fail" ]; then
    edits=', its edits'
    said="rt: must-fail $2/0.edit: refused"
    [ "$2" != grading ] || grep grading: "$top/log"
fi
echo "$*${{edits-}}" >>"$top/out/ran"
case " ${{FAILS-}} " in *" $2 "*) echo 'rt: it is not proved'; echo '0 passed, 1 failed'; exit 1 ;; esac
case " ${{WAITS-}} " in *" $2 "*) echo $$ >"$top/out/pid.$2"; mv "$top/out/pid.$2" "$top/out/waits.$2"
                               exec sleep 50 ;; esac
case " ${{MEETS-}} " in *" $2 "*)
    : >"$top/out/here.$2"
    for other in $MEETS; do
        looks=0
        until [ -e "$top/out/here.$other" ]; do looks=$((looks + 1)); [ "$looks" -lt 500 ] || exit 8; sleep 0.02; done
    done ;;
esac
case " ${{KEPT-}} " in *" $2 "*) ;; *) echo "$said" ;; esac
case " ${{BOTH-}} " in *" $2 "*) echo "rt: marks proved" ;; esac
case $2${{edits-}} in text | marks,*) {sys.executable} -S -c '{WORK}' ;; esac
echo '1 passed, 0 failed'
"""
GATE = """\
#!/bin/sh
[ -d .git ] || exit 9
cat log
exit "${GATE_ENDS:-0}"
"""
# shows of which program it is asked
REPLAYS = f"#!/bin/sh\n[ $# = 0 ] || [ \"${{1##*/}}\" = replay_program ] || exit 9\nprintf '{TICKS}'\n"
GIT = ["git", "-c", "user.name=tests", "-c", "user.email=tests@example.com", "-c", "commit.gpgsign=false",
       "-c", "core.hooksPath=/dev/null"]


def git(top, *words):
    done = subprocess.run([*GIT, *words], cwd=top, stdin=subprocess.DEVNULL, stdout=subprocess.PIPE, text=True,
                          check=True)
    return done.stdout.strip()


def small(top):
    """A checkout with figures, and with stand-ins for the kit, the gate and bench/ticks."""
    lay_over(SMALL, top)
    shutil.copytree(os.path.join(TOP, "bench"), os.path.join(top, "bench"),
                    ignore=shutil.ignore_patterns("tests", "__pycache__"))
    for name in "gate.tsv", "wrong_bodies.tsv":
        shutil.copy(os.path.join(HERE, name), os.path.join(top, "bench"))
    shutil.copy(os.path.join(HERE, "log"), top)
    for name, edits in (("marks", 2), ("grading", 1)):
        os.makedirs(f"{top}/crates/{name}/must-fail")
        for edit in range(edits):
            write("", f"{top}/crates/{name}/must-fail/{edit}.edit")
    for folder in "kit", "out", "docs":
        os.makedirs(f"{top}/{folder}", exist_ok=True)
    for path, text in (("test", GATE), ("kit/rt", KIT), ("bench/ticks", REPLAYS), ("kit/hyperfine", "#!/bin/sh\n")):
        write(text, top, path)
        os.chmod(os.path.join(top, path), 0o755)
    write("out/\n", top, ".gitignore")
    git(top, "init", "--quiet")
    git(top, "add", ".")
    git(top, "commit", "--quiet", "--message", "all")


def settings_of(top, settings):
    """The stand-ins of the kit come first; temporary folders are in one that is looked at."""
    os.makedirs(f"{top}/out/room", exist_ok=True)
    return {**os.environ, "PATH": f"{top}/kit:{os.environ['PATH']}", "TMPDIR": f"{top}/out/room", **settings}


def gate(top, *words, **settings):
    done = subprocess.run([f"{top}/bench/gate", *words], capture_output=True, text=True, check=False, timeout=LONGEST,
                          env=settings_of(top, settings))
    return done.returncode, done.stdout, done.stderr


class Words(Case):
    def test_what_is_missing_is_said(self):
        with tempfile.TemporaryDirectory() as room:
            path = commands_in(room, "python3", "env")
            for command, said in (("rt", "the Rattle kit is missing: put its command rt on the PATH"),
                                  ("cc", "a C compiler (cc) is missing; the gate needs it"),
                                  ("git", "git is missing; it makes the clone")):
                self.assertEqual(run("measure gate", "marks", PATH=path), (127, "", f"bench/measure gate: {said}\n"))
                os.symlink("/bin/true", os.path.join(path, command))
            for words in ((), ("--costs",)):
                self.assertEqual(run("measure gate", *words, PATH=path), (
                    127, "", "bench/measure gate: hyperfine is missing: apt-get install hyperfine; it measures the seconds\n"))

    def test_words_that_are_none(self):
        with tempfile.TemporaryDirectory() as top:
            small(top)
            self.assertEqual(gate(top, "marks", "nothing"), (2, "", "bench/measure gate: there is no crate nothing\n"))
            self.assertEqual(gate(top, "--again", "nothing"), (2, "", "bench/measure gate: there is no crate nothing\n"))
            number = "argument --jobs: takes a whole number from 1 to 9, not '{}'"
            for words, error in (
                    (("--all",), "unrecognized arguments: --all"), (("--jobs",), "argument --jobs: expected one argument"),
                    (("--jobs", "0"), number.format(0)), (("--jobs", "12"), number.format(12)),
                    (("--jobs", "2", "--page"), "argument --page: not allowed with argument --jobs"),
                    (("--jobs", "2", "--again"), "argument --again: not allowed with argument --jobs"),
                    (("--again", "--costs"), "argument --costs: not allowed with argument --again")):
                self.assert_wrong(gate(top, *words), "measure gate", error)
            self.assertEqual(gate(top, "--page", "marks"), (
                2, "", "bench/measure gate: --page, --costs and --beside take no NAME\n"))


class Figures(Case):
    def test_what_a_log_says_was_proved(self):
        self.assertEqual(gate_figures.proved_in(LOG), (
            {"marks", "text", "kubelet_replay"}, {"marks", "text"}))
        self.assertEqual(gate_figures.proved_in("rt: a proved\nrt: a: 1 of its 2 must-fail edits were tried by an "
                                                "earlier run on this machine\n"), ({"a"}, set()))
        self.assertEqual(gate_figures.proved_in("rt: no such thing\n== marks proved\n"), (set(), set()))

    def test_figures_are_kept(self):
        with tempfile.TemporaryDirectory() as top:
            small(top)
            below, found = crates.below_of(top), gate_figures.read_figures(top)
            self.assertEqual(found["marks"], Figure(90.0, 175.5, 900000000, 60.5, "3 passed, 0 failed", "0123456789",
                                                    "kit", "4 processors, 24 GB", 5.5))
            self.assertEqual((found["text"].edits, found["grading"].edits), (0.0, None))
            self.assertEqual((found["text"].again, found["./test"].again), (2.0, None))
            for name in ["./test", *NAMES]:
                gate_figures.keep(top, below, name, found[name])
            self.assertEqual(read(top, "bench/gate.tsv"), read(HERE, "gate.tsv"))
            # one that is not a crate any more has none
            gate_figures.keep(top, [name for name in below if name != "marks"], "text", found["text"])
            self.assertEqual([*gate_figures.read_figures(top)], [*NAMES[1:], "./test"])

    def test_no_figures_are_none(self):
        with tempfile.TemporaryDirectory() as top:
            self.assertEqual(gate_figures.read_figures(top), {})

    def test_the_longest_chain(self):
        below = {"a": [], "b": ["a"], "c": ["a"], "d": ["b", "c"]}
        found = {name: Figure(0, spent, 0, edits, "", "", "", "")
                 for name, spent, edits in (("a", 1, 0), ("b", 5, None), ("c", 9, 3), ("d", 2, 0))}
        self.assertEqual(gate_figures.longest_chain(found, below), (9, ["a", "c", "d"]))
        # nothing waits for edits
        found["c"] = found["c"]._replace(edits=5)
        self.assertEqual(gate_figures.longest_chain(found, below), (8, ["a", "b", "d"]))
        del found["b"]
        self.assertEqual(gate_figures.longest_chain(found, below), (7, ["a", "c", "d"]))

    def test_what_runs_again_is_no_part_of_the_gate(self):
        below = {"a": [], "b": ["a"]}
        found = {name: Figure(0, spent, 0, edits, "", "", "", "", again)
                 for name, spent, edits, again in (("a", 20, 8, 3), ("b", 50, 0, 7), ("./test", 11, 0, None))}
        self.assertEqual([found[name].ran_again() for name in found], [6, 7, 0])
        self.assertEqual([found[name].waited_for() for name in "ab"], [9, 43])
        self.assertEqual(gate_figures.gate_seconds(found, below), 20 - 6 + 50 - 7 + 11)
        for name in found:
            self.assertIsNone(gate_figures.gate_seconds({it: found[it] for it in found if it != name}, below))
        found["a"] = found["a"]._replace(again=None)
        self.assertIsNone(gate_figures.gate_seconds(found, below))
        self.assertEqual((found["a"].ran_again(), found["a"].waited_for()), (0, 12))

    def test_edits_are_a_part(self):
        proof = Figure(10, 12, 500, 0, "2 passed, 0 failed", "0123456789", "kit", "machine")
        tried = Figure(30, 48, 400, 0, "5 passed, 0 failed", "0123456789", "kit", "machine")
        both = proof.with_edits(tried)
        self.assertEqual(both, Figure(40, 60, 500, 48, "5 passed, 0 failed", "0123456789", "kit", "machine"))
        self.assertEqual((proof.waited_for(), both.waited_for(), both._replace(edits=None).waited_for()), (12, 12, 60))


class Page(Case):
    def setUp(self):
        self.top = self.enterContext(tempfile.TemporaryDirectory())
        small(self.top)

    def text(self):
        return gate_page.text_of(self.top, crates.below_of(self.top), gate_figures.read_figures(self.top),
                                 gate_page.replays(TICKS))

    def test_the_page_of_given_figures(self):
        self.assertEqual(self.text(), read(HERE, "gate.md"))
        self.assertLessEqual(max(map(len, self.text().splitlines())), 120)

    def test_a_crate_without_figures(self):
        rows = read(HERE, "gate.tsv").splitlines(keepends=True)
        write("".join(row for row in rows if not row.startswith(("grading", "./test"))), self.top, "bench/gate.tsv")
        text = " ".join(self.text().split())
        self.assertIn("Not measured, and not in the sums: grading.", text)
        self.assertIn("`./test` was not measured after them.", text)
        self.assertIn("| grading | 0 | 14 | 0 | 1 | - | - | - | - | - |", text)
        self.assertIn("The longest chain takes 8.1 processor minutes without edits: marks (1.8), text (0.6), "
                      "kubelet_replay (5.7).", text)
        self.assertNotIn("From nothing", text)

    def test_what_has_changed_since(self):
        head = git(self.top, "rev-parse", "--short=10", "HEAD")
        figures = read(HERE, "gate.tsv").replace("0123456789", head).replace("abcdef0123", head)
        write(figures, self.top, "bench/gate.tsv")
        write("//! Grades.\n", self.top, "crates/grading/README.md")
        os.makedirs(f"{self.top}/crates/text/src")
        write("//! Sheets.\n", self.top, "crates/text/src/lib.rt")
        git(self.top, "add", ".")
        git(self.top, "commit", "--quiet", "--message", "sheets")
        rows = re.findall(r"(?m)^\| (\w+) \|.* GB \| ([^|]+) \|$", self.text())
        self.assertEqual(rows, [("marks", "no"), ("text", "itself"), ("grading", "no"), ("event_book", "no"),
                                ("kubelet_replay", "below"), ("all", "-")])

    def test_no_crate_stands_on_the_mutants_of_another(self):
        head = git(self.top, "rev-parse", "--short=10", "HEAD")
        figures = read(HERE, "gate.tsv").replace("0123456789", head).replace("abcdef0123", head)
        write(figures, self.top, "bench/gate.tsv")
        os.makedirs(f"{self.top}/crates/text/must-fail", exist_ok=True)
        write("file: src/lib.rt\n", self.top, "crates/text/must-fail/empty_sheet.edit")
        git(self.top, "add", ".")
        git(self.top, "commit", "--quiet", "--message", "a mutant")
        rows = re.findall(r"(?m)^\| (\w+) \|.* GB \| ([^|]+) \|$", self.text())
        self.assertEqual(rows, [("marks", "no"), ("text", "itself"), ("grading", "no"), ("event_book", "no"),
                                ("kubelet_replay", "no"), ("all", "-")])

    def test_beside_a_table_before(self):
        first = git(self.top, "rev-parse", "--short=10", "HEAD")
        figures = read(HERE, "gate.tsv").replace("0123456789", first).replace("abcdef0123", first)
        write(figures, self.top, "bench/gate.tsv")
        git(self.top, "commit", "--quiet", "--all", "--message", "figures")
        before = git(self.top, "rev-parse", "HEAD")
        os.makedirs(f"{self.top}/crates/text/src")
        write("//! Sheets.\n", self.top, "crates/text/src/lib.rt")
        git(self.top, "add", ".")
        git(self.top, "commit", "--quiet", "--message", "sheets")
        second = git(self.top, "rev-parse", "--short=10", "HEAD")
        for name, spent in (("marks", "351.0"), ("text", "404.0"), ("event_book", "15.0")):
            figures = re.sub(rf"(?m)^({name}\t[\d.]+\t)[\d.]+(\t.*){first}", rf"\g<1>{spent}\g<2>{second}", figures)
        write(figures, self.top, "bench/gate.tsv")
        status, told, said = gate(self.top, "--beside", before)
        self.assertEqual((status, said), (0, ""))
        self.assertEqual(" ".join(told.split()), (
            "4 crates whose own files are as they were then (marks, grading, event_book, kubelet_replay) took 10.6 "
            "processor minutes there and 13.6 here, 1.28 times as much, single ones 1.00 to 2.00 times. By that the "
            "20.4 minutes of all are 15.9 of those, the 30.0 of `./test` from nothing 23.3, and the 17.1 of the "
            "longest chain 13.4."))
        write(re.sub(r"(?m)\t[^\t]+$", "", figures), self.top, "bench/gate.tsv")
        self.assertIn("By that the 20.4 minutes of all are 15.9 of those, and the 17.6 of the longest chain 13.7.",
                      " ".join(gate(self.top, "--beside", before)[1].split()))
        for none in "0123456789", f"{before}~1^{{tree}}":
            self.assertEqual(gate(self.top, "--beside", none), (
                1, "", "bench/measure gate: no crate in both tables is unchanged\n"))

    def test_costs_alone_are_written_anew(self):
        page = read(HERE, "gate.md")
        old = page.replace("| 73 |", "| 99 |").replace("0.04", "0.05")
        self.assertNotEqual(old, page)
        self.assertEqual(gate_page.with_costs(old, self.top, TICKS), page)

    def test_edits_that_nobody_has_tried(self):
        os.makedirs(f"{self.top}/crates/marks/wrong-bodies/untried")
        write("", self.top, "crates/marks/wrong-bodies/untried/a.edit")
        said = ("\n\nNot in the table: 1 edit is in `crates/NAME/wrong-bodies/untried/`, since nobody has tried it in its "
                "present form: 1 of\n`marks`.\n\n| Crate |")
        self.assertIn(said, self.text())
        self.assertIn(said, gate_page.with_costs(self.text(), self.top, TICKS))

    def test_without_a_shelf_nothing_is_said_of_it(self):
        os.remove(f"{self.top}/bench/wrong_bodies.tsv")
        text = self.text()
        self.assertNotIn("Mutants outside", text)
        self.assertEqual(gate_page.with_costs(text.replace("0.04", "0.05"), self.top, TICKS), text)


class Whole(Case):
    def setUp(self):
        self.top = self.enterContext(tempfile.TemporaryDirectory())
        small(self.top)
        self.old = gate_figures.read_figures(self.top)

    def new(self):
        """The names of which the figures are others now."""
        found = gate_figures.read_figures(self.top)
        return [name for name in found if found[name] != self.old.get(name)]

    def ran(self):
        """The words that the kit was called with, each run of it in a clone that is gone now."""
        self.assertEqual(os.listdir(f"{self.top}/out/room"), [])
        path = f"{self.top}/out/ran"
        return read(path).splitlines() if os.path.exists(path) else []

    def page(self):
        return os.path.exists(f"{self.top}/docs/gate.md")

    def lines(self, told):
        """What it printed of each command, by name."""
        return dict(line.split(": ", 1) for line in told.splitlines())

    def test_a_gate_that_passes(self):
        began = time.monotonic()
        status, told, said = gate(self.top)
        self.assertEqual((status, said), (0, ""))
        self.assertTrue(told.endswith(": 104 passed, 0 failed\ndocs/gate.md is written\n"), told)
        self.assertEqual(self.ran(), RUNS)
        # of grading the kit had kept an edit
        self.assertEqual(self.new(), ["marks", "text", "event_book", "kubelet_replay", "./test"])
        self.assertIn("\ngrading: not measured, since the kit had kept it, or parts of it\n", told)
        new = gate_figures.read_figures(self.top)
        self.assertTrue(0.2 < new["text"].spent < 2 * (time.monotonic() - began), new)
        self.assertGreater(new["text"].seconds, 0.2)
        self.assertGreater(new["text"].peak, 64 << 20)
        self.assertTrue(0.2 < new["marks"].edits <= new["marks"].spent, new)
        self.assertEqual((new["text"].edits, new["text"].last, new["./test"].last),
                         (0.0, "1 passed, 0 failed", "104 passed, 0 failed"))
        self.assertEqual(new["text"].on(), (git(self.top, "rev-parse", "--short=10", "HEAD"), "kit",
                                            processes.machine()))
        self.assertEqual((read(self.top, "out/gate.log"), read(self.top, "out/gate/marks.log"),
                          read(self.top, "out/gate/marks.edits.log")),
                         (LOG, "rt: marks proved\n1 passed, 0 failed\n",
                          "rt: must-fail marks/0.edit: refused\n1 passed, 0 failed\n"))
        page = read(self.top, "docs/gate.md")
        self.assertIn(f"Of 5 crates 4 were proved again at the commit `{new['text'].commit}`.", " ".join(page.split()))
        self.assertIn("\n      2000     0.04\n", page)

    def test_two_commands_at_once(self):
        status, told, said = gate(self.top, "--jobs", "2", MEETS="marks event_book")
        self.assertEqual((status, said, sorted(self.ran())), (0, "", sorted(RUNS)))
        self.assertEqual(sorted(self.new()), sorted(["marks", "text", "event_book", "kubelet_replay", "./test"]))
        ran = self.ran()
        for first, later in (("ci marks", "ci text"), ("ci marks", "ci marks, its edits"),
                             ("ci marks, its edits", "ci grading, its edits"),
                             ("ci text", "ci kubelet_replay"), ("ci grading", "ci kubelet_replay")):
            self.assertLess(ran.index(first), ran.index(later))
        self.assertIn(f" The machine: {processes.machine()}, 2 commands at once; the kit: `kit`. ",
                      " ".join(read(self.top, "docs/gate.md").split()))

    def test_what_runs_again(self):
        gate(self.top, "--jobs", "2")
        os.remove(f"{self.top}/out/ran")
        self.old = gate_figures.read_figures(self.top)
        # a crate of which something is proved, and one whose figures are of a commit that there is not
        status, told, said = gate(self.top, "--again", KEPT="marks text event_book")
        self.assertEqual((status, said, self.ran()), (
            0, "", ["ci marks, its edits", "ci text", "ci event_book", "ci kubelet_replay"]))
        lines = self.lines(told)
        self.assertEqual((lines["grading"], lines["kubelet_replay"]), (
            "not measured, since its figures are of other sources or of another machine",
            "not measured, since this was proved: kubelet_replay"))
        self.assertEqual(self.new(), ["marks", "text", "event_book"])
        new = gate_figures.read_figures(self.top)
        self.assertEqual(new["text"]._replace(again=None), self.old["text"])
        self.assertTrue(0.2 < new["text"].again < 20, new)
        self.assertEqual(lines["text"], f"{new['text'].again:.1f} processor s again")
        self.assertEqual(read(self.top, "out/gate/text.again.log"), "1 passed, 0 failed\n")
        # two of them, of which one has changed
        os.makedirs(f"{self.top}/crates/text/src")
        write("//! Sheets.\n", self.top, "crates/text/src/lib.rt")
        git(self.top, "add", ".")
        git(self.top, "commit", "--quiet", "--message", "sheets")
        os.remove(f"{self.top}/out/ran")
        _, told, _ = gate(self.top, "--again", "text", "event_book", KEPT="text event_book")
        self.assertEqual((self.ran(), self.lines(told)["text"]), (["ci event_book"], lines["grading"]))

    def test_a_gate_goes_on_behind_what_it_measured(self):
        gate(self.top, FAILS="event_book")
        self.assertEqual(self.ran(), RUNS[:6])
        os.remove(f"{self.top}/out/ran")
        status, told, _ = gate(self.top)
        self.assertEqual((status, self.ran()), (0, RUNS[3:]))
        self.assertEqual(self.lines(told.rpartition("docs")[0])["text"], "measured at this commit")
        # another commit may have changed them
        git(self.top, "add", ".")
        git(self.top, "commit", "--quiet", "--message", "more")
        os.remove(f"{self.top}/out/ran")
        gate(self.top)
        self.assertEqual(self.ran(), RUNS)

    def test_what_the_kit_has_kept_has_the_figures_of_before(self):
        status, told, said = gate(self.top, KEPT=" ".join(NAMES))
        self.assertEqual((status, said, self.new()), (0, "", ["./test"]))
        self.assertEqual(self.lines(told.rpartition("docs")[0])["kubelet_replay"],
                         "not measured, since the kit had kept it, or parts of it")
        self.assertIn("Of 5 crates 0 were proved again", " ".join(read(self.top, "docs/gate.md").split()))

    def test_a_run_that_proves_others_too_is_no_figure_of_the_crate(self):
        _, told, _ = gate(self.top, "text", BOTH="text", KEPT="marks")
        self.assertEqual((self.lines(told)["text"], self.new()), (
            "not measured, since others were proved with it: marks", []))

    def test_a_crate_that_fails(self):
        status, told, said = gate(self.top, FAILS="text")
        self.assertEqual((status, [*self.lines(told)], said), (
            1, ["marks"], "bench/measure gate: rt ci text ended with 1, so docs/gate.md stays as it was: out/gate/text.log "
                          "has the reason\n"))
        self.assertEqual((self.ran(), self.new(), self.page()), (RUNS[:3], ["marks"], False))
        self.assertEqual(read(self.top, "out/gate/text.log"), "rt: it is not proved\n0 passed, 1 failed\n")

    def test_a_whole_gate_that_fails(self):
        status, _, said = gate(self.top, GATE_ENDS="1", KEPT=" ".join(NAMES))
        self.assertEqual((status, said), (
            1, "bench/measure gate: ./test ended with 1, so docs/gate.md stays as it was: out/gate.log has the reason\n"))
        self.assertEqual((self.ran(), self.new(), self.page()), (RUNS, [], False))

    def test_a_run_that_is_ended(self):
        for words, waits, number, ends in (((), "text", signal.SIGTERM, 143), ((), "text", signal.SIGINT, 130),
                                           (("--jobs", "2"), "text event_book", signal.SIGTERM, 143),
                                           (("--jobs", "2"), "text event_book", signal.SIGINT, 130)):
            marks = [f"{self.top}/out/waits.{name}" for name in waits.split()]
            with subprocess.Popen([f"{self.top}/bench/gate", *words], stdout=subprocess.PIPE, stderr=subprocess.PIPE,
                                  # what a shell begins in the background ignores an interrupt
                                  preexec_fn=lambda: signal.signal(signal.SIGINT, signal.default_int_handler),
                                  env=settings_of(self.top, {"WAITS": waits, "KEPT": "grading"})) as gate_:
                while not all(map(os.path.exists, marks)) and gate_.poll() is None:
                    time.sleep(0.01)
                gate_.send_signal(number)
                _, said = gate_.communicate(timeout=LONGEST)
            self.assertEqual((gate_.returncode, said), (ends, b""))
            self.assertEqual((self.new(), self.page()), (["marks"], False))
            self.assertIn("ci text", self.ran() if words else self.ran()[-1:])
            for mark in marks:
                waited = int(read(mark))
                wait_until(lambda waited=waited: not os.path.exists(f"/proc/{waited}"))
                os.remove(mark)

    def test_some_crates_and_those_below_them(self):
        status, told, said = gate(self.top, "kubelet_replay", "text", GATE_ENDS="1")
        below = crates.below_of(self.top)
        wanted = [name for name in NAMES if name == "text" or name in crates.standing_below(below, "kubelet_replay")]
        self.assertEqual((status, said), (0, ""))
        self.assertEqual(self.ran(), [it for it in RUNS if it.split()[1].rstrip(",") in wanted])
        self.assertEqual(([*self.lines(told)], self.page()), (wanted, False))

    def test_changes_that_are_not_committed(self):
        said = "bench/measure gate: the checkout has changes that are not committed, which a clone would not have\n"
        write("text", self.top, "new")
        self.assertEqual(gate(self.top), (2, "", said))
        os.remove(f"{self.top}/new")
        write("text", self.top, "crates.txt.part")
        self.assertEqual(gate(self.top, "marks"), (2, "", said))
        self.assertEqual((self.ran(), self.new()), ([], []))
        # its own files may be others
        os.remove(f"{self.top}/crates.txt.part")
        write("page", self.top, "docs/gate.md")
        write(read(HERE, "gate.tsv") + "\n", self.top, "bench/gate.tsv")
        self.assertEqual(gate(self.top, "marks")[0], 0)

    def test_no_checkout(self):
        shutil.rmtree(f"{self.top}/.git")
        status, told, said = gate(self.top, GIT_CEILING_DIRECTORIES=os.path.dirname(self.top))
        self.assertEqual((status, told, said.splitlines()[-1]), (2, "", "bench/measure gate: this is no checkout of git"))

    def test_costs(self):
        page = read(HERE, "gate.md")
        write(page.replace("0.04", "0.05"), self.top, "docs/gate.md")
        self.assertEqual((gate(self.top, "--costs"), read(self.top, "docs/gate.md")), (
            (0, "docs/gate.md is written\n", ""), page))
        self.assertEqual(self.ran(), [])

    def test_costs_that_cannot_be_measured(self):
        write("page", self.top, "docs/gate.md")
        write("#!/bin/sh\nexit 1\n", self.top, "bench/ticks")
        self.assertEqual((gate(self.top, "--costs"), read(self.top, "docs/gate.md")), (
            (1, "", "bench/measure gate: bench/ticks failed, so docs/gate.md stays as it was\n"), "page"))

    def test_the_page_alone(self):
        page = read(HERE, "gate.md")
        write(page.replace("2.9 GB", "3.3 GB"), self.top, "docs/gate.md")
        os.remove(f"{self.top}/kit/rt")
        write("#!/bin/sh\nexit 1\n", self.top, "bench/ticks")
        self.assertEqual((gate(self.top, "--page"), read(self.top, "docs/gate.md")), (
            (0, "docs/gate.md is written\n", ""), page))
        os.remove(f"{self.top}/docs/gate.md")
        gate(self.top, "--page")
        self.assertEqual(read(self.top, "docs/gate.md"), page.partition(gate_page.REPLAYS)[0])
        self.assertEqual(self.ran(), [])

    def test_a_page_without_figures(self):
        write(read(HERE, "gate.tsv").splitlines(keepends=True)[0], self.top, "bench/gate.tsv")
        self.assertEqual((gate(self.top, "--page"), self.page()), (
            (1, "", "bench/measure gate: bench/gate.tsv has no figures yet: bench/gate measures them\n"), False))
