"""Tests of bench/architecture, over the crates of theorem/small; architecture/architecture.svg is their picture."""
import os
import tempfile

from common import SMALL, TESTS, Case, lay_over, read, run, write
import crates
import picture

PICTURE = "docs/architecture.svg"
STALE = "bench/architecture: docs/architecture.svg is stale: run bench/architecture\n"


class Architecture(Case):
    def test_a_picture_is_written_and_checked(self):
        with tempfile.TemporaryDirectory() as copy:
            lay_over(SMALL, copy)
            self.assertEqual(run("pages architecture", "--check", "--top", copy), (1, "", STALE))
            self.assertEqual(run("pages architecture", "--top", copy), (0, "", ""))
            drawn = read(copy, PICTURE)
            self.assertEqual(drawn, read(TESTS, "architecture/architecture.svg"))
            self.assertEqual(run("pages architecture", "--check", "--top", copy), (0, "", ""))
            write(drawn + "\n", copy, PICTURE)
            self.assertEqual(run("pages architecture", "--check", "--top", copy), (1, "", STALE))

    def test_without_crates_it_says_so(self):
        with tempfile.TemporaryDirectory() as copy:
            path = os.path.join(copy, "crates.txt")
            self.assertEqual(run("pages architecture", "--top", copy),
                             (1, "", f"bench/architecture: [Errno 2] No such file or directory: '{path}'\n"))

    def test_the_storeys_are_kept(self):
        whole = read(SMALL, "crates.txt.text")
        for old, new, fault in (
                ("marks:\n", "marks: event_book\n", "marks uses event_book, which does not come before it"),
                ("text: marks\n", "text: marks text\n", "text uses text, which does not come before it"),
                ("## Rules", "## Node", "the storey Threads comes after Node"),
                ("## Threads", "## Tests", "kubelet_replay uses event_book, a crate of tests; "
                                           "crates.txt: the storey Program comes after Tests")):
            with self.subTest(new), tempfile.TemporaryDirectory() as copy:
                lay_over(SMALL, copy)
                write(whole.replace(old, new), copy, "crates.txt")
                for words in ((), ("--check",)):
                    self.assertEqual(run("pages architecture", *words, "--top", copy),
                                     (1, "", f"bench/architecture: crates.txt: {fault}\n"))

    def test_lines_and_folders_are_the_same(self):
        whole = read(SMALL, "crates.txt.text")
        twice = whole.replace("marks:\n", "marks:\nmarks:\n")
        for text, folder, fault in ((twice, None, "marks has 2 lines"), (whole, "attic", "crates/attic has no line"),
                                    (whole.replace("marks:\n", "marks:\nlost:\n"), None,
                                     "lost has no folder crates/lost")):
            with self.subTest(fault), tempfile.TemporaryDirectory() as copy:
                lay_over(SMALL, copy)
                write(text, copy, "crates.txt")
                if folder:
                    os.mkdir(f"{copy}/crates/{folder}")
                self.assertEqual(run("pages architecture", "--check", "--top", copy),
                                 (1, "", f"bench/architecture: crates.txt: {fault}\n"))

    def test_a_crate_without_threads_reaches_no_pool(self):
        for name, line in (("node_rounds", "node_rounds: pod_pool"), ("node_report", "node_report: tick_round")):
            text = ("## Threads\npod_pool:\n## Node\n" + ("node_rounds:\n" if name == "node_report" else "")
                    + ("tick_round: pod_pool\n" if name == "node_report" else "") + f"{line}\n")
            self.assertEqual(crates.faults_of_order(crates.crates_in(text)),
                             [f"crates.txt: {name} reaches pod_pool, which moves pods between threads"])

    def test_what_is_reached_through_others_is_left_out(self):
        below = {"a": [], "b": ["a"], "c": ["a", "b"], "d": ["a", "b", "c"], "e": ["a"]}
        self.assertEqual([picture.straight_below(name, below) for name in below], [[], ["a"], ["b"], ["c"], ["a"]])
