"""Tests of bench/start, over a small repository with an earlier commit."""
import os
import subprocess
import tempfile

from common import Case, read, run, write
from measures import start

EARLIER = "## Program\nkubelet_replay:\n"
NOW = ("## Base\nworker_count:\n## Program\nkubelet_replay: worker_count\n## Tests\n"
       "replay_workloads: anyhow kubelet_replay worker_count\ncalls_tests: kubelet_replay worker_count\n")


class Start(Case):
    def setUp(self):
        self.room = self.enterContext(tempfile.TemporaryDirectory())
        self.top = f"{self.room}/top"
        for crate in ("kubelet_replay", "worker_count", "replay_workloads", "calls_tests"):
            os.makedirs(f"{self.top}/crates/{crate}")
        os.makedirs(f"{self.top}/bench")
        write(EARLIER, self.top, "crates.txt")
        write("old", self.top, "bench/run")
        write("old", self.top, "crates/kubelet_replay/text")
        self.git("init", "--quiet")
        self.git("add", "--all")
        self.git("-c", "user.name=a", "-c", "user.email=a@b", "commit", "--quiet", "--message=first")
        self.commit = self.git("rev-parse", "HEAD").strip()
        write(NOW, self.top, "crates.txt")
        for path in ("bench/run", "crates/kubelet_replay/text", "crates/worker_count/text",
                     "crates/replay_workloads/text", "crates/calls_tests/text"):
            write("new", self.top, path)
        os.makedirs(f"{self.top}/crates/replay_workloads/out")

    def git(self, *words):
        return subprocess.run(["git", "-C", self.top, *words], check=True, capture_output=True, text=True).stdout

    def test_what_is_laid_over_the_start(self):
        folder = f"{self.room}/start"
        said = list(start.lay(self.top, folder, self.commit))
        self.assertEqual(said, [f"{folder}: the tree of {self.commit}", "over it: bench/ of this checkout",
                                "over it: crates/worker_count of this checkout, and its line of crates.txt",
                                "over it: crates/replay_workloads of this checkout, and its line of crates.txt"])
        self.assertEqual(read(folder, "crates.txt"), EARLIER + "worker_count:\n"
                         "replay_workloads: anyhow kubelet_replay worker_count\n")
        self.assertEqual([read(folder, path) for path in ("bench/run", "crates/kubelet_replay/text",
                                                          "crates/replay_workloads/text")], ["new", "old", "new"])
        self.assertEqual(os.listdir(f"{folder}/crates/replay_workloads"), ["text"])
        self.assertFalse(os.path.exists(f"{folder}/crates/calls_tests"))

    def test_a_folder_that_is_there(self):
        status, _, said = run("measure start", self.room)
        self.assertEqual((status, said), (2, f"bench/measure start: {self.room} is there already\n"))

    def test_words(self):
        for words, error in (((), "the following arguments are required: FOLDER"),
                             (("--prove",), "the following arguments are required: FOLDER"),
                             (("a", "b"), "unrecognized arguments: b")):
            self.assert_wrong(run("measure start", *words), "measure start", error)
