"""Tests of bench/import_journals: the journals that a seed settles, and the whole with stand-ins of the program."""
import collections
import glob
import json
import os
import re
import tempfile
from unittest import mock

from common import COMMANDS, Case, run, write
import node_journals
from tries import import_journals


class Journals(Case):
    def test_a_seed_settles_the_journals(self):
        made = [node_journals.journals_of(1, number) for number in range(40)]
        self.assertEqual(made, [node_journals.journals_of(1, number) for number in range(40)])
        self.assertNotEqual(made, [node_journals.journals_of(2, number) for number in range(40)])

    def test_what_they_are_of(self):
        kinds = collections.Counter()
        for number in range(300):
            _, what = node_journals.journals_of(3, number)
            kinds.update(what.split())
        self.assertEqual({f"-v={level}" for level in range(5)} - set(kinds), set())
        self.assertEqual({*node_journals.ERAS, *node_journals.RUNTIMES} - set(kinds), set())

    def test_what_they_have(self):
        """Each kind of line is in one of them, in the form of its era."""
        texts = [node_journals.journals_of(4, number)[0] for number in range(300)]
        of_kubelet = "".join(files.get("kubelet", "") for files in texts)
        of_runtime = "".join(files.get("runtime", "") for files in texts)
        for words in ("SyncLoop (ADD", "SyncLoop ADD", "PodLifecycleEvent", "event for pod", "CrashLoopBackOff",
                      "RunContainerError", "Patch status", "evicted successfully", "Shutdown manager",
                      "Predicate failed", "Pod admission denied", "preemption: pod", "Probe failed",
                      "Readiness probe", "DeadlineExceeded"):
            self.assertIn(words, of_kubelet)
        for words in ("RunPodSandbox", "shim disconnected", "received exit event", "Stopped container"):
            self.assertIn(words, of_runtime)
        for files in texts:
            if "pods" in files:
                self.assertEqual(json.loads(files["pods"])["kind"], "PodList")

    def test_a_process_that_ended_says_nothing_more(self):
        made = 0
        for number in range(100):
            files, _ = node_journals.journals_of(6, number)
            found = re.findall(r'(?:^|")[IE][0-9]{4} \S+ +([0-9]+) ', files.get("kubelet", ""), re.M)
            self.assertEqual(found, sorted(found))
            made += len(set(found)) > 1
        self.assertGreater(made, 20)

    def test_a_level_leaves_out_what_is_above_it(self):
        for number in range(100):
            files, what = node_journals.journals_of(5, number)
            if "-v=0" in what or "-v=1" in what:
                self.assertNotIn("SyncLoop", files.get("kubelet", ""))


class Whole(Case):
    def answered(self, program, *words):
        with tempfile.TemporaryDirectory() as room:
            write(program, room, "program")
            os.chmod(f"{room}/program", 0o755)
            answer = run("try import_journals", *words, KUBELET_REPLAY=f"{room}/program", TMPDIR=room)
            return answer, sorted(map(os.path.basename, glob.glob(f"{room}/import-*")))

    def test_a_program_that_takes_them(self):
        (status, said, fault), kept = self.answered("#!/bin/sh\nexit 0\n", "--jobs", "2", "--into-every", "3", "6", "3")
        self.assertEqual((status, fault, kept), (0, "", []))
        self.assertRegex(said, r"(?s)^written: \d+  -v=.*nothing to import: \d+.*\n6 journals of seed 3 in \d+ "
                               r"seconds; 0 failed\n$")

    def test_a_program_that_does_not(self):
        (status, said, fault), kept = self.answered("#!/bin/sh\necho 'line 3: 41 Doubled' >&2\nexit 2\n", "4", "3")
        self.assertEqual((status, fault), (1, ""))
        self.assertIn("check: line 3: 41 Doubled; its files are ", said)
        self.assertEqual(len(kept), int(re.search(r"; (\d+) failed\n$", said)[1]))

    def test_words(self):
        answer = run("try import_journals", "0", KUBELET_REPLAY=f"{COMMANDS}/replay")
        self.assert_wrong(answer, "try import_journals", "argument COUNT: takes a whole number from 1, not '0'")
        self.assertEqual(run("try import_journals", "1", KUBELET_REPLAY="/nowhere"), (
            2, "", "bench/try import_journals: there is no program /nowhere\n"))


class Faults(Case):
    def test_an_import_that_fails(self):
        with tempfile.TemporaryDirectory() as room:
            for text, fault in (("echo traceback >&2; exit 1", ""), ("exit 3", "status 3: "),
                                ("echo a >&2; echo b >&2; exit 1", "status 1: a\nb")):
                write(f"#!/bin/sh\n{text}\n", room, "import")
                os.chmod(f"{room}/import", 0o755)
                with mock.patch.object(import_journals, "IMPORT", f"{room}/import"):
                    self.assertEqual(import_journals.imported([], f"{room}/trace"), (fault, False))
