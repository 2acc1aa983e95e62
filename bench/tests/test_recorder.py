"""Tests of bench/recorder: the made-up node answers as the recorder reads it, and a short run measures."""
import json
import os
import shutil
import sys
import unittest

from common import TOP, Case, run

sys.path.insert(0, os.path.join(TOP, "tools"))
import quiet_node
from replay_tools.record.node import node_line_of
from replay_tools.record.pods import pods_of
from replay_tools.record.probes import counters_of
from replay_tools.record.runtime import inspected_of, instances_of
from replay_tools.record.summary import summary_of
from replay_tools.record.lines import extended

BEGUN = 1767225600
LINES = r"""30 pods, 3 s, no options
processor seconds a minute: [0-9.]+ of the recorder, [0-9.]+ of crictl
peak of memory: [0-9.]+ MB
an hour: [0-9.]+ MB of lines, [0-9]+ kB packed
"""


class Answers(Case):
    def test_the_recorder_reads_them(self):
        node, now = quiet_node.Node(3, BEGUN), BEGUN + 130
        instances = instances_of(json.dumps(node.ps(now)))
        self.assertEqual([(each.container, each.attempt, each.state[10:]) for each in instances],
                         [("app", 0, "RUNNING"), ("app", 0, "RUNNING"), ("app", 1, "EXITED"), ("app", 2, "RUNNING")])
        inspections = dict(node.inspections(now))
        ended = inspected_of(json.dumps(inspections[instances[2].id]), instances[2])
        self.assertEqual((ended.finished, ended.exit_code), (BEGUN + 40, 1))
        self.assertEqual([pod.fault for pod in pods_of(node.pods_answer(now), "pods")], [None] * 3)
        self.assertEqual(len(counters_of(node.probes(now))), 6)
        summary = summary_of(node.summary(now))
        self.assertEqual(len(summary.pods), 3)
        large = quiet_node.Node(250, BEGUN, 250)
        self.assertEqual(round(len(large.pods_answer(now)), -6), 7000000)
        line = node_line_of(node.configuration(now), "worker-1", summary, extended())
        self.assertEqual((line.notes, line.fields["evictionHard"]["nodefs.available"]), ([], "10%"))


class Measured(Case):
    @unittest.skipUnless(shutil.which("openssl"), "openssl is missing")
    def test_a_short_run(self):
        status, out, said = run("measure recorder", "3")
        self.assertEqual((status, said), (0, ""))
        self.assertRegex(out, f"^{LINES}$")

    def test_words(self):
        self.assert_wrong(run("measure recorder", "long"), "measure recorder",
                          "argument SECONDS: takes a whole number from 1, not 'long'")
