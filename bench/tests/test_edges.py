"""Tests of bench/edges, where stand-ins take the place of the program."""
import contextlib
import io
import json
import os
import tempfile
from types import SimpleNamespace
from unittest import mock

from common import COMMANDS, Case, run, write
from edges_texts import FAULTS, MEBIBYTE, NODE, NODE_3, Text, texts
from edges_traces import STEP, Edge, report_parts, trace_lines
from tries import edges

SMALL = Edge(1, 8, periods=(4,))
TRACE = """\
{"kind":"node","name":"n1","maxRestartDelay":10}
{"kind":"pod","pod":{"metadata":{"name":"p0","namespace":"n"},"spec":{"containers":[{"name":"c0"}]}}}
{"kind":"tick","at":10,"pods":[{"pod":"n/p0","containers":[{"name":"c0","attempt":0,"state":1}]}]}
{"kind":"tick","at":20,"pods":[{"pod":"n/p0","containers":[{"name":"c0","attempt":0,"state":1}]}]}
{"kind":"tick","at":30,"pods":[{"pod":"n/p0","containers":[{"name":"c0","attempt":0,"state":2,"exitCode":1}]}]}
{"kind":"tick","at":40,"pods":[{"pod":"n/p0","containers":[{"name":"c0","attempt":0,"state":2,"exitCode":1}]}]}
{"kind":"tick","at":50,"pods":[{"pod":"n/p0","containers":[{"name":"c0","attempt":1,"state":1}]}]}
{"kind":"tick","at":60,"pods":[{"pod":"n/p0","containers":[{"name":"c0","attempt":1,"state":1}]}]}
{"kind":"tick","at":70,"pods":[{"pod":"n/p0","containers":[{"name":"c0","attempt":1,"state":2,"exitCode":1}]}]}
{"kind":"tick","at":80,"pods":[{"pod":"n/p0","containers":[{"name":"c0","attempt":1,"state":2,"exitCode":1}]}]}
"""
REPORT = """\
node n1 pods=1 ticks=8
event 10 n/p0 c0 started 0
event 10 n/p0 c0 ready
event 10 n/p0 - phase Running
event 30 n/p0 c0 died 0 1
event 30 n/p0 c0 unready
event 30 n/p0 c0 restart 0
event 50 n/p0 c0 started 1
event 50 n/p0 c0 ready
event 70 n/p0 c0 died 1 1
event 70 n/p0 c0 unready
event 70 n/p0 c0 backoff 10
event 80 n/p0 c0 restart 1
pod 0 n/p0 phase=Running reason=- qos=BestEffort
condition 0 PodScheduled True 10
condition 0 Initialized True 10
condition 0 ContainersReady False 70
condition 0 Ready False 70
container 0 c0 state=Terminated code=1 restarts=1 ready=false started=false
nodecondition MemoryPressure False 10
nodecondition DiskPressure False 10
nodecondition PIDPressure False 10
totals updates=8 events=12 orders=2
"""
WAITING = """\
node n1 pods=1 ticks=2
pod 0 n/p0 phase=Pending reason=- qos=BestEffort
condition 0 PodScheduled True 10
condition 0 Initialized True 10
condition 0 ContainersReady False 10
condition 0 Ready False 10
container 0 c0 state=Waiting code=- restarts=0 ready=false started=false
nodecondition MemoryPressure False 10
nodecondition DiskPressure False 10
nodecondition PIDPressure False 10
totals updates=2 events=0 orders=0
"""
LONGEST_INPUT, LONGEST_LINE, LONG_RUN = 64 << 20, 1 << 20, 600
# a stand-in finds the report next to the trace
KNOWN = '#!/bin/sh\n[ "$1 $3" = "run --workers" ] && cat "${2%trace}report"\n'
EDGES = edges.EDGES
SIZES = [f"pods=1 ticks=8 containers=1: {len(TRACE)} bytes, 8 updates, 12 events",
         "pods=2 ticks=3 containers=1: 355 bytes, 6 updates, 0 events"]


class Traces(Case):
    def test_a_trace_and_its_report(self):
        self.assertEqual("".join(line + "\n" for line in trace_lines(SMALL)), TRACE)
        self.assertEqual("".join(report_parts(SMALL)), REPORT)

    def test_pods_of_which_nothing_is_listed(self):
        edge = Edge(1, 2)
        self.assertEqual(list(trace_lines(edge))[2:], [
            '{"kind":"tick","at":10,"pods":[]}', '{"kind":"tick","at":20,"pods":[]}'])
        self.assertEqual("".join(report_parts(edge)), WAITING)

    def test_restarts_that_never_come(self):
        lines = "".join(report_parts(Edge(3, 12, 2, (2, 3), exited=1))).splitlines()
        restarts = [line for line in lines if line.startswith("event") and " restart " in line]
        self.assertEqual(restarts, [f"event {at} n/p{pod} c{number} restart 0"
                                    for at, pods in ((20, (0, 2)), (30, (1,))) for pod in pods for number in (0, 1)])
        self.assertEqual(lines[-1], "totals updates=36 events=163 orders=6")

    def test_counts_are_those_of_the_lines(self):
        for edge in (SMALL, Edge(5, 24, 3, (3, 4, 6)), Edge(2, 4, 1, (2,), 1), *(edge for edge, _ in EDGES)):
            events = orders = 0
            for part in report_parts(edge):
                events += part.count("event ")
                orders += part.count(" restart ")
            self.assertEqual((events, orders), (edge.events(), edge.orders()), edge)

    def test_the_limits(self):
        for edge, _ in EDGES:
            for period in edge.periods:
                self.assertEqual(edge.ticks % period, 0, edge)
                self.assertTrue(edge.exited < period < LONG_RUN / STEP, edge)
            size = 0
            for line in trace_lines(edge):
                size += len(line) + 1
                self.assertLessEqual(len(line), LONGEST_LINE, edge)
            self.assertLessEqual(size, LONGEST_INPUT, edge)
            self.assertTrue(edge.pods <= 256 and edge.ticks <= 20_000 and edge.containers <= 16, edge)
        for line in trace_lines(Edge(2, 3, 2, (3,))):
            json.loads(line)
        self.assertGreater(max(edge.events() for edge, _ in EDGES), 1_000_000)
        self.assertEqual(max(edge.pods * edge.ticks for edge, _ in EDGES), 256 * 20_000)


def all_texts():
    return {text.name: text for text in texts()}


class Texts(Case):
    """What the texts are, and that what is reported of them is of their lines."""

    def test_each_has_a_name_and_one_answer(self):
        self.assertEqual(len(all_texts()), len(list(texts())))
        for text in texts():
            self.assertNotEqual(bool(text.said), bool(text.report), text.name)
            self.assertEqual(text.words, ("--extended",) if text.parts[0] == NODE_3 else (), text.name)
            self.assertTrue(text.said or text.report.startswith("node n1 pods="), text.name)

    def test_long_lines(self):
        longest = {name: max(map(len, "".join(text.parts).split("\n"))) - MEBIBYTE
                   for name, text in all_texts().items() if "mebibyte" in name or "byte more" in name}
        self.assertEqual(longest, {
            "node line of a mebibyte": 0, "node line of a byte more": 1, "blanks of a byte more": 1,
            "no JSON in a mebibyte": 0, "no JSON in a byte more": 1})

    def test_first_faults(self):
        faults, seen = dict(FAULTS), set()
        for text in texts():
            if text.said and text.name.startswith("fault after"):
                number, kind = text.said.removeprefix("line ").split(": ")
                lines = "".join(text.parts).splitlines()
                line = lines[int(number) - 1]
                self.assertEqual((kind, lines[int(number)]), (faults[line], "{"), text.name)
                self.assertIn(len(lines[2 if number != "3" else 4]), (149, 1499), text.name)
                seen.add(line)
        self.assertEqual(seen, set(faults))

    def test_faults_in_the_last_lines(self):
        for name, behind in (("tick of a pod that has left", 0), ("tick of a pod before its line", 1),
                             ("tick of the container of a pod that left", 0), ("a tick more than 20,000", 0),
                             ("a stranger after one of 256 pods in each tenth tick", 0)):
            text = all_texts()[name]
            lines = "".join(text.parts).splitlines()
            self.assertTrue(text.said.startswith(f"line {len(lines) - behind}: "), name)

    def test_events_and_updates_are_those_of_the_lines(self):
        for text in texts():
            if text.report:
                lines = [json.loads(line) for line in "".join(text.parts).splitlines() if line.strip()]
                told = text.report.splitlines()
                pods, ticks = (int(number.split("=")[1]) for number in told[0].split()[2:])
                self.assertEqual(ticks, sum(line["kind"] == "tick" for line in lines), text.name)
                # in the standard format a pod without an entry is updated too
                updates = sum(len(line.get("pods", ())) for line in lines) if text.words else pods * ticks
                events = sum(line.startswith("event ") for line in told)
                orders = sum(line.startswith("event ") and " restart " in line for line in told)
                self.assertEqual(told[-1], f"totals updates={updates} events={events} orders={orders}", text.name)

    def test_pods_that_pass(self):
        text = all_texts()['pods that pass, in lines that begin with {"note":"tick",']
        self.assertEqual("".join(text.parts).splitlines()[8:11], [
            '{"note":"tick","kind":"gone","pod":"default/p0"}',
            '{"kind":"tick","at":4,"pods":[' + ",".join(
                f'{{"pod":"default/p{pod}","containers":[{{"name":"c","state":1}}]}}' for pod in (1, 2, 3)) + "]}",
            '{"note":"tick","kind":"pod","pod":{"metadata":{"name":"p4"},"spec":{"containers":[{"name":"c"}]}}}'])
        self.assertIn("\ncontainer 0 c state=Running code=- restarts=0 ready=true started=true\n", text.report)


class Edges(Case):
    """bench/edges over small traces and texts."""

    def setUp(self):
        self.room = self.enterContext(tempfile.TemporaryDirectory())
        self.enterContext(mock.patch.object(edges, "EDGES", ((SMALL, (1, 64)), (Edge(2, 3), (4,)))))
        self.give_texts()

    def give_texts(self, *given):
        self.enterContext(mock.patch.object(edges, "texts", lambda: given))

    def ran(self, text):
        """The status of the script, and what it prints, over a stand-in."""
        program = f"{self.room}/program"
        write(text, program)
        os.chmod(program, 0o755)
        with contextlib.redirect_stdout(io.StringIO()) as said:
            status = edges.main(SimpleNamespace(program=program))
        return status, said.getvalue().splitlines()

    def test_reports_that_are_known(self):
        self.assertEqual(self.ran(KNOWN), (0, [*SIZES, "3 runs at the limits, 0 otherwise than expected"]))

    def test_a_report_that_differs(self):
        self.assertEqual(self.ran(KNOWN + '[ "$4" != 64 ] || echo more\n'), (1, [
            "pods=1 ticks=8 containers=1 --workers 64: line 24 is b'more\\n', not b''",
            *SIZES, "3 runs at the limits, 1 otherwise than expected"]))

    def test_a_report_that_is_cut_short(self):
        status, said = self.ran(KNOWN.replace("cat", "head -n 3"))
        self.assertEqual((status, said[-1]), (1, "3 runs at the limits, 3 otherwise than expected"))
        self.assertEqual(said[3], "pods=2 ticks=3 containers=1 --workers 4: line 4 is b'', not "
                                  "b'condition 0 Initialized True 10\\n'")

    def test_memory_that_is_refused(self):
        self.assertEqual(self.ran('#!/bin/sh\necho out of memory >&2\nexit 1\n'), (1, [
            *(f"pods=1 ticks=8 containers=1 --workers {workers}: status 1, 'out of memory'" for workers in (1, 64)),
            SIZES[0], "pods=2 ticks=3 containers=1 --workers 4: status 1, 'out of memory'", SIZES[1],
            "3 runs at the limits, 3 otherwise than expected"]))

    def test_texts_with_a_report_and_with_a_fault(self):
        self.give_texts(Text("a node", (NODE,), report="node n1\n", workers=(1, 2)),
                        Text("no JSON", ("{",), "line 1: 32 NotJson", words=("--extended",), workers=(3,)))
        answered = KNOWN + 'grep -q kind "$2" || { echo "line 1: 32 NotJson" >&2; exit 2; }\n'
        self.assertEqual(self.ran(answered), (0, [*SIZES, "6 runs at the limits, 0 otherwise than expected"]))
        self.assertEqual(self.ran(answered.replace("NotJson", "Order")), (1, [
            *SIZES, "no JSON --workers 3 --extended: status 2, 'line 1: 32 Order'",
            "6 runs at the limits, 1 otherwise than expected"]))
        self.assertEqual(self.ran(KNOWN), (1, [
            *SIZES, "no JSON --workers 3 --extended: status 0, ''", "6 runs at the limits, 1 otherwise than expected"]))
        self.assertEqual(self.ran(answered.replace(">&2", ">&2; echo more")), (1, [
            *SIZES, "no JSON --workers 3 --extended: line 1 is b'more\\n', not b''",
            "6 runs at the limits, 1 otherwise than expected"]))

    def test_words(self):
        for words in (("--all",), ("/bin/true", "/bin/false")):
            self.assert_wrong(run("try edges", *words), "try edges", f"unrecognized arguments: {words[-1]}")
        self.assertEqual(run("try edges", "/nowhere"), (2, "", "bench/try edges: there is no program /nowhere\n"))

    def test_the_whole_script(self):
        status, said, fault = run("try edges", f"{COMMANDS}/replay")
        self.assertEqual((status, fault), (1, ""))
        runs = sum(len(workers) for _, workers in EDGES) + sum(len(text.workers) for text in texts())
        self.assertEqual(said.splitlines()[-1], f"{runs} runs at the limits, {runs} otherwise than expected")
