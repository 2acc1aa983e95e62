"""The tests of results of probes as the recorder counts them: their order between two looks, and answers that leave
some out."""

import re

import cases
from checks import expect, replayed
from into_plays import Into

from replay_tools.record.probes import grown, have_begun_anew, most_results, results_of

load_tests = cases.loaded(__name__)

BEGIN = 1767225600
LOOK = 5
SPEC = {"containers": [{"name": "app", "livenessProbe": {"periodSeconds": 1, "failureThreshold": 3}}]}


def found(growth, last, probe="liveness"):
    """The results that a probe had between two looks, by their first letters."""
    return "".join(each.result[0] for each in results_of(probe, growth, 1, 0, 10, last))


def test_order():
    """What a probe found last is first, since it goes on with it."""
    for growth, last, wanted in (({"success": 1, "failure": 1}, "success", "sf"),
                                 ({"success": 1, "failure": 1}, "failure", "fs"),
                                 ({"success": 2, "failure": 3, "unknown": 1}, "success", "ssfffu"),
                                 ({"success": 1, "failure": 1, "unknown": 1}, "unknown", "ufs"),
                                 ({"success": 1, "failure": 1}, None, "sf"), ({"failure": 2}, "success", "ff"),
                                 ({}, None, "")):
        expect(f"the order of {growth} behind {last}", found(growth, last), wanted)
    for probe in ("startup", "readiness"):
        expect(f"the order of the first results: {probe}", found({"success": 1, "failure": 2}, None, probe), "ffs")


def test_counts():
    """Counts began again where one of them fell, and there was time for all of them since; else what an answer leaves
    out stays."""
    for before, now, most, wanted in (({"success": 9}, {"success": 11, "failure": 2}, 3, (2, 2)),
                                      ({"success": 9, "failure": 4}, {"success": 10}, 3, (1, 0)),
                                      ({"success": 9, "failure": 1}, {"success": 1, "failure": 1}, 3, (1, 1)),
                                      ({"success": 9}, {"failure": 1}, 3, (0, 1)),
                                      ({"success": 9, "failure": 4}, {}, 3, (0, 0)), ({}, {"failure": 2}, 3, (0, 2))):
        growth = grown({} if have_begun_anew(before, now, most) else before, now)
        expect(f"counts from {before} to {now}", (growth["success"], growth["failure"]), wanted)
    expect("how many results there may be", (most_results(10, 20), most_results(1, -5)), (6, 13))


def play(killed):
    """A node whose container is killed for three failures in a row, and starts again at once."""
    return {"begin": BEGIN, "pods": {"shop/web": {"spec": SPEC}},
            "containers": [{"id": "w0", "pod": "shop/web", "name": "app", "attempt": 0, "created": -9.0,
                            "started": -8.0, "exited": killed, "code": 137},
                           {"id": "w1", "pod": "shop/web", "name": "app", "attempt": 1, "created": killed + 0.1,
                            "started": killed + 0.2}],
            "probes": [{"pod": "shop/web", "container": "app", "probe": "liveness", "result": "success",
                        "at": [*(at + 0.5 for at in range(-5, killed - 3)), *(killed + at for at in range(1, 20))]},
                       {"pod": "shop/web", "container": "app", "probe": "liveness", "result": "failure",
                        "at": [killed - 2.5, killed - 1.5, killed - 0.5]}],
            "samples": {"0": {"memory": 4294967296}}}


def test_kills_between_looks():
    """A kill is in the report wherever its failures lie among looks that are some seconds apart."""
    for killed in range(10, 10 + LOOK):
        into = Into(play(killed))
        status, trace, said = into.record("--look", str(LOOK), "--for", "35", "--standard")
        expect(f"a kill at {killed}: the recording", (status, said.count("\n")), (0, 1))
        report = replayed(trace)[1]
        expect(f"a kill at {killed}: the report", report.count(" app kill 0 liveness"), 1)
        into.clean()


def test_empty_answers():
    """An answer that has no counts is no sign that they began again."""
    left = ("record: shop/web app liveness: N results are more than there was time for since the last look, and are "
            "left out\n")
    for name, empty, wanted in (("once", [[5, 6]], ""), ("for long", [[5, 25]], ""), ("again", [[5, 6], [7, 9]], ""),
                                ("at the first look", [[0, 1]], left), ("as a pod comes", [[15, 25]], left)):
        script = play(1000)
        if name == "as a pod comes":
            # its source lists it late
            script["pods"]["shop/web"]["from"] = 15
        script["probes"][0]["at"] = [at + 0.5 for at in range(-400, 60)]
        script["probes"][1]["at"] = [at + 0.2 for at in range(-300, -290)]
        into = Into({**script, "empty": empty})
        status, trace, said = into.record("--for", "40", "--standard")
        said = "".join(f"{line}\n" for line in said.splitlines() if "inferred" not in line)
        expect(f"an empty answer {name}", (status, trace.count('"result":"failure"'),
                                           re.sub("[0-9]+ results", "N results", said)), (0, 0, wanted))
        into.clean()
