"""The tests of `why` with a program that has the command `causes`, for which a stand-in answers, and with one that is
too old to have it."""

import os
import shutil
import tempfile

import cases
from checks import HERE, TOOLS, TOP, expect, expect_kept, expect_refused, read, run

from replay_tools import program_causes, traces

load_tests = cases.loaded(__name__)

COMMAND = f"{TOOLS}/kubelet-replay"
TRACE, REPORT = f"{TOP}/examples/liveness_kill.trace", f"{TOP}/examples/liveness_kill.report"
CAUSES, WHY = f"{HERE}/causes/liveness_kill.causes", f"{HERE}/causes/liveness_kill.why"
TODAY = f"{HERE}/whys/liveness_kill/of_shop_web-0"
POD = "shop/web-0"


class Asked:
    """A folder with what the stand-in was asked."""

    def __enter__(self):
        self.folder = tempfile.mkdtemp()
        return self

    def __exit__(self, *_):
        shutil.rmtree(self.folder)

    def run(self, *words, given="", **settings):
        return run(words, given, **{"KUBELET_REPLAY": f"{HERE}/commands/with_causes", "REPORT": REPORT,
                                    "CAUSES": CAUSES, "ASKED_FOR": f"{self.folder}/asked"} | settings)

    def words(self):
        path = f"{self.folder}/asked"
        return read(path).splitlines() if os.path.exists(path) else []


def test_why_has_the_causes_of_the_program():
    with Asked() as asked:
        status, told, said = asked.run(COMMAND, "why", "-f", TRACE, POD)
        expect("why with causes", (status, said, asked.words()), (0, "", [f"causes /dev/stdin {POD}"]))
        expect_kept("why with causes: the text", told, WHY)


def test_a_folder_with_one_trace():
    with Asked() as asked:
        shutil.copy(TRACE, f"{asked.folder}/one.trace")
        told = asked.run(COMMAND, "why", "-f", asked.folder, POD)
        expect("why of a folder with one trace", told, (0, read(WHY), ""))
        expect("what was asked of it", asked.words(), [f"causes /dev/stdin {POD}"])


def test_the_extended_format():
    with Asked() as asked:
        with open(f"{asked.folder}/extended.trace", "w", encoding="utf-8") as file:
            file.write(read(TRACE).replace('"name":"worker-3"', '"name":"worker-3","version":3', 1))
        told = asked.run(COMMAND, "why", "-f", file.name, POD)
        expect("why of the extended format", told, (0, read(WHY), ""))
        expect("the words of its format", asked.words(), [f"causes /dev/stdin {POD} --extended"])


def test_a_program_that_is_too_old():
    """It is as if nobody had asked it. Of a report that was made before, it is not asked at all."""
    for status in "2", "3":
        with Asked() as asked:
            told = asked.run(COMMAND, "why", "-f", TRACE, POD, SAID="error: unrecognized subcommand 'causes'",
                             STATUS=status)
            expect(f"an older program, status {status}", (told, len(asked.words())), ((0, read(TODAY), ""), 1))
    with Asked() as asked:
        told = asked.run(f"{TOOLS}/why", POD, "--trace", TRACE, given=read(REPORT))
        expect("a report that is given", (told, asked.words()), ((0, read(TODAY), ""), []))


def test_faults_of_the_program():
    for said, status, wanted in (("out of memory", "1", 1), ("no pod shop/web-0", "3", 1),
                                 ("line 3: 43 Backwards", "2", 1), ("it is not there", "127", 127)):
        with Asked() as asked:
            expect_refused(f"the program: {said}", asked.run(COMMAND, "why", "-f", TRACE, POD, SAID=said,
                                                             STATUS=status),
                           wanted, f"the program can't show the causes of events: {said}")
    with Asked() as asked:
        expect_refused("an answer of another form", asked.run(COMMAND, "why", "-f", TRACE, POD, CAUSES=REPORT), 1,
                       "the program's answer can't be read: line 1 of the causes is of no known kind: node worker-3")
        with open(f"{asked.folder}/causes", "w", encoding="utf-8") as file:
            file.write(read(CAUSES).replace("listed pod=0", "listed pod=1", 1))
        expect_refused("causes of another trace", asked.run(COMMAND, "why", "-f", TRACE, POD, CAUSES=file.name), 1,
                       "the program's answer can't be read: the trace has no pod 1: because listed pod=1 attempt=0")


def test_several_traces_are_not_asked_for():
    """Each of them counts by itself, and pods have other numbers in each."""
    one, other = traces.read_trace(TRACE), traces.read_trace(TRACE)
    expect("the text of one trace", program_causes.text_of(one), read(TRACE).encode())
    one.ticks += other.ticks
    expect("the text of two", (program_causes.text_of(one), program_causes.causes_of(one, [])), (None, None))
