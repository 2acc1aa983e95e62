"""An import takes little of a processor for pods of which no line speaks, and for what stays as it is."""

import contextlib
import cProfile
import io
import os
import pstats
import subprocess
import sys
import tempfile

import cases
from checks import TOOLS, expect
from imported_lines import Journal

from replay_tools import tree

load_tests = cases.loaded(__name__)

FEW, MANY, HOUR = 10, 60, 3600
# calls of functions for each pod that is there for an hour. An import that checks each pod once a minute takes 4,155,
# and 5,559 where it reads each line of a folder again. One that checks each pod in each tick takes 1,718
MOST_ALONE, MOST_INTO = 1200, 1500
# what finds and reads traces, which an import doesn't
NEEDLESS = "replay_tools.plugin.files", "replay_tools.traces", "replay_tools.report"


class Output(io.TextIOWrapper):
    """In place of standard output, which the importer gives bytes."""

    def __init__(self):
        super().__init__(io.BytesIO(), encoding="utf-8")


def journal_of(pods):
    """Pods that start and run on, while the probe of the first one fails now and then."""
    made = Journal(True)
    made.say(0, "Started kubelet")
    for number in range(pods):
        made.name, made.uid = f"web-{number}", f"11111111-2222-3333-4444-{number:012}"
        made.loop(10, "ADD")
        for at, identity in ((12, f"{number:064x}"), (13, f"e{number:063x}")):
            made.say(at, f'SyncLoop (PLEG): "{made.placed}", event: &pleg.PodLifecycleEvent{{ID:"{made.uid}", '
                         f'Type:"ContainerStarted", Data:"{identity}"}}')
    for at in range(20, HOUR, 20):
        made.say(at, 'Readiness probe for "web-0_shop(11111111-2222-3333-4444-000000000000):app" failed (failure): no')
    return "".join(line for _, line in made.lines)


def calls_of(pods, *words):
    """How many calls of functions an import takes."""
    with tempfile.TemporaryDirectory() as folder:
        with open(f"{folder}/journal", "w", encoding="utf-8") as file:
            file.write(journal_of(pods))
        profile = cProfile.Profile()
        with contextlib.redirect_stdout(Output()), contextlib.redirect_stderr(io.StringIO()) as said:
            profile.runcall(tree.run, "import", [
                "--year", "2026", "--node", "n1", "--journal", f"{folder}/journal",
                *(word.replace("FOLDER", folder) for word in words)])
        count = len(os.listdir(f"{folder}/into")) if words else 0
    return pstats.Stats(profile).total_calls, said.getvalue(), count


def test_work_of_an_import():
    """A pod that stays as it is takes few calls for each tick that has it."""
    for name, most, words in (("one trace", MOST_ALONE, ()), ("into a folder", MOST_INTO, ("--into", "FOLDER/into"))):
        few, _, _ = calls_of(FEW, *words)
        many, said, count = calls_of(MANY, *words)
        expect(f"{name}: what is said", f"{MANY} pods" in said, True)
        expect(f"{name}: traces", count > 0, bool(words))
        each = (many - few) // (MANY - FEW)
        expect(f"{name}: {each} calls for each pod", each < most, True)


def test_modules_of_an_import():
    """An import starts without the modules that find and read traces, which take longer than a short journal."""
    script = ("import sys; sys.path.insert(0, sys.argv[1]); from replay_tools import tree; "
              "tree.run('import', ['--year', '2026', '--node', 'n1']); "
              f"print(*[name for name in {NEEDLESS} if name in sys.modules], file=sys.stderr)")
    done = subprocess.run([sys.executable, "-c", script, TOOLS], input=journal_of(1).encode(), capture_output=True,
                          check=False)
    expect("modules of an import", (done.returncode, done.stderr.decode().split("\n")[-2]), (0, ""))
