"""The tests of completion by the shells themselves: the words that each passes to the command, and what it offers."""

import os
import re
import shlex
import shutil
import tempfile

import cases
from checks import TOOLS, TOP, expect, expect_kept, run

from replay_tools.cli import completion, definition, powershell

load_tests = cases.loaded(__name__)

COMMAND = f"{TOOLS}/kubelet-replay"
TRACE = f"{TOP}/examples/memory_pressure.trace"
PODS = "default/a default/b default/c"
# lines up to the cursor, and what the last argument may become
LINES = (
    ("kubelet-replay st", "story"),
    ("kubelet-replay story -f TRACE default/", PODS),
    ("kubelet-replay story -f 'FOLDER/node a.trace' default/", PODS),
    ("kubelet-replay story -f FOLDER/node\\ a.trace default/", PODS),
    ("kubelet-replay story -f ~/a.trace default/", PODS),
    ("kubelet-replay story -f TRACE --at 2026-11-27T03:10Z default/", PODS),
    ("kubelet-replay run -f TRACE --fail-on evicted,", "evicted,restarted evicted,unready"),
    ("kubelet-replay run --fail-on=r", "OPTIONrestarted"))
IN_BASH = """
source '{tools}/completion/kubelet-replay.bash'
COMP_LINE={line} COMP_POINT=${{#COMP_LINE}} COMP_WORDS=(kubelet-replay) COMP_CWORD=0
_kubelet_replay
printf '%s\\n' "${{COMPREPLY[@]}}"
"""
# what zsh has only while it completes
IN_ZSH = """
compadd() {{ print -l -- "${{(@P)2}}"; }}
compset() {{ option=1; }}
offered() {{ source '{tools}/completion/_kubelet-replay'; }}
line={line}
words=(${{(z)line}}) CURRENT=${{#words}}
offered
"""
IN_FISH = "source '{tools}/completion/kubelet-replay.fish'; complete -C {line}"


def offered(shell, script, line, folder):
    """What a shell offers for the last argument of a line."""
    written = script.format(tools=TOOLS, line=shlex.quote(line))
    status, out, said = run([shell, "-c", written], PATH=f"{TOOLS}:{os.environ['PATH']}", HOME=folder)
    return status, " ".join(out.split()), said


def test_shells_complete():
    with tempfile.TemporaryDirectory() as folder:
        for name in ("node a.trace", "a.trace"):
            shutil.copy(TRACE, f"{folder}/{name}")
        for shell, script in (("bash", IN_BASH), ("zsh", IN_ZSH), ("fish", IN_FISH)):
            if shutil.which(shell) is None:
                print(f"left out: completion in {shell}, since that is missing")
                continue
            for line, wanted in LINES:
                # fish replaces the whole argument, the others what follows the option
                candidates = wanted.replace("OPTION", "--fail-on=" if shell == "fish" else "")
                typed = line.replace("TRACE", TRACE).replace("FOLDER", folder)
                expect(f"{shell}: {line}", offered(shell, script, typed, folder), (0, candidates, ""))


def test_words_of_a_line():
    for line, words in (("kubelet-replay ", [""]), ("kubelet-replay st", ["st"]), ("kubelet-replay story -f 'a b", [
            "story", "-f", "a b"]), ('kubelet-replay story -f "a b', ["story", "-f", "a b"]), (
            "kubelet-replay story -f a\\ b ", ["story", "-f", "a b", ""]), ("", [])):
        expect(f"words of {line}", completion.words_of_line(line), words)
    expect("the command takes a line", run([COMMAND, "__complete_line", "kubelet-replay st"]), (0, "story\n:4\n", ""))


def test_powershell():
    """The script is the one that is made of the specification, and has its commands and options, each once."""
    path = f"{TOOLS}/completion/kubelet-replay.ps1"
    expect_kept("the completion of PowerShell", powershell.text(), path)
    with open(path, encoding="utf-8") as file:
        tables = dict(re.findall(r"(?m)^\$kubeletReplay(?:Commands|Options\['([-\w]+)'\]) = \[ordered\]@\{\n(.*?)^\}",
                                 file.read(), re.S))
    found = {name: re.findall(r"(?m)^    '([-\w]+)' = '(?:[^'\n]|'')+'$", rows) for name, rows in tables.items()}
    expect("commands in PowerShell", found.pop(""), list(definition.COMMANDS))
    expect("commands with options in PowerShell", list(found), list(definition.COMMANDS))
    for name, names in found.items():
        wanted = set()
        for subcommand in definition.COMMANDS[name].subcommands or (None,):
            given = [name, "-"] if subcommand is None else [name, subcommand, "-"]
            wanted.update(run([COMMAND, "__complete", *given])[1].split()[:-1])
        expect(f"{name}: options in PowerShell", sorted(names), sorted(wanted))
        # its tables know no capitals
        expect(f"{name}: options that differ in capitals alone", len({each.lower() for each in names}), len(names))
