"""The tests of kubelet-replay, the one command of the program and the tools: its words, its helps, and its
completion."""

import gzip
import importlib
import os
import pty
import re
import shutil
import subprocess
import sys
import tempfile

import cases
from checks import HERE, REPLAY, TOOLS, TOP, WRITE, copy_package, expect, expect_refused, read, run

from replay_tools import entry
from replay_tools.cli import definition, help, options, table
from replay_tools.cli.statuses import Status
from replay_tools.fleet import worst
from replay_tools.importing import files as import_files, program as import_program
from replay_tools.plugin import failing
from replay_tools.record import lines, words as recorder_words

load_tests = cases.loaded(__name__)

COMMAND = f"{TOOLS}/kubelet-replay"
# what the plugin adds where it is kubectl's
CONTEXT = "--context"
NAMES = ("record", "run", "check", "explain", "story", "why", "page", "timeline", "json", "what-if", "import",
         "fleet", "fetch", "nodes")
TRACE, REPORT = (f"{TOP}/examples/memory_pressure.{kind}" for kind in ("trace", "report"))


def test_command_runs_the_tools():
    """A pod needs no namespace, and a trace no replay before it."""
    report = read(REPORT)
    story = run([f"{TOOLS}/story", "default/a"], report)
    told = run([f"{TOOLS}/story", "default/a", "--trace", TRACE, "--without-why"], report)
    for words, wanted in (
        ("run TRACE", run([REPLAY, "run", TRACE])),
        ("check TRACE", run([REPLAY, "check", TRACE])),
        ("story -f TRACE a", told),
        ("story a", story),
        ("story -n default -f TRACE a", told),
        ("story -f TRACE", run([f"{TOOLS}/story", "--trace", TRACE], report)),
        ("why -f TRACE a", run([f"{TOOLS}/why", "default/a", "--trace", TRACE], report)),
        ("page -f TRACE", run([f"{TOOLS}/page", TRACE], report)),
        ("json -f TRACE", run([f"{TOOLS}/json", "--trace", TRACE], report)),
    ):
        expect(f"kubelet-replay {words}", run([COMMAND, *words.replace("TRACE", TRACE).split()], report), wanted)
    expect_refused("kubelet-replay plot", run([COMMAND, "plot"]), 2, "plot is no known command; the nearest is ")
    expect_refused("kubelet-replay story --context far", run([COMMAND, "story", "--context", "far"], report), 2,
                   "--context is no known argument")
    expect_refused("kubelet-replay story of another pod", run([COMMAND, "story", "-f", TRACE, "default/aa"]), 2,
                   "no pod default/aa; the nearest: default/a")


def test_what_a_start_imports():
    """What a tool does not need for what it is asked does not make its start longer."""
    heavy = ("replay_tools.record.", "replay_tools.joined.parts", "replay_tools.cluster", "replay_tools.explain",
             "concurrent.futures", "tempfile", "sqlite3", "difflib")

    def imported(*words):
        status, _, said = run([sys.executable, "-X", "importtime", *words], read(REPORT))
        return status, {line.rpartition("|")[2].strip() for line in said.split("\n")}

    by_itself = imported("-c", "pass")[1]
    of_help = ("replay_tools.traces", "replay_tools.plugin", "replay_tools.fleet", "subprocess", "argparse", "json")
    for words, more in ((["story", "--help"], of_help), (["fleet", "--help"], of_help), (["--help"], of_help),
                        (["kubelet-replay", "run", "--help"], of_help), (["json", "--help"], of_help)):
        status, names = imported(f"{TOOLS}/replay_tools/__main__.py", *words)
        expect(f"{' '.join(words)} imports what it needs", (status, "replay_tools.entry" in names, [
            name for name in names - by_itself if name.startswith((*heavy, *more))]), (0, True, []))


def python_with_pip():
    """A python3 that can install a package without asking an index, or None."""
    for python in (sys.executable, "/usr/bin/python3"):
        if os.path.exists(python) and run([python, "-c", "import setuptools, wheel, pip"])[0] == 0:
            return python
    return None


def test_the_package():
    """Installed by pip it is an ordinary package with console scripts, which print what the tools print."""
    python = python_with_pip()
    if python is None:
        print("left out: the package, since pip, setuptools or wheel is missing")
        return
    folder = tempfile.mkdtemp()
    os.makedirs(f"{folder}/top/tools")
    shutil.copy(f"{TOP}/pyproject.toml", f"{folder}/top")
    copy_package(f"{folder}/top")
    made = run([python, "-m", "pip", "install", "--quiet", "--no-build-isolation", "--no-index", "--no-deps",
                "--target", f"{folder}/there", f"{folder}/top"])
    expect("pip installs the package", made[0], 0)
    for words in (["story", "default/a"], ["page"], ["json"], ["--version"], ["--help"], ["__complete", "st"]):
        answer = run([python, f"{folder}/there/bin/kubelet-replay", *words], read(REPORT), PYTHONPATH=f"{folder}/there")
        status, told, said = run([COMMAND, *words], read(REPORT))
        # a checkout has the changes next to it, and shows what no release has
        wanted = (status, told.replace(entry.UNRELEASED, ""), said) if words == ["--version"] else (status, told, said)
        expect(f"kubelet-replay {words[0]} as a package", answer, wanted)
    shutil.rmtree(folder)


def test_one_specification():
    """The parser takes the options of the specification, and no other; completion offers them, and the help has them
    with their defaults. Older forms of an option are in the manual alone."""
    for command in definition.COMMANDS.values():
        for subcommand in command.subcommands or (None,):
            own = [option for option in command.options_of(subcommand) if not option.is_of_kubectl]
            words = [command.name, *([subcommand] if subcommand else [])]
            completed = set(run([COMMAND, "__complete", *words, "--"])[1].split()[:-1]) - {CONTEXT}
            shown = [option for option in own if not option.is_hidden]
            expect(f"{words} completes its options", completed, {
                name for option in shown for name in option.names if name.startswith("--")})
            told = run([COMMAND, command.name, "--help"])[1]
            left_out = [name for option in shown for name in option.names if name not in told]
            defaults = [option.default for option in shown if option.default and f"({option.default})" not in told
                        and option.default not in told]
            expect(f"the help of {words} has its options and their defaults", (left_out, defaults), ([], []))
            details = importlib.import_module(f"replay_tools.manual.{command.module}").TEXT
            expect(f"the manual of {words} has the others", [
                option.names for option in own if option.is_hidden and option.names[-1] not in details
                and option.names != options.EVERYWHERE.names], [])
        usage = re.findall(r"--[a-z][a-z-]*", " ".join(command.usage))
        names = {name for option in command.options for name in option.names}
        expect(f"the usage of {command.name} has no other options", sorted({*usage} - names), [])


def test_record_takes_its_options():
    """The recorder takes its arguments itself: the options of the specification, and no other."""
    names = {name: option.value for option in definition.COMMANDS["record"].options for name in option.names}
    expect("the options of record with a value", {name for name, value in names.items() if value},
           {*recorder_words.TEXTS})
    expect("the options of record without one", {name for name, value in names.items() if not value},
           {*recorder_words.SWITCHES})
    expect("the default format of record", "(--standard)" in run([COMMAND, "record", "--help"])[1],
           not lines.DEFAULT.says_gone)
    with tempfile.TemporaryDirectory() as folder:
        given = ["--node", "n1", "--into", folder]
        defaults = [word for option in definition.COMMANDS["record"].options if option.default and option.names != (
            "--node",) for word in (option.names[0], option.default)]
        expect("the defaults of record", recorder_words.words_of([*given, *defaults]), recorder_words.words_of(given))


def test_import_takes_its_defaults():
    """The importer applies some defaults itself, and they are the defaults of the specification."""
    defaults = {option.names[0]: option.kind(option.default) if option.kind else option.default
                for option in definition.COMMANDS["import"].options if option.default}
    expect("the defaults of import", defaults, {"--most": import_files.MOST, "--each": 3600,
                                                "--since": import_program.SINCE, "--timeout": import_program.SECONDS})


def test_fleet_has_its_measures():
    """The measures of the specification are the measures of the tool's table, and so is what --fail-on finds."""
    expect("the measures of fleet", tuple(worst.MEASURES), definition.MEASURES)
    expect("what --fail-on finds", tuple(failing.FOUND), definition.KINDS)


def test_table_of_commands():
    """tools/README.md has the table that is made of the specification."""
    path = f"{TOOLS}/README.md"
    text = read(path)
    begin, end = text.index(table.BEGIN), text.index(table.END)
    made = text[:begin] + table.text() + text[end:]
    if WRITE:
        with open(path, "w", encoding="utf-8") as file:
            file.write(made)
        text = made
    expect("the table of tools/README.md", text, made)


def test_exit_statuses():
    """Each status that a help names is of the one list, and each means the same in all commands."""
    for command in (*definition.COMMANDS.values(), *definition.ENTRIES.values()):
        told = help.text_of(help.parts_of_command(command) if hasattr(command, "lines") else
                            help.parts_of_entry(command))
        named = re.search(r"\nExit status: ((?:.|\n)*?)\.\n", told)[1].replace("\n", " ")
        expect(f"the statuses of {command.name}", [int(each) for each in re.findall(r"(?:^|, )(\d+) ", named)],
               [status.value for status in command.exits])
    for words, given, status in ((["story", "-f", REPORT], "", Status.DONE), (["story", "--no"], "", Status.BAD_INPUT),
                                 (["what-if", "."], "{}\n", Status.MISSING)):
        settings = {"KUBELET_REPLAY": "/nonexistent/program"} if status is Status.MISSING else {}
        expect(f"status of {words}", run([COMMAND, *words], given, **settings)[0], status)


def test_what_cannot_be_read():
    """A file that can't be read is of status 2, as the help has it; one whose name is not UTF-8 can."""
    folder = os.fsencode(tempfile.mkdtemp())
    odd = folder + b"/\xff.trace"
    shutil.copy(TRACE, odd)
    os.mkdir(folder + b"/empty")
    for name in (folder + b"/none", folder + b"/empty", folder + b"/\xfe.trace"):
        for words in (["run"], ["check"], ["run", "--fail-on", "evicted"]):
            answer = run([COMMAND, *words, name])
            expect(f"kubelet-replay {' '.join(words)} {name}", (answer[0], answer[1], "Traceback" in answer[2]),
                   (2, "", False))
    expect("run of a name that is not UTF-8", run([COMMAND, "run", odd]), (0, read(REPORT), ""))
    expect("story of a name that is not UTF-8", run([COMMAND, "story", "default/a", "-f", odd]),
           run([COMMAND, "story", "default/a", "-f", TRACE]))
    shutil.rmtree(folder)


def test_unknown_options():
    """An option that a command does not take is a bad word of status 2, with the nearest that it takes."""
    for words, near in ((["run", "--workrs", "2"], "--workers"), (["check", "--extend"], "--extended"),
                        (["story", "--sinse", "2h"], "--since"), (["why", "--nodee=n1"], "--node"),
                        (["page", "--trases", "x"], "--traces"), (["explain", "--lin"], "--line"),
                        (["run", "--fail-om", "evicted"], "--fail-on"), (["timeline", "--secondz"], "--seconds"),
                        (["fleet", "worst", "x", "--tops", "3"], "--top"),
                        (["nodes", "--recorder", "x"], "--recorders"),
                        (["fetch", "n1", "--intoo", "x"], "--into"), (["json", "--sqlit", "x"], "--sqlite"),
                        (["record", "--nodee", "n1"], "--node"), (["import", "--jurnal", "x"], "--journal"),
                        (["fleet", "run", "x", "--outt", "y"], "--out"), (["what-if", "--timout"], "--timeout")):
        answer = run([COMMAND, *words, *([TRACE] if words[0] in ("run", "check") else [])])
        name = next(word for word in words if word.startswith("-")).partition("=")[0]
        expect(f"kubelet-replay {' '.join(words)}", (answer[0], answer[1], name in answer[2], answer[2].count("\n"),
                                                     re.search(f"the nearest is {near}[ \n]", answer[2]) is not None),
                   (2, "", True, 1, True))


def test_unknown_arguments():
    """A command, a subcommand or an argument that isn't one is of status 2, and the nearest is named; kubectl replay
    with a workload asks no cluster then."""
    for words, given, near in (
        (["stry"], "stry", "the nearest is story"), (["fetsh", "n1"], "fetsh", "the nearest is fetch"),
        (["fleet", "rum"], "rum", "the nearest is run"), (["fleet", "plot"], "plot", "there are run, worst"),
        (["help", "chek"], "chek", "the nearest is check"), (["nodes", "worker-3"], "worker-3", "(see --help)"),
        (["json", "-f", REPORT, "web"], "web", "(see --help)"), (["zzz"], "zzz", "there are record, import, nodes"),
    ):
        for command in (COMMAND, f"{TOOLS}/kubectl-replay"):
            answer = run([command, *words])
            expect(f"{command} {words}", (answer[:2], answer[2].count("\n"), f": {given} is no known " in answer[2],
                                          near in answer[2]), ((2, ""), 1, True, True))
    for words in ("story deploy/web --sinse 10m", "why sts/db --kubeconfig X --nodee n1",
                  "page deploy/web --attt 03:10Z", "json -l app=web --recorder x", "timeline deploy/web --utcc"):
        answer = run([f"{TOOLS}/kubectl-replay", *words.split()], PATH=f"{HERE}/commands:{os.environ['PATH']}")
        [name] = [word for word in words.split() if word in ("--sinse", "--nodee", "--attt", "--recorder", "--utcc")]
        expect(f"kubectl replay {words}", (answer[0], answer[1], f"kubectl-replay: {name} is no known argument; the "
                                           "nearest is --" in answer[2]), (2, "", True))
    answer = run([COMMAND, "story", "deploy/web", "--context", "far"])
    expect_refused("kubelet-replay story --context", answer, 2, "kubectl replay takes kubectl's options")


def test_one_way_to_name_traces():
    """Each command takes a file, a folder and standard input by -f; of several traces run, check and explain show
    each."""
    folder = tempfile.mkdtemp()
    names = ("crash_loop", "memory_pressure")
    for name in names:
        shutil.copy(f"{TOP}/examples/{name}.trace", folder)
    reports = [read(f"{TOP}/examples/{name}.report") for name in names]
    expect("run -f of a file", run([COMMAND, "run", "-f", TRACE]), (0, reports[1], ""))
    expect("run -f -", run([COMMAND, "run", "-f", "-"], read(TRACE)), (0, reports[1], ""))
    expect("run of standard input", run([COMMAND, "run"], read(TRACE)), (0, reports[1], ""))
    expect("run -f of a folder", run([COMMAND, "run", "-f", folder]), (0, "".join(reports), ""))
    oks = [re.sub(r"node \S+(.*\n)(?:.|\n)*", r"ok\1", report) for report in reports]
    expect("check -f of a file", run([COMMAND, "check", "-f", TRACE]), (0, oks[1], ""))
    expect("check -f of a folder", run([COMMAND, "check", "-f", folder]), (0, "".join(
        f"{folder}/{name}.trace: {ok}" for name, ok in zip(names, oks)), ""))
    with open(f"{folder}/faulty.trace", "w", encoding="utf-8") as file:
        file.write("{}\n")
    status, told, said = run([COMMAND, "check", "-f", folder])
    expect("check -f of a folder with a file that is no trace", (status, told.count("\n"), said.splitlines()[0]),
           (2, 2, f"{folder}/faulty.trace: line 1: 33 UnknownKind"))
    status, told, said = run([COMMAND, "run", "-f", folder, "--fail-on", "evicted"])
    expect("run -f of a folder with --fail-on", (status, said.splitlines()[-1]), (
        4, f"kubelet-replay: {folder}/memory_pressure.trace: --fail-on evicted: default/a"))
    explained = run([COMMAND, "explain", "-f", folder, "--line"])
    paths = [f"{folder}/{name}.trace" for name in ("crash_loop", "faulty", "memory_pressure")]
    expect("explain -f of a folder", explained, (0, "".join(
        f"{path}: {run([COMMAND, 'explain', '-f', path, '--line'])[1]}" for path in paths), ""))
    os.mkdir(f"{folder}/empty")
    expect_refused("run -f of a folder without a trace", run([COMMAND, "run", "-f", f"{folder}/empty"]), 2,
                   f"{folder}/empty has no trace: no file in it ends with .trace, .trace.gz")
    expect("explain -f -", run([COMMAND, "explain", "-f", "-"], "{}\n"), run([COMMAND, "explain"], "{}\n"))
    expect("why -f -", run([COMMAND, "why", "-f", "-", "default/a"], read(TRACE)),
           run([COMMAND, "why", "-f", TRACE, "default/a"]))
    expect_refused("what-if -f of a folder", run([COMMAND, "what-if", "-f", folder, "."]), 2, "it takes one trace, and")
    expect("what-if -f -", run([COMMAND, "what-if", "-f", "-", "."], read(TRACE)),
           run([COMMAND, "what-if", "."], read(TRACE)))
    for tool in ("story", "why", "timeline", "page", "json"):
        words = ["default/a"] if tool == "why" else []
        expect(f"{tool} by itself takes -f", run([f"{TOOLS}/{tool}", "-f", TRACE, *words]),
               run([COMMAND, tool, "-f", TRACE, *words]))
    shutil.rmtree(folder)


def test_names_that_are_not_utf8():
    """A byte of a name is written the same way by each command, whichever of them shows that it can't be read."""
    name = b"/nonexistent/\xff.trace"
    for words in (["run"], ["check"], ["story", "-f"], ["what-if", ".", "-f"]):
        status, _, said = run([COMMAND, *words, name])
        expect(f"{' '.join(words)} of a name that is not UTF-8", (
            status, "/nonexistent/\\xff.trace" in said, said), (2, True, said))


def test_words_of_the_program_are_only_shown():
    """What the program prints of a word is shown, and a terminal does not obey it."""
    for words in (["run", "--a\x1b[31mb"], ["check", "--a\x1b[31mb"],
                  ["run", TRACE, "--fail-on", "evicted", "--\x9b31m"]):
        status, out, said = run([COMMAND, *words])
        expect(f"kubelet-replay {words}", (status, out, "[31m" in said or "\\x9b" in said,
                                           [each for each in said if not each.isprintable() and each != "\n"]),
               (2, "", True, []))


def test_packed_reports():
    """A report that gzip has packed is read as the report, and what needs a trace shows that it is one."""
    folder = tempfile.mkdtemp()
    path = f"{folder}/x.report.gz"
    with gzip.open(path, "wt", encoding="utf-8") as file:
        file.write(read(REPORT))
    for words in (["story"], ["story", "a"], ["json"], ["page"], ["timeline", "a"]):
        expect(f"kubelet-replay {' '.join(words)} -f of a packed report", run([COMMAND, *words, "-f", path]),
               run([COMMAND, *words, "-f", REPORT]))
    expect_refused("what-if -f of a packed report", run([COMMAND, "what-if", "-f", path, "."]), 2,
                   f"{path} is a report, and it needs a trace")
    completed = run([COMMAND, "__complete", "story", "-f", path, "default/"])
    expect("completion of a packed report", completed[1].split(), ["default/a", "default/b", "default/c", ":4"])
    shutil.rmtree(folder)


ELSEWHERE = """
import sys
from replay_tools import tree
from replay_tools.plugin import files
files.OPEN_FILES = "/nonexistent"
sys.exit(tree.start(sys.argv[1:]))
"""


def test_without_open_files():
    """On a system that has no /proc, as macOS, a report is read from a pipe and unpacked too, and no copy is left."""
    with tempfile.TemporaryDirectory() as folder, open(REPORT, "rb") as report:
        os.mkdir(f"{folder}/kept")
        with gzip.open(f"{folder}/x.report.gz", "wb") as file:
            file.write(report.read())
        settings = {"PYTHONPATH": TOOLS, "TMPDIR": f"{folder}/kept"}
        for words in (["story", "-f", f"{folder}/x.report.gz", "a"], ["story", "-f", "-", "a"], ["page", "-f", "-"]):
            answer = run([sys.executable, "-c", ELSEWHERE, "kubelet-replay", *words], read(REPORT), **settings)
            expect(f"{words} elsewhere", answer, run([COMMAND, *words], read(REPORT)))
        expect("elsewhere: no copy is left", os.listdir(f"{folder}/kept"), [])


def test_command_fails_on():
    """Run with --fail-on writes the same report, and has a status of its own where something happened."""
    crash, first = f"{TOP}/examples/crash_loop.trace", f"{TOP}/examples/first_tick.trace"
    for trace, kinds, status, said in (
        (TRACE, "evicted", 4, ["evicted: default/a"]),
        (TRACE, "restarted,unready", 4, ["unready: default/a"]),
        (TRACE, "restarted", 0, []),
        (crash, "evicted,restarted,unready", 4, ["restarted: shop/api-7f9c", "unready: shop/api-7f9c"]),
        (first, "evicted,restarted,unready", 0, []),
    ):
        told = "".join(f"kubelet-replay: --fail-on {line}\n" for line in said)
        wanted = status, read(trace.replace(".trace", ".report")), told
        expect(f"run --fail-on {kinds}", run([COMMAND, "run", trace, "--fail-on", kinds]), wanted)
    expect("run -f - --fail-on", run([COMMAND, "run", "-f", "-", "--fail-on=evicted"], read(TRACE))[0], 4)
    kubelet = f"{HERE}/whys/kubelet/trace"
    told = run([COMMAND, "run", kubelet, "--fail-on", "evicted"])
    expect("run --fail-on evicted, of a trace that says whom the kubelet evicted", (told[0], told[2]), (
        4, "kubelet-replay: --fail-on evicted: shop/agree, shop/first, shop/unseen and 2 more pods\n"))
    for words, said in ((["--fail-on", "killed"], "evicted, restarted, unready, one or more"),
                        (["--fail-on"], "needs a value"), (["--fail-on="], "one or more")):
        expect_refused(f"run {' '.join(words)}", run([COMMAND, "run", TRACE, *words]), 2, said)
    expect("run --fail-on of standard input", run([COMMAND, "run", "--fail-on", "evicted"], read(TRACE))[0], 4)
    refused = run([COMMAND, "run", "/dev/null", "--fail-on", "evicted"])
    expect("run --fail-on of a trace that is refused", (refused[0], refused[1]), (2, ""))


def test_no_room():
    """If there is no room for a tool's own files, the fault names the folder, and how to choose another."""
    folder = tempfile.mkdtemp()
    with open(f"{folder}/full", "w", encoding="utf-8") as file:
        file.write("#!/bin/sh\n[ $# = 0 ] && cat >/dev/null\necho 'write failed' >&2\nexit 1\n")
    os.chmod(f"{folder}/full", 0o755)
    settings = {"KUBELET_REPLAY": f"{folder}/full", "TMPDIR": folder}
    expect_refused("story -f, without room", run([COMMAND, "story", "-f", TRACE], **settings), 1,
                   f"can't keep files in {folder}: it takes no more (TMPDIR names another folder)")
    expect_refused("what-if, without room", run([f"{TOOLS}/what-if", "."], read(TRACE), **settings), 1,
                   f"{folder} takes no more (TMPDIR names another folder)")
    expect_refused("what-if, without a folder", run([f"{TOOLS}/what-if", "."], read(TRACE), TMPDIR=f"{folder}/none"), 1,
                   f"no folder can be made in {folder}/none (TMPDIR names another)")
    shutil.rmtree(folder)


def test_run_of_what_cannot_be_read():
    """The file and the reason are named; the program's own words have neither."""
    for words in (["run"], ["check"], ["run", "-f"]):
        answer = run([COMMAND, *words, "/nonexistent/x.trace"])
        expect_refused(f"{' '.join(words)} of no file", answer, 2, "/nonexistent/x.trace: No such file or directory")


def test_what_if_on_a_terminal():
    """It shows what it waits for, and takes it."""
    for words in ([f"{TOOLS}/what-if"], [COMMAND, "what-if"]):
        master, terminal = pty.openpty()
        os.write(master, b'{"kind":"node","name":"n1"}\n\x04')
        done = subprocess.run([*words, "."], stdin=terminal, capture_output=True, text=True, check=False,
                              start_new_session=True, env={**os.environ, "KUBELET_REPLAY": REPLAY})
        os.close(terminal)
        os.close(master)
        expect(f"{words[0]} on a terminal", (done.returncode, done.stdout, done.stderr.splitlines()), (0, "", [
            "what-if: it reads a trace from standard input, which is this terminal (it is meant as: what-if EDIT < "
            "TRACE)", "what-if: the edit changes no line of the trace"]))


def test_command_helps():
    """Each help fits a terminal, names the command as it is typed, and no file of a checkout."""
    said = run([COMMAND, "--help"])
    expect("kubelet-replay --help", (said[0], said[2]), (0, ""))
    expect("kubelet-replay without a word", run([COMMAND]), (2, "", said[1]))
    expect("kubelet-replay has each command", [f"\n  {name} " in said[1] for name in NAMES],
           [True] * len(NAMES))
    for name in NAMES:
        status, told, fault = run([COMMAND, name, "--help"])
        expect(f"kubelet-replay {name} --help", (status, fault), (0, ""))
        expect(f"kubelet-replay help {name}", run([COMMAND, "help", name])[1], told)
        expect(f"the help of {name}: its name", f"\n\nUsage:\n  kubelet-replay {name} " in told, True)
        expect(f"the help of {name}: no file of a checkout, and no older form",
               re.findall(rf"tools/(?:{'|'.join(NAMES)})\b(?![-/])|\./kubelet_replay|--traces?\b", told), [])
        by_kubectl = run([f"{TOOLS}/kubectl-replay", name, "--help"])[1]
        expect(f"kubectl replay {name} --help", [line for line in by_kubectl.splitlines() if "kubelet-replay " in line
                                                 and "man " not in line], [])
        for text in (told, by_kubectl):
            lines = text.splitlines()
            expect(f"the help of {name} fits a terminal", [line for line in lines if len(line) > 80] + lines[40:], [])
            paragraphs = text.split("\n\n")
            count = sum(line.startswith("  # ") for line in lines)
            last = paragraphs[-1]
            expect(f"the help of {name} has its parts", (
                "\n" in paragraphs[0], [part.split("\n")[0] for part in paragraphs if part.startswith((
                    "Usage:", "Examples:", "Options:"))], 2 <= count <= 4, last.startswith("Exit status: 0 ")),
                (False, ["Usage:", "Examples:", "Options:"], True, True))


def test_groups_of_commands():
    """The list of commands has groups, and fits a terminal."""
    for command in (COMMAND, f"{TOOLS}/kubectl-replay"):
        told = run([command, "--help"])[1]
        heads = [line[:-1] for line in told.splitlines() if re.fullmatch(r"[A-Z][a-z ]+:", line)]
        expect(f"groups of {command}", heads, ["Usage", "Record", "Ask", "Check", "Many nodes", "Examples"])
        expect(f"{command} --help fits a terminal",
               [line for line in told.splitlines() if len(line) > 80] + told.splitlines()[40:], [])


def test_command_completion():
    for words, candidates in (
        ([""], [*sorted(NAMES), ":4"]),
        (["story", "-f", TRACE, "d"], ["default/a", "default/b", "default/c", ":4"]),
        (["story", "-f", TRACE, "-n", "default", ""], ["a", "b", "c", ":4"]),
        (["story", "--"], ["--all", "--all-namespaces", "--at", "--filename", "--follow", "--local", "--namespace",
                           "--node", "--output", "--recorders", "--seconds", "--selector", "--since", "--timeout",
                           "--utc", ":4"]),
        (["run", ""], [":0"]),
        (["record", "--e"], ["--each", "--events", "--every", "--eviction-pause", "--extended", ":4"]),
        (["record", "--curl", ""], [":0"]),
        (["record", "--node", ""], [":4"]),
    ):
        answer = run([COMMAND, "__complete", *words])
        expect(f"kubelet-replay, completion of {words}", (answer[0], answer[1].split(), answer[2]), (0, candidates, ""))
