"""What the tests of all tools share: a run of a command, and what is compared."""

import os
import shutil
import subprocess
import sys
import time

import cases

HERE = os.path.dirname(os.path.realpath(__file__))
TOOLS = os.path.dirname(HERE)
TOP = os.path.dirname(TOOLS)
# the tools' package, stand-ins, and the modules of bench/
sys.path += [TOOLS, f"{HERE}/commands", f"{TOP}/bench/lib", f"{TOP}/bench/lib/real_node"]
# python3 -m unittest takes no such word
WITHOUT_PROGRAM = "--without-program" in sys.argv[1:] or "WITHOUT_PROGRAM" in os.environ
# in place of the program one that shows that it was asked
REPLAY = f"{HERE}/commands/no_program" if WITHOUT_PROGRAM else os.environ.get("KUBELET_REPLAY", f"{TOP}/kubelet_replay")
# seconds; what goes on by mistake ends all the same, and what a machine that does much else runs comes to its end
LONGEST = 600

WRITE = "--write" in sys.argv[1:]


def expect(name, got, wanted):
    """Compares what a test got; where it differs the first line that does is shown."""
    cases.check(name, None if got == wanted else difference_of(got, wanted))


def difference_of(got, wanted):
    lines = zip((got if isinstance(got, str) else repr(got)).split("\n") + ["(end)"],
                (wanted if isinstance(wanted, str) else repr(wanted)).split("\n") + ["(end)"])
    first = next(((a, b) for a, b in lines if a != b), ("", ""))
    return f"  got     {first[0][:300]}\n  wanted  {first[1][:300]}"


def expect_kept(name, got, path):
    """Counts one test against a kept file."""
    if WRITE:
        with open(path, "w") as file:
            file.write(got)
    kept = read(path) if os.path.exists(path) else "(no such file)"
    expect(name, got, kept)


def read(path):
    with open(path, encoding="utf-8") as file:
        return file.read()


def run(words, given="", **settings):
    """The status, the output and the errors of a command."""
    try:
        done = subprocess.run(words, input=given.encode(), capture_output=True, timeout=LONGEST, check=False,
                              env={**os.environ, "KUBELET_REPLAY": REPLAY, **settings})
    except subprocess.TimeoutExpired:
        return None, "", f"it went on for {LONGEST} s"
    return done.returncode, done.stdout.decode("utf-8", "replace"), done.stderr.decode("utf-8", "replace")


def copy_package(top):
    """Copies the tools' package to where it is in a checkout or a release. The bytecode stays, which another process
    may be writing."""
    shutil.copytree(f"{TOOLS}/replay_tools", f"{top}/tools/replay_tools", ignore=shutil.ignore_patterns("__pycache__"))


def wait_until(what, holds, process=None):
    """Waits for what comes in time on a machine that is not at a standstill; else the test that needs it ends. It ends
    at once if the process that it waits for has ended."""
    until = time.monotonic() + LONGEST
    while not holds():
        if time.monotonic() > until:
            raise TimeoutError(f"{what}: it did not come in {LONGEST} s")
        if process is not None and process.poll() is not None and not holds():
            raise TimeoutError(f"{what}: the process ended with status {process.returncode} before it came")
        time.sleep(0.01)


def replayed(trace):
    """What the program answers to a trace, in the format of its node line."""
    words = ["run", "/dev/stdin", "--extended"] if '"version":3' in trace.split("\n")[0] else []
    return run([REPLAY, *words], trace)


def expect_refused(name, answer, status, words, means=None):
    """One line on standard error with some words, and one more where it shows what they mean; nothing on standard
    output, and a status."""
    got, out, said = answer
    lines = said.split("\n")
    whole = len(lines) == (2 if means is None else 3) and lines[-1] == ""
    expect(name, (got, out, whole and words in lines[0] and (means or "") in lines[-2] or said), (status, "", True))
