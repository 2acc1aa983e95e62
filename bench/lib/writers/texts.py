"""crates/replay_workloads/data/texts, and the program's answers to them in its stdout. The texts are the examples; of
each other family of cases the longest trace of at most 64 KiB; and of the family `extended` one such trace for each
word of the extended format. `rt ci` runs this program as two compilers make it, the program of bench/cases as one of
them does.

Faults are: one of the two files is stale.
"""
import os

from case_files import names_in, traces_in
from script import TOP

DATA = os.path.join(TOP, "crates/case_runner/data")
PROGRAM = os.path.join(TOP, "crates/replay_workloads")
LONGEST = 65_536
# the words of the extended format, by the bytes that show each
WORDS = (b'"judged":false', b'"unsampled":true', b'"deleting":true', b'"failed":"', b'"spared":true',
         b'"evictionsRecorded":true', b'"evictionPauseSeconds":', b'"evictionPauseUntilGone":true', b'"kind":"gone"',
         b'"crashLoopBackOff":{"maxContainerRestartPeriod":', b'],"resources":{', b'"readinessGates":', b'"conditions":{',
         b'"restartPolicyRules":', b'"resized":{')
TITLE = b"Texts that are replayed as they stand, each behind its name; bench/texts writes this file.\n"


def chosen():
    """The cases, family by family."""
    for family in names_in(os.path.join(DATA, "traces"), ""):
        cases = list(traces_in(DATA, family))
        short = [case for case in cases if len(case.trace) <= LONGEST and b"\n# " not in case.trace]
        if family == "examples":
            yield from cases
        elif family == "extended":
            yield from with_each_word(short)
        else:
            yield max(short, key=weight)


def with_each_word(cases):
    """For each word of the extended format the heaviest case that has it; a case of several words comes once."""
    found = []
    for word in WORDS:
        having = [case for case in cases if word in case.trace]
        if not having:
            raise ValueError(f"no case of the family extended has {word.decode()}")
        case = max(having, key=weight)
        if case not in found:
            found.append(case)
    return found


def weight(case):
    """Traces with a report come before rejected ones, and longer ones before shorter ones."""
    return case.report is not None, len(case.trace), case.name


def answer_of(case):
    if case.report is not None:
        return case.report
    return case.refusal.partition(": ")[2].encode() + b"\n"


def files():
    """The bytes of each file by its path. The first line of stdout is the digest of the workload that its arguments
    name."""
    with open(os.path.join(PROGRAM, "stdout"), "rb") as file:
        texts, answers = TITLE, file.readline()
    for case in chosen():
        name = b" ".join([b"# " + case.name.encode(), *(word.encode() for word in case.words)]) + b"\n"
        texts += b"\n" + name + case.trace.removesuffix(b"\n")
        answers += name + answer_of(case)
    return {os.path.join(PROGRAM, "data/texts"): texts, os.path.join(PROGRAM, "stdout"): answers}


def is_stale(path, text):
    try:
        with open(path, "rb") as file:
            return file.read() != text
    except FileNotFoundError:
        return True


def faults(_, checks):
    """Writes both files, or only checks them. Returns what is wrong, a line each."""
    stale = {path: text for path, text in files().items() if is_stale(path, text)}
    if checks:
        return [f"{os.path.relpath(path, TOP)} is stale: run bench/texts" for path in stale]
    os.makedirs(os.path.join(PROGRAM, "data"), exist_ok=True)
    for path, text in stale.items():
        with open(path, "wb") as file:
            file.write(text)
    return []
