"""Feeds the program COUNT mutated traces, which SEED settles, each in a process of its own. It makes them from the traces
of examples/ and of the cases. Each run has to end with status 0, 1 or 2 within 10 seconds and 2 GiB of address space:
with a report, or with nothing on standard output and a line of docs/formats.md on standard error. Every twentieth has
little more memory than the program needs to start: it may report that, else it has to answer as with more. For every
hundredth `check` has to agree with `run`. It ends with status 1 if a run failed, and keeps the first trace of these.
"""
import collections
import multiprocessing
import os
import resource
import shutil
import signal
import sys
import tempfile
import time

import processes
import script
from script import TOP
import journal_mutations
from answers import agree, faults_in, is_cut_short, kind_of
from mutations import mutated, seeds_of
from shapes import LONGEST_INPUT, shapes

ADDRESS_SPACE, SHAPE_SPACE = 2 << 30, 8 << 30
SECONDS, SHAPE_SECONDS = 10, 600
IMPORT_SPACE, IMPORT_SECONDS = 1 << 30, 20
AGREE_EVERY, TIGHT_EVERY = 100, 20
TIGHT_KIB, CHUNK, IMPORTS = range(0, 640, 4), 500, 50


def faults_of_formats():
    """What the documents promise of a faulty trace."""
    with open(os.path.join(TOP, "docs/formats.md"), encoding="utf-8") as page:
        return faults_in(page.read())


class Runner:
    """Runs the program over a file of its own, and keeps what it writes in two others. It does so a million times, so
    a run begins by posix_spawn and is bounded by an alarm."""

    def __init__(self, program, folder):
        self.program, name = program, os.path.join(folder, str(os.getpid()))
        self.trace, self.written, self.said = name + ".trace", name + ".out", name + ".err"

    def run(self, words, given="/dev/null", kib=None, seconds=SECONDS):
        """The status, negative by a signal, and the peak memory in bytes."""
        command = [self.program, *words]
        if kib:
            # with so little memory neither this script nor the shell could go on; the program has to. The limit is one
            # of data: within one of address space no stack can grow, and the system ends a process by a signal
            command = ["/bin/sh", "-c", 'ulimit -d "$0" && exec "$@"', str(kib), *command]
        opened = [(os.POSIX_SPAWN_OPEN, 0, given, os.O_RDONLY, 0)]
        for number, path in (1, self.written), (2, self.said):
            opened.append((os.POSIX_SPAWN_OPEN, number, path, os.O_WRONLY | os.O_CREAT | os.O_TRUNC, 0o600))
        child = os.posix_spawn(command[0], command, os.environ, file_actions=opened)
        # by a signal that no process ignores; the answer then is that it was ended by one
        signal.signal(signal.SIGALRM, lambda *_: os.kill(child, signal.SIGKILL))
        signal.alarm(seconds)
        ended = processes.wait(child)
        signal.alarm(0)
        return ended

    def answer(self, words, given="/dev/null", kib=None):
        """The status, the output and standard error."""
        status, _ = self.run(words, given, kib)
        with open(self.written, "rb") as written, open(self.said, "rb") as said:
            return status, written.read(), said.read()


def least_kib(runner):
    """With so much memory the program begins its work; with less the system's loader gives up."""
    low, high = 0, 64 << 10
    while high - low > 4:
        middle = (low + high) // 2
        low, high = (low, middle) if runner.answer(["check", "/dev/null"], kib=middle)[0] in (1, 2) else (middle, high)
    return high


def begin(program, folder, seed):
    """Makes ready a process that runs the program again and again; its children have its limit of memory."""
    global runner, settled, seeds, faults, least  # each process of the pool has its own
    resource.setrlimit(resource.RLIMIT_AS, (ADDRESS_SPACE, ADDRESS_SPACE))
    resource.setrlimit(resource.RLIMIT_CORE, (0, 0))
    runner, settled, seeds, faults = Runner(program, folder), seed, seeds_of(TOP), faults_of_formats()
    least = least_kib(runner)


def one_run(number):
    """Runs a trace. Gives the kind of its answer, and whether `check` was asked too."""
    trace, workers = mutated(settled, number, seeds)
    with open(runner.trace, "wb") as file:
        file.write(trace)
    words, given = (["run", runner.trace, "--workers", str(workers)], "/dev/null") if workers else ([], runner.trace)
    kib = least + TIGHT_KIB[number // TIGHT_EVERY % len(TIGHT_KIB)] if number % TIGHT_EVERY == 7 else None
    answer = runner.answer(words, given, kib)
    kind = kind_of(answer, trace.count(b"\n") + (trace[-1:] not in (b"", b"\n")), faults, kib is not None)
    asked, good = number % AGREE_EVERY == 0, not kind.startswith("!")
    if good and asked and not agree(answer, runner.answer(["check", runner.trace])):
        kind = "!check and run disagree"
    if good and kib and not is_cut_short(answer, runner.answer(words, given)):
        kind = "!another answer than with ample memory"
    return kind if good else f"{kind}, with workers={workers} and {kib or ADDRESS_SPACE >> 10} KiB", asked


def chunk(numbers):
    """The kinds of the answers, how many runs `check` was asked of too, and the first failure, which it keeps."""
    kinds, asked, failure = collections.Counter(), 0, None
    for number in numbers:
        kind, checked = one_run(number)
        kinds[kind] += 1
        asked += checked
        if kind.startswith("!") and not failure:
            kept = os.path.join(tempfile.gettempdir(), f"hostile-{settled}-{number}.trace")
            shutil.copy(runner.trace, kept)
            failure = number, kind[1:], kept
    return kinds, asked, failure


def many(program, count, seed, jobs):
    """Runs them all, and prints what they were answered. Gives whether none failed."""
    kinds, asked, first = collections.Counter(), 0, None
    shown = started = time.monotonic()
    chunks = [range(at, min(at + CHUNK, count)) for at in range(0, count, CHUNK)]
    # files that are written again for each run are slow on a disk
    memory = "/dev/shm" if os.access("/dev/shm", os.W_OK) else None
    with tempfile.TemporaryDirectory(dir=memory) as folder:
        with multiprocessing.get_context("fork").Pool(jobs, begin, (program, folder, seed)) as pool:
            for some, checked, failure in pool.imap(chunk, chunks):
                kinds += some
                asked += checked
                if failure and first:
                    os.remove(failure[2])
                first = first or failure
                if time.monotonic() - shown > 60:
                    shown = time.monotonic()
                    print(f"{kinds.total()} runs, {kinds.total() / (shown - started):.0f} a second", flush=True)
    seconds = time.monotonic() - started
    failed = tell(kinds)
    print(f"{kinds.total()} runs of seed {seed} in {seconds:.0f} seconds with jobs={jobs},"
          f" {kinds.total() / seconds:.0f} a second; check was compared in {asked}; {failed} failed")
    if first:
        number, kind, kept = first
        print(f"the first failure is run {number}: {kind}; its trace is {kept}")
    return not failed


def tell(kinds):
    """Prints how often each kind of answer came, and gives how many were failures."""
    for kind, times in sorted(kinds.items()):
        print(f"{times:>9} {kind}")
    return sum(times for kind, times in kinds.items() if kind.startswith("!"))


def shape_answer(runner, status, faults):
    """What a shape was answered, and whether it may be. A report may be far larger than the memory of this script."""
    size = os.path.getsize(runner.written)
    with open(runner.written, "rb") as written, open(runner.said, "rb") as said:
        begin = written.read(200)
        written.seek(max(0, size - 200))
        # the whole of a short report, or the two ends of a long one
        ends, said = (begin if size <= 200 else begin + b"\n" + written.read()), said.read()
    kind = kind_of((status, ends, said), LONGEST_INPUT, faults)
    told = said.decode(errors="replace").rstrip("\n")[:60]
    if kind.startswith("!"):
        return kind, False
    return f"report, {size} bytes" if kind == "report" else told, True


def all_shapes(program):
    """Runs a file of each shape and prints a table. Gives whether each got an answer that it may get."""
    resource.setrlimit(resource.RLIMIT_AS, (SHAPE_SPACE, SHAPE_SPACE))
    resource.setrlimit(resource.RLIMIT_CORE, (0, 0))
    faults, good = faults_of_formats(), True
    print("| Shape | Bytes | Status | Answer | Seconds | Peak MB |\n|---|---|---|---|---|---|", flush=True)
    with tempfile.TemporaryDirectory() as folder:
        runner = Runner(program, folder)
        for name, pieces in shapes():
            with open(runner.trace, "wb") as file:
                file.writelines(pieces)
            # one run within a limit, with its memory and its answer, which hyperfine would not give
            size, started = os.path.getsize(runner.trace), time.monotonic()
            status, peak = runner.run(["run", runner.trace], seconds=SHAPE_SECONDS)
            seconds = time.monotonic() - started
            answer, accepted = shape_answer(runner, status, faults)
            good = good and accepted
            print(f"| {name} | {size:,} | {status} | {answer} | {seconds:.2f} | {peak / 1e6:.1f} |", flush=True)
    return good


def begin_importing(folder, seed):
    """Makes ready a process that imports again and again, each time in a child of its own."""
    global settled, seeds, place  # each process of the pool has its own
    sys.path.insert(0, os.path.join(TOP, "tools"))
    settled, seeds, place = seed, journal_mutations.seeds_of(TOP), os.path.join(folder, str(os.getpid()))
    # a child needs not read it again
    __import__("replay_tools.importing.program")


def import_once(journal):
    """The kind of what the importer answers to a journal."""
    with open(place + ".journal", "wb") as file:
        file.write(journal)
    child = os.fork()
    if child == 0:
        import_in_child()
    _, status = os.waitpid(child, 0)
    with open(place + ".out", "rb") as written, open(place + ".err", "rb") as said:
        return journal_mutations.kind_of(os.waitstatus_to_exitcode(status), written.read(), said.read())


def import_in_child():
    """Imports the journal as the tool does, and ends."""
    status = 70
    try:
        signal.alarm(IMPORT_SECONDS)
        resource.setrlimit(resource.RLIMIT_AS, (IMPORT_SPACE, IMPORT_SPACE))
        for number, end, flags in (0, ".journal", os.O_RDONLY), (1, ".out", os.O_WRONLY), (2, ".err", os.O_WRONLY):
            opened = os.open(place + end, flags | (os.O_CREAT | os.O_TRUNC if number else 0), 0o600)
            os.dup2(opened, number)
        sys.stdout, sys.stderr = open(1, "w", closefd=False), open(2, "w", closefd=False)
        sys.stdin = open(0, closefd=False)
        from replay_tools import entry, tree
        words = ["--year", "2026", "--node", "worker-3", "--pods", os.path.join(TOP, "tools/tests/imported/pods.yaml")]
        status = entry.run("import", lambda: tree.run("import", words))
    except BaseException:  # noqa: B902  whatever it is, it is a failure that is printed
        import traceback
        traceback.print_exc()
    finally:
        sys.stdout.flush()
        sys.stderr.flush()
        os._exit(status)


def import_chunk(numbers):
    """The kinds of the answers and the first failure, whose journal is kept."""
    kinds, failure = collections.Counter(), None
    for number in numbers:
        kind = import_once(journal_mutations.mutated(settled, number, seeds))
        kinds[kind] += 1
        if kind.startswith("!") and not failure:
            kept = os.path.join(tempfile.gettempdir(), f"hostile-{settled}-{number}.journal")
            shutil.copy(place + ".journal", kept)
            failure = number, kind[1:], kept
    return kinds, failure


def many_imports(count, seed, jobs):
    """Imports them all, and prints what they came to. Gives whether none failed."""
    kinds, first, started = collections.Counter(), None, time.monotonic()
    chunks = [range(at, min(at + IMPORTS, count)) for at in range(0, count, IMPORTS)]
    with tempfile.TemporaryDirectory() as folder:
        with multiprocessing.get_context("fork").Pool(jobs, begin_importing, (folder, seed)) as pool:
            for some, failure in pool.imap(import_chunk, chunks):
                kinds += some
                if failure and first:
                    os.remove(failure[2])
                first = first or failure
    failed, seconds = tell(kinds), time.monotonic() - started
    print(f"{kinds.total()} imports of seed {seed} in {seconds:.0f} seconds with jobs={jobs}; {failed} failed")
    if first:
        print(f"the first failure is import {first[0]}: {first[1]}; its journal is {first[2]}")
    return not failed


def add_to(arguments):
    ways = arguments.add_mutually_exclusive_group()
    ways.add_argument("--shapes", action="store_true",
                      help="instead run inputs of up to 64 MiB of the worst shapes, one after the other within 8 GiB "
                      "of address space, and print each answer with its seconds and its peak of memory, which is never "
                      "below this script's own")
    ways.add_argument("--import", action="store_true", dest="imports",
                      help="instead import COUNT mutated journals, made from the journals of the importer's tests, in "
                      "its forms. Each import has to end with status 0, 1 or 2 within 20 seconds and 1 GiB of address "
                      "space, without a traceback, and with status 0 to have written a trace. It needs no program")
    arguments.add_argument("--jobs", type=script.whole_number(1), default=1, metavar="N", help="how many at once (1)")
    arguments.add_argument("rest", nargs="*", default=[], metavar="[PROGRAM] [COUNT] [SEED]",
                           help="the program, without it ./kubelet_replay builds one; how many (1000000); and from "
                           "which seed (1)")


def main(given):
    rest = given.rest
    named = [rest.pop(0)] if rest and not rest[0].isdigit() else []
    if len(rest) > 2 or not all(word.isdigit() for word in rest):
        raise script.Fault("COUNT and SEED are whole numbers, and come after PROGRAM", 2)
    count, seed = map(int, [*rest, *("1000000", "1")[len(rest):]])
    if given.imports:
        return 0 if many_imports(count, seed, given.jobs) else 1
    program = script.program_of(named)
    good = all_shapes(program) if given.shapes else many(program, count, seed, given.jobs)
    return 0 if good else 1
