"""Imports COUNT journals that it makes from SEED, and asks the program of each trace whether it takes it. The journals are
of a kubelet from 1.20 to 1.34 at -v=0 to -v=4, alone or with the journal of containerd or CRI-O, whole or with lines
that are lost or twice. `kubelet-replay import` has to end with status 0, or with 1 and one line, within 60 seconds; the
program has to accept each trace (`check`). It prints how many were written at each verbosity, and ends with status 1 if
an import failed or a trace was rejected: it keeps the files of the first twenty of these. KUBELET_REPLAY names the
program; without it ./kubelet_replay builds one.
"""
import collections
import gzip
import multiprocessing
import os
import shutil
import subprocess
import tempfile
import time

import script
from script import TOP
from node_journals import journals_of

# seconds; a machine that does much else may take long for each
SECONDS, CHUNK, MOST_KEPT = 60, 5, 20
IMPORT = f"{TOP}/tools/import"
WRITTEN = "written", "nothing to import"


def words_of(files, folder):
    """The files of a journal, written into a folder, as words of the importer."""
    words = ["--year", "2026", "--node", "n1"]
    for name, text in files.items():
        with open(f"{folder}/{name}", "w", encoding="utf-8") as file:
            file.write(text)
        words += ["--pods" if name == "pods" else "--journal", f"{folder}/{name}"]
    return words


def checked(program, path):
    """What the program prints on a trace; nothing if it accepts it."""
    try:
        done = subprocess.run([program, "check", path, "--extended"], capture_output=True, check=False, timeout=SECONDS)
    except subprocess.TimeoutExpired:
        return f"check takes longer than {SECONDS} s"
    return "" if done.returncode == 0 else f"check: {done.stderr.decode(errors='replace').strip() or done.returncode}"


def imported(words, path):
    """The fault of an import, if it has one, and whether it wrote a trace."""
    with open(path, "wb") as file:
        try:
            done = subprocess.run([IMPORT, *words], stdin=subprocess.DEVNULL, stdout=file, stderr=subprocess.PIPE,
                                  check=False, timeout=SECONDS)
        except subprocess.TimeoutExpired:
            return f"it takes longer than {SECONDS} s", False
    said = done.stderr.decode(errors="replace")
    if done.returncode == 0:
        return "", True
    is_line = done.returncode == 1 and said.count("\n") == 1 and "Traceback" not in said
    return ("" if is_line else f"status {done.returncode}: {said.strip()[-300:]}"), False


def fault_of(program, files, folder, is_into):
    """What is wrong with the import of a journal, if anything is, and whether it has a trace."""
    words = words_of(files, folder)
    if len(words) == 4 + 2 * ("pods" in files):
        return "", False
    fault, is_written = imported(words, f"{folder}/trace")
    if is_written and not fault:
        fault = checked(program, f"{folder}/trace")
    if is_written and not fault and is_into:
        fault = fault_of_traces(program, words, folder)
    return fault, is_written


def fault_of_traces(program, words, folder):
    """The same of traces one after the other in a folder."""
    fault, _ = imported([*words, "--into", f"{folder}/into", "--each", "10m"], f"{folder}/said")
    for name in sorted(os.listdir(f"{folder}/into")) if not fault else ():
        with gzip.open(f"{folder}/into/{name}", "rb") as packed, open(f"{folder}/one", "wb") as file:
            shutil.copyfileobj(packed, file)
        fault = fault or checked(program, f"{folder}/one")
    return f"--into: {fault}" if fault else ""


def chunk(given):
    """The counts of some journals by what they are, and their faults with the places where their files are kept."""
    program, seed, numbers, every = given
    counts, faults = collections.Counter(), []
    for number in numbers:
        files, what = journals_of(seed, number)
        with tempfile.TemporaryDirectory() as folder:
            fault, is_written = fault_of(program, files, folder, every and number % every == 0)
            counts[what, WRITTEN[not is_written]] += 1
            if fault:
                kept = f"{tempfile.gettempdir()}/import-{seed}-{number}"
                shutil.rmtree(kept, ignore_errors=True)
                shutil.copytree(folder, kept)
                faults.append((number, what, fault, kept))
    return counts, faults


def many(program, count, seed, jobs, every):
    """Imports them all, and prints what came of them. Gives whether none failed."""
    counts, faults = collections.Counter(), []
    started = time.monotonic()
    chunks = [(program, seed, range(at, min(at + CHUNK, count)), every) for at in range(0, count, CHUNK)]
    with multiprocessing.Pool(jobs) as pool:
        for some, wrong in pool.imap(chunk, chunks):
            counts += some
            faults += wrong
    for kind in WRITTEN:
        of_kind = collections.Counter()
        for (what, written), times in counts.items():
            of_kind[what.split(" ")[1]] += times if written == kind else 0
        print(f"{kind}: {of_kind.total()}", *(f"{level} {times}" for level, times in sorted(of_kind.items())), sep="  ")
    for number, what, fault, kept in faults[:MOST_KEPT]:
        print(f"journal {number} ({what}): {fault}; its files are {kept}")
    for *_, kept in faults[MOST_KEPT:]:
        shutil.rmtree(kept)
    print(f"{count} journals of seed {seed} in {time.monotonic() - started:.0f} seconds; {len(faults)} failed")
    return not faults


def add_to(arguments):
    arguments.add_argument("--jobs", type=script.whole_number(1), default=2, metavar="N", help="how many at once (2)")
    arguments.add_argument("--into-every", type=script.whole_number(0), default=10, metavar="N",
                           help="also import every Nth journal into a folder, and check each trace there (10)")
    arguments.add_argument("count", nargs="?", type=script.whole_number(1), default=2000, metavar="COUNT",
                           help="how many journals (2000)")
    arguments.add_argument("seed", nargs="?", type=script.whole_number(0), default=1, metavar="SEED", help="(1)")


def main(given):
    named = os.environ.get("KUBELET_REPLAY")
    program = script.program_of([] if named is None else [named])
    return 0 if many(program, given.count, given.seed, given.jobs, given.into_every) else 1
