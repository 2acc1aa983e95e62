"""Tries mutants over a copy of the repository, and prints what rejects each: the edits of crates/NAME/wrong-bodies/, of
each NAME or of every crate. It checks each edit as the gate does, over what the checks before it proved. The log of an
edit stays in crates/NAME/out/. What it found of wrong-bodies/ goes into bench/wrong_bodies.tsv, which bench/gate takes
into docs/gate.md, and what an edit of the gate cost into bench/edits.tsv, which bench/planted takes into
docs/planted.md.
"""
import collections
import os
import shutil
import subprocess
import tempfile

import script
from script import TOP
from crates import below_of
from edits import paths_of, read, texts_of, verdict
from gate_edits import record_seconds
from processes import children_seconds
from shelf import KINDS, read_found, record


def check(folder):
    """Checks the crate over what earlier checks kept: its status, what it printed, and its processor seconds."""
    started = children_seconds()
    ran = subprocess.run(["rt", "check", "--jobs", "1"], cwd=folder, stdin=subprocess.DEVNULL, stdout=subprocess.PIPE,
                         stderr=subprocess.STDOUT, text=True, errors="replace", check=False)
    return ran.returncode, ran.stdout, children_seconds() - started


def put(texts, folder):
    for path, text in texts.items():
        with open(f"{folder}/{path}", "w", encoding="utf-8") as file:
            file.write(text)


def try_edit(edit, folder):
    """Applies the edit to the copy, checks it and takes it back."""
    texts = texts_of(edit, folder)
    if texts is None:
        return "BAD EDIT", "it does not fit the file that it names", "", 0.0
    before = {path: read(f"{folder}/{path}") for path in texts}
    put(texts, folder)
    status, said, seconds = check(folder)
    put(before, folder)
    return *verdict(status, said), said, seconds


def changed_since(commit, paths):
    """The edits that were added or changed since a commit."""
    changed = {f"{TOP}/{path}" for words in (("diff", "--name-only", "--diff-filter=d", commit),
                                             ("ls-files", "--others")) for path in names_by_git(words, paths)}
    return [path for path in paths if path in changed]


def names_by_git(words, paths):
    listed = subprocess.run(["git", "-C", TOP, *words, "--", *paths], stdin=subprocess.DEVNULL, capture_output=True,
                            text=True, check=False)
    if listed.returncode != 0:
        raise script.Fault(f"git does not list what changed: {listed.stderr.strip()}", 2)
    return listed.stdout.splitlines()


def with_the_others(name, kinds, seconds, tried):
    """What was found of some of a crate's edits, with what its row has of the others: each was rejected by a clause,
    and took as long as the row's did on average. Without such a row nothing is known of them: None."""
    others = len(paths_of(TOP, name, "wrong-bodies")) - tried
    row = next((row for row in read_found(TOP) if row["crate"] == name), None)
    if row is None or row["edits"] != row["clause"] or int(row["edits"]) < others:
        return None
    each = int(row["seconds"]) / max(int(row["edits"]), 1)
    return {**kinds, "clause": kinds.get("clause", 0) + others}, seconds + others * each


def try_crate(name, shelf, room, edits):
    """Tries the crate's edits over a copy in the room: how many of each kind there were, and their processor
    seconds."""
    folder, kinds, sum_of_seconds = f"{room}/crates/{name}", {}, 0.0
    status, said, seconds = check(folder)
    print(f"{name}: {'proved' if status == 0 else 'NOT PROVED'} without an edit, {seconds:.0f} s", flush=True)
    if status != 0:
        print(said, end="")
        return {"NOT PROVED": 1}, 0.0
    logs = f"{TOP}/crates/{name}/out/{shelf}"
    os.makedirs(logs, exist_ok=True)
    for edit in edits:
        kind, why, said, seconds = try_edit(edit, folder)
        label = os.path.basename(edit).removesuffix(".edit")
        with open(f"{logs}/{label}.log", "w", encoding="utf-8") as file:
            file.write(said)
        print(f"{name}/{label}: {seconds:.0f} s: {kind}: {why[:140]}", flush=True)
        kinds[kind], sum_of_seconds = kinds.get(kind, 0) + 1, sum_of_seconds + seconds
        if shelf == "must-fail" and kind in KINDS:
            record_seconds(TOP, name, label, seconds)
    return kinds, sum_of_seconds


def try_all(names, shelf, below, since):
    """How many edits of each kind these crates have."""
    total = collections.Counter()
    with tempfile.TemporaryDirectory(prefix="wrong-bodies-") as room:
        shutil.copytree(f"{TOP}/crates", f"{room}/crates", ignore=shutil.ignore_patterns("out"))
        os.mkdir(f"{room}/.git")
        for file in ("crates.txt", "HANDLES"):
            shutil.copy(f"{TOP}/{file}", room)
        for name in names:
            edits = paths_of(TOP, name, shelf)
            tried = edits if since is None else changed_since(since, edits) if edits else []
            if tried:
                kinds, seconds = try_crate(name, shelf, room, tried)
                total.update(kinds)
                found = (kinds, seconds) if tried == edits else with_the_others(name, kinds, seconds, len(tried))
                if shelf == "wrong-bodies" and kinds.keys() <= {*KINDS} and found is not None:
                    record(TOP, below, name, *found)
    return total


def add_to(arguments):
    arguments.add_argument("--gate", action="store_true", help="try the edits of crates/NAME/must-fail/ instead")
    arguments.add_argument("--since", metavar="COMMIT",
                           help="try only the edits that were added or changed since COMMIT, and keep what "
                           "bench/wrong_bodies.tsv has of the others, if a clause rejected each of them")
    arguments.add_argument("names", nargs="*", default=[], metavar="NAME", help="a crate")


def main(given):
    script.need(rt="the Rattle kit is missing: put its command rt on the PATH")
    shelf, below = "must-fail" if given.gate else "wrong-bodies", below_of(TOP)
    for name in given.names:
        if name not in below:
            raise script.Fault(f"there is no crate {name}", 2)
    total = try_all(given.names or below, shelf, below, given.since)
    by_clause, by_proof = total.pop("clause", 0), total.pop("proof file only", 0)
    rest = "".join(f"; {kind}: {number}" for kind, number in total.items())
    print(f"rejected by a clause: {by_clause}; only because a proof file no longer fits: {by_proof}{rest}")
    return 1 if total or shelf == "must-fail" and by_proof else 0
