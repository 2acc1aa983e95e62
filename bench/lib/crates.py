"""The crates of crates.txt, storey by storey: a line `## Rules` begins a storey, and the line above a crate's own
describes it in some words. Nothing else reads that file.

    crates.py TOP NAME

prints the crates that NAME depends on in the repository TOP, and NAME itself, for shell scripts.
"""
import os
from typing import NamedTuple

import script

STOREYS = ("Base", "Format", "Rules", "Threads", "Node", "Program", "Tests")
# the crates that move pods between threads, and the ones above them that know of no thread: what these define and
# promise of a node holds for one thread
POOL = ("piece_deques", "worker_results", "pool_workers", "pod_pool")
WITHOUT_POOL = ("node_pods", "event_list", "node_rounds", "node_report")


class Crate(NamedTuple):
    name: str
    storey: str
    words: str
    below: list  # the crates of the repository that it names


def read_crates(top):
    """The crates in the order of the file. A file without storeys, or with one of another name, is a ValueError."""
    with open(os.path.join(top, "crates.txt"), encoding="utf-8") as file:
        return crates_in(file.read())


def crates_in(text):
    """The crates of the file's text, each with the crates of the repository alone that it names."""
    found, storey, words = [], None, ""
    for number, line in enumerate(text.split("\n"), 1):
        name, colon, below = line.partition("#")[0].partition(":")
        if line.startswith("## "):
            storey, words = line[3:].strip(), ""
            if storey not in STOREYS:
                raise ValueError(f"crates.txt:{number}: no storey is called {storey}; they are {', '.join(STOREYS)}")
        elif line.startswith("#"):
            words = line[1:].strip()
        elif colon:
            if storey is None:
                raise ValueError(f"crates.txt:{number}: {name.strip()} is in no storey; '## Base' begins one")
            found.append(Crate(name.strip(), storey, words, below.split()))
            words = ""
    names = {crate.name for crate in found}
    return [crate._replace(below=[name for name in crate.below if name in names]) for crate in found]


def faults_of_order(crates):
    """What is wrong with their order: a crate depends only on crates before it, storeys are in their order, and nothing
    depends on a crate of tests except these."""
    faults, before = [], {}
    for crate in crates:
        for name in crate.below:
            if name not in before:
                faults.append(f"{crate.name} uses {name}, which does not come before it")
            elif before[name] == STOREYS[-1] != crate.storey:
                faults.append(f"{crate.name} uses {name}, a crate of tests")
        before[crate.name] = crate.storey
    order = [STOREYS.index(crate.storey) for crate in crates]
    faults += [f"the storey {STOREYS[later]} comes after {STOREYS[first]}"
               for first, later in zip(order, order[1:]) if later < first]
    return [f"crates.txt: {fault}" for fault in [*faults, *faults_of_threads(crates)]]


def faults_of_threads(crates):
    """The crates of WITHOUT_POOL that reach the pool, also through others."""
    below = {crate.name: crate.below for crate in crates}
    for name in WITHOUT_POOL:
        reached = standing_below(below, name) if name in below else set()
        if pool := [other for other in POOL if other in reached]:
            yield f"{name} reaches {pool[0]}, which moves pods between threads"


def faults_of_folders(top, crates):
    """A crate that has two lines, a line without its folder, and a folder without a line."""
    names = [crate.name for crate in crates]
    faults = [f"{name} has {names.count(name)} lines" for name in dict.fromkeys(names) if names.count(name) > 1]
    folders = sorted(name for name in os.listdir(os.path.join(top, "crates"))
                     if os.path.isdir(os.path.join(top, "crates", name)))
    faults += [f"crates/{name} has no line" for name in folders if name not in names]
    faults += [f"{name} has no folder crates/{name}" for name in dict.fromkeys(names) if name not in folders]
    return [f"crates.txt: {fault}" for fault in faults]


def below_of(top):
    """Of each crate, in the order of the file, the crates of the repository that it names."""
    return {crate.name: crate.below for crate in read_crates(top)}


def standing_below(below, name):
    """The crate and all that it depends on; each is looked at once, since there are many ways down to it."""
    found, left = set(), [name]
    while left:
        name = left.pop()
        if name not in found:
            found.add(name)
            left += below[name]
    return found


def main(words):
    if len(words) != 2:
        raise script.Usage("crates.py TOP NAME")
    top, name = words
    try:
        below = below_of(top)
    except (OSError, ValueError) as fault:
        raise script.Fault(str(fault)) from None
    if name not in below:
        raise script.Fault(f"there is no crate {name}", 2)
    found = standing_below(below, name)
    print(*(crate for crate in below if crate in found), sep="\n")


if __name__ == "__main__":
    script.run("crates.py", main, __doc__)
