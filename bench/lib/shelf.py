"""What bench/wrong_bodies found of the mutants outside of the gate, as bench/wrong_bodies.tsv keeps it."""
import csv
import os

import edits
import script

FOUND = "bench/wrong_bodies.tsv"
# edits that nobody has tried in their present form wait in this folder, where bench/wrong_bodies leaves them alone
UNTRIED = "wrong-bodies/untried"
KINDS = ("clause", "proof file only", "still proved")
COLUMNS = ("crate", "edits", *KINDS, "seconds")


def read_found(top):
    """A row for each crate of which it was run, as a dict by COLUMNS."""
    path = os.path.join(top, FOUND)
    if not os.path.isfile(path):
        return []
    with open(path, newline="", encoding="utf-8") as file:
        return list(csv.DictReader(file, delimiter="\t"))


def untried_in(top):
    """How many edits wait to be tried, by crate, without the crates that have none."""
    counts = {name: len(edits.paths_of(top, name, UNTRIED)) for name in sorted(os.listdir(f"{top}/crates"))}
    return {name: count for name, count in counts.items() if count}


def untried_text(top):
    """The sentence on the edits that wait to be tried; None if there are none."""
    waiting = untried_in(top)
    if not waiting:
        return None
    number = sum(waiting.values())
    names = ", ".join(f"{count} of `{name}`" for name, count in waiting.items())
    which, form = ("1 edit is", "it in its") if number == 1 else (f"{number} edits are", "them in their")
    return (f"Not in the table: {which} in `crates/NAME/{UNTRIED}/`, since nobody has tried {form} present form: "
            f"{names}.")


def record(top, crates, name, kinds, seconds):
    """Puts what was found of a crate's wrong bodies in the place of what was found before."""
    rows = {row["crate"]: row for row in read_found(top)}
    none = dict.fromkeys(KINDS, 0)
    rows[name] = {"crate": name, "edits": sum(kinds.values()), **none, **kinds, "seconds": round(seconds)}
    lines = [COLUMNS, *([rows[it][column] for column in COLUMNS] for it in crates if it in rows)]
    script.write(os.path.join(top, FOUND), "".join("\t".join(map(str, line)) + "\n" for line in lines))
