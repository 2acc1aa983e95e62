"""The edits of the gate, as bench/edits.tsv keeps them: what each one alone shows, and what its check cost."""
import csv
import io
import itertools
import os

import script
from paragraphs import wrapped

EDITS = "bench/edits.tsv"
EDIT_COLUMNS = ("crate", "edit", "seconds", "what it alone shows")
WORDS = """
The list has the promise that no other edit of the gate breaks. After the name of a crate are the processor seconds of
its edits together ([gate.md](gate.md)), with the check of the crate that precedes the first edit. So a single edit in a
crate is expensive, and is in the gate only if its promise is worth that. After the name of an edit are the seconds of
its own check, if they are known (`bench/wrong_bodies --gate`).
"""


def _number(text):
    return int(text) if text.isdigit() else None


def edits_in(text):
    """What each edit of the gate shows, by its crate and its name: with the processor seconds that it cost, or None
    where they were not measured. Another head is a ValueError, and so is a row without a sentence."""
    found = list(csv.reader(io.StringIO(text), delimiter="\t", quoting=csv.QUOTE_NONE))
    if tuple(found[0]) != EDIT_COLUMNS:
        raise ValueError(f"bench/edits.tsv: the columns are not {', '.join(EDIT_COLUMNS)}")
    edits = {}
    for number, cells in enumerate(found[1:], 2):
        if len(cells) != len(EDIT_COLUMNS):
            raise ValueError(f"bench/edits.tsv:{number}: {len(cells)} cells, not {len(EDIT_COLUMNS)}")
        crate, edit, seconds, shows = cells
        if seconds and _number(seconds) is None:
            raise ValueError(f"bench/edits.tsv:{number}: {seconds} is no number of seconds")
        if not shows:
            raise ValueError(f"bench/edits.tsv:{number}: nothing describes what {crate}/{edit} alone shows")
        edits[crate, edit] = (_number(seconds), shows)
    return edits


def without_words(edits, there):
    """What is wrong with them where the gate has these edits: nothing, or the first fault."""
    for crate, edit in there:
        if (crate, edit) not in edits:
            return f"bench/edits.tsv: nothing describes what {crate}/{edit} alone shows"
    gone = [name for name in edits if name not in there]
    return f"bench/edits.tsv: the gate has no edit {'/'.join(gone[0])}" if gone else None


def lines_of_edits(edits, spent):
    """A line for each crate that has edits of the gate, with the processor seconds of these where they are known, and
    one for each edit."""
    for crate, of_crate in itertools.groupby(edits.items(), lambda item: item[0][0]):
        rows = list(of_crate)
        took = f", {spent[crate]:.0f} s" if spent.get(crate) else ""
        yield f"- `{crate}`: {len(rows)} edit{'s' if len(rows) > 1 else ''}{took}"
        for (_, edit), (seconds, shows) in rows:
            took = "" if seconds is None else f" ({seconds} s)"
            yield wrapped(f"`{edit}`{took}: {shows}.", "  - ", "    ")


def record_seconds(top, name, edit, seconds):
    """Puts the processor seconds of an edit's check in the place of the earlier ones; of an edit without a row nothing
    is kept."""
    path = os.path.join(top, EDITS)
    if not os.path.isfile(path):
        return
    with open(path, encoding="utf-8") as file:
        rows = [line.split("\t") for line in file.read().splitlines()]
    rows = [[crate, it, f"{seconds:.0f}", *rest] if (crate, it) == (name, edit) else [crate, it, old, *rest]
            for crate, it, old, *rest in rows]
    script.write(path, "".join("\t".join(row) + "\n" for row in rows))
