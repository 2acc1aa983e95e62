"""docs/planted.md, from bench/planted.tsv, what `rt plant` was run over and what of it was proved all the same, and from
bench/edits.tsv, what each edit of the gate alone shows, with what bench/gate measured of the edits of a crate.

Faults are: a stale page; a row of a table that is not as it has to be; an edit of the gate without a row.
"""
import os

import crates
from edits import paths_of
from gate_edits import edits_in, without_words
from gate_figures import read_figures
from planted_page import page_of, rows_in
from written import differences, text_at, write_anew


def edits_of_the_gate(top):
    """The crate and the name of each."""
    folder = os.path.join(top, "crates")
    return [(crate, os.path.basename(path).removesuffix(".edit"))
            for crate in (sorted(os.listdir(folder)) if os.path.isdir(folder) else ())
            for path in paths_of(top, crate, "must-fail")]


def text_of(top, name):
    return text_at(os.path.join(top, "bench", name)) or "\n"


def faults(top, checks):
    """Writes the page, or only checks it. Returns what is wrong, a line each."""
    edits = edits_in(text_of(top, "edits.tsv"))
    if wrong := without_words(edits, edits_of_the_gate(top)):
        return [wrong]
    spent = {name: figure.edits for name, figure in read_figures(top).items()}
    texts = {"planted.md": page_of(rows_in(text_of(top, "planted.tsv")), edits, spent, crates.read_crates(top))}
    if checks:
        return differences(top, texts, "bench/planted")
    write_anew(top, texts)
    return []
