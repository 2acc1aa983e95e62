"""docs/calls.md and the pages docs/calls/STOREY.md: the public calls of each crate, with what their doc comments have,
what they need, their clauses and examples, and the definitions that the theorem does not reach.

Faults are: a page that is stale, missing or superfluous; a public call without a doc comment; an example in
examples.tsv of no definition; a link of a document that leads nowhere.
"""
from call_pages import FOLDER, Lists, faults_of, texts_of
from links import dead_links
import named_calls
from reach import Repository, reached
from theorem_pages import CRATE, FUNCTIONS
from written import differences, documents_with, write_anew


def faults(top, checks):
    """Writes the pages, or only checks them. Returns what is wrong, a line each."""
    repository = Repository(top)
    nodes = reached(repository, CRATE, FUNCTIONS)[1]
    lists = Lists(repository, nodes)
    texts = texts_of(lists)
    found = faults_of(lists, nodes, texts)
    if checks:
        found += differences(top, texts, "bench/calls", FOLDER, "crate")
    else:
        write_anew(top, texts, FOLDER)
    pages = {f"docs/{name}": text for name, text in texts.items()}
    found += dead_links(documents_with(top, texts, FOLDER), pages, f"docs/{FOLDER}")
    return found + named_calls.faults(top)
