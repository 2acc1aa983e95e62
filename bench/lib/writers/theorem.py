"""docs/theorem.md, with the contracts of the program, and the pages docs/theorem/CRATE.md and CRATE-Module.md, with each
definition that they reach; also the links to them at the end of docs/rules.md and of the pages of the formats.

Faults are: a page that is stale, missing or superfluous; a definition of a crate of threads that is reached, or a
private field that no definition names; a definition in specs/rule that is not reached, or one in specs/state that is; a
file of specs/ in neither; a name or a link in a document that leads nowhere; a definition that examples.tsv has twice.
"""
import re

from entries import exampled_twice
from folders import misplaced
from links import dead_links
from mentions import mentions_in, with_links
from pages import MOST
from paragraphs import wrapped
from reach import Repository, reached
from theorem_pages import CRATE, FUNCTIONS, texts_of
from written import differences, documents_with, write_anew

# the calls that take a format are not shown: they promise the same of each format
IN_A_FORMAT = ("replay_in", "replay_play_in", "check_in")
OWN = "theorem/"
NAMING = ("rules.md", "formats.md", "extended.md", "report.md")


def threads_in(repository, nodes):
    """What is in a crate of threads."""
    return [f"{node.path}:{node.line}: {node.name} is of a crate of threads, and the contracts reach it"
            for key, node in nodes.items() if repository.crates[key[0]].storey == "Threads"]


def private_in(nodes):
    """Private fields of types that contracts see by their fields, where no definition that is about the type names
    them: these show how a thing is kept, and nothing of what is promised. A field of the same name in another type
    doesn't count. No definition counts as naming a tuple's field, since each pair has one of its number."""
    types = [node for node in nodes.values() if node.kind == "type"]
    faults = []
    for node in types:
        about = about_type(nodes, node)
        fields = re.findall(r"(?m)^    (?:pub\(\w+\) )?([a-z]\w*):", node.text)
        unnamed_fields = [field for field in fields if not re.search(rf"\.{field}\b|\b{field} =", about)]
        faults += [f"{node.path}:{node.line}: the field {field} of {node.name} is private, and no definition names it"
                   for field in (*unnamed_fields, *private_places(node.text))]
    return faults


def about_type(nodes, node):
    """The texts of the definitions that name the type."""
    return "\n".join(other.text for other in nodes.values()
                     if other.kind == "definition" and node.key in other.below)


def private_places(text):
    """The numbers of a tuple struct's private fields."""
    found = re.search(r"\bstruct \w+(?:<[^(]*>)?\s*\((.*)\)", text, re.DOTALL)
    fields = re.split(r",\s*(?![^<(]*[>)])", found[1].strip().rstrip(",")) if found else []
    return [number for number, field in enumerate(fields) if not re.match(r"(?:#\[.*\]\s*)*pub ", field.strip())]


def key_named(keys, name):
    """The key of a definition that a page names, as `IsReady` or `probes.IsReady`, or what is wrong with the name."""
    words = name.split(".")
    found = [key for key in keys if key[2] == words[-1] and all(word in key[:2] for word in words[:-1])]
    found = [key for key in found if not key[1].endswith(".rt")] or found
    if len(found) == 1:
        return found[0], None
    if not found:
        return None, f"no definition {name} is reached"
    crates = {key[0] for key in found}
    ways = " or ".join(f"{key[0]}.{name}" if len(crates) == len(found) else ".".join(key) for key in found)
    return None, f"{name} is one of several: write {ways}"


def named(repository, keys):
    """What the pages have on each key, the texts of these pages with their links, and the names that have no place."""
    said, texts, targets, faults = {}, {}, {}, []
    for page in NAMING:
        texts[page], targets[page] = repository.text(f"docs/{page}"), {}
        for mention in mentions_in(texts[page], page):
            key, wrong = key_named(keys, mention.name)
            if key:
                said.setdefault(key, []).append(mention)
                targets[page][mention.name] = key
            else:
                faults.append(f"docs/{page}:{mention.line}: {wrong}")
    return said, texts, targets, faults


def unnamed(nodes, said):
    """The definitions that no sentence names, crate by crate, as lines."""
    by_crate = {}
    for key, node in nodes.items():
        if node.kind == "definition" and key not in said:
            by_crate.setdefault(key[0], []).append(key[2])
    return [wrapped(f"no sentence names these of {crate}: {' '.join(names)}", "note: ", "  ")
            for crate, names in by_crate.items()]


def pages_of(top):
    """The texts of all pages by their names in docs/, and what is wrong; then the notes."""
    repository = Repository(top)
    contracts, nodes, library = reached(repository, CRATE, FUNCTIONS)
    _, of_rules, _ = reached(repository, CRATE, FUNCTIONS + IN_A_FORMAT)
    said, naming, targets, faults = named(repository, [*nodes, *(node.key for node in contracts)])
    texts, places = texts_of(repository, contracts, nodes, library, said)
    faults += [f"docs/{name} has more than {MOST} lines" for name, text in texts.items() if text.count("\n") > MOST]
    faults += [f"docs/examples.tsv: {name} occurs twice" for name in exampled_twice(repository)]
    for name, text in naming.items():
        texts[name] = with_links(text, {word: "#".join(places[key]) for word, key in targets[name].items()})
    faults = threads_in(repository, nodes) + private_in(nodes) + misplaced(repository, of_rules) + faults
    return texts, faults, unnamed(nodes, said)


def links_that_are_dead(top, texts):
    """Links to what the pages of the theorem have not, in the documents as they are once these texts are written."""
    pages = {f"docs/{name}": text for name, text in texts.items() if name not in NAMING}
    return dead_links(documents_with(top, texts, OWN), pages, f"docs/{OWN}")


def faults(top, checks, has_notes=False):
    """Writes the pages, or only checks them. Returns what is wrong, a line each; prints the notes if asked to."""
    texts, found, notes = pages_of(top)
    if has_notes:
        print(*notes, sep="\n")
    if checks:
        found += differences(top, texts, "bench/theorem", OWN, "definition")
    else:
        write_anew(top, texts, OWN)
    return found + links_that_are_dead(top, texts)
