"""What a crate shows: its public calls with their clauses, its public types, traits and constants, and what it passes
on of other crates. All is read of src/lib.rt and of the modules that it names."""
import os
import re
from typing import NamedTuple

from rt import braced_at

USE = re.compile(r"(?m)^pub use ([\w:]+?)::(?:\{([^}]*)\}|(\w+)(?: as \w+)?);")
MODULE = re.compile(r"(?m)^(pub )?mod (\w+);")
BLOCK = re.compile(r"(pub )?(?:unsafe )?(impl|trait)\b")
ITEM = re.compile(r"(\s*)(pub )?(fn|struct|enum|const|type|trait) (\w+)")
CLAUSE = re.compile(r"\s*(?://[^\n]*\n\s*)*(requires|ensures)\b\s*(\w*)\s*(?=\{)")


class Clause(NamedTuple):
    kind: str   # requires or ensures
    name: str   # empty if it has none
    term: str


class Item(NamedTuple):
    kind: str      # fn, struct, enum, const, type or trait
    owner: str     # the type or the trait that a call is of, or a public module
    name: str
    comment: str   # its doc comment, line by line
    head: str      # its first words, up to its clauses, its fields or its body
    clauses: list
    path: str
    line: int

    @property
    def whole_name(self):
        return f"{self.owner}::{self.name}" if self.owner else self.name


def clauses_at(text, at):
    """The clauses that follow one another from a place on."""
    found = []
    while clause := CLAUSE.match(text, at):
        term = braced_at(text, clause.end())
        found.append(Clause(clause[1], clause[2], " ".join(term.split())))
        at = clause.end() + len(term) + 2
    return found


def comment_above(lines, at):
    """The doc comment above a line; attributes may be between."""
    comment = []
    while at and re.match(r"\s*(///|#\[|[^/]*\)\]$)", lines[at - 1]):
        at -= 1
        if lines[at].strip().startswith("///"):
            comment.insert(0, lines[at].strip()[3:].strip())
    return "\n".join(comment)


def head_of(text, at):
    """What an item begins with, and where that ends."""
    end = re.compile(r"\s*(?=\{|;\s*$|\n\s*(?:requires|ensures)\b)", re.M).search(text, at).start()
    return " ".join(text[at:end].replace(",\n", ", \n").split()).replace("( ", "(").replace(", )", ")"), end


def owner_of(header):
    """Of the head of an impl the trait that it is of, if there is one, and the type; of a trait its name."""
    if "trait" in header.split("<")[0].split():
        return None, re.search(r"\btrait (\w+)", header)[1]
    rest = header[header.index("impl") + len("impl"):].strip()
    depth = 0
    for at, sign in enumerate(rest):
        depth += {"<": 1, ">": -1}.get(sign, 0)
        if not depth:
            rest = rest[at + 1:] if sign == ">" else rest
            break
    trait, of, kind = rest.strip().partition(" for ")
    return (re.match(r"[\w:]+", trait)[0].rpartition("::")[2], named(kind)) if of else (None, named(trait))


def named(kind):
    return re.search(r"\w+", re.sub(r"'\w+", "", kind.lstrip("&")))[0]


def items_in(text, path):
    """All items of a file that may be public: those at its margin, and the calls of each impl and trait. Of a call of a
    trait for a type the owner has both."""
    lines, starts, at = text.split("\n"), [], 0
    for line in lines:
        starts.append(at)
        at += len(line) + 1
    owner, open_to_all, found = "", False, []
    for number, line in enumerate(lines):
        if BLOCK.match(line):
            head, _ = head_of(text, starts[number])
            trait, kind = owner_of(head)
            owner, open_to_all = f"{kind} as {trait}" if trait else kind, bool(trait) or "trait" in head.split()
        elif line.startswith("}"):
            owner, open_to_all = "", False
        item = ITEM.match(line)
        if not item or item[1] not in ("", "    ") or not (item[2] or item[1] and open_to_all):
            continue
        head, end = head_of(text, starts[number])
        clauses = clauses_at(text, end) if item[3] == "fn" else []
        found.append(Item(item[3], owner if item[1] else "", item[4], comment_above(lines, number), head, clauses, path,
                          number + 1))
    return found


class Shown(NamedTuple):
    comment: str     # of the crate, line by line
    items: list      # the items of lib.rt, and in its order the ones of its modules; after each type its calls
    handed_on: dict  # of other crates: what is passed on of them


def module_comment(text):
    lines = [line[3:].removeprefix(" ") for line in text.split("\n") if line.startswith("//!")]
    return "\n".join(lines)


def names_in(listed):
    return [name.partition(" as ")[0].strip() for name in listed.split(",") if name.strip()]


def shown_by(repository, crate):
    """What a crate shows; nothing if it has no src/lib.rt."""
    folder = f"crates/{crate}/src"
    if not os.path.exists(os.path.join(repository.top, folder, "lib.rt")):
        return Shown("", [], {})
    text = repository.text(f"{folder}/lib.rt")
    files = {path: items_in(repository.text(path), path) for path in repository.sources(crate)}
    modules, handed_on = {found[2]: bool(found[1]) for found in MODULE.finditer(text)}, {}
    own = files[f"{folder}/lib.rt"]
    items = [found for item in own if not item.owner for found in with_calls(item.name, own, files)]
    for path, listed, name in USE.findall(text):
        root = path.split("::")[0]
        for name in names_in(listed or name):
            if root in modules:
                items += with_calls(name, files[f"{folder}/{root}.rt"], files)
            else:
                handed_on.setdefault(root, []).append(name)
    for module, is_public in modules.items():
        if is_public:
            items += [item._replace(owner=module) for item in files[f"{folder}/{module}.rt"] if not item.owner]
    return Shown(module_comment(text), items, handed_on)


def with_calls(name, of_module, files):
    """The item of this name in a module, and if it is a type or a trait its calls, wherever they are."""
    item = next((item for item in of_module if not item.owner and item.name == name), None)
    if not item:
        return []
    calls = [call for found in files.values() for call in found
             if call.owner == name or call.owner.startswith(f"{name} as ") and call.clauses]
    return [item, *calls]
