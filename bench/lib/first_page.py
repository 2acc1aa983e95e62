"""The first page of the theorem: how to read it, the contracts, what is trusted, and the other pages."""
from pages import TYPES, grouped, module_of, top_down
from paragraphs import beginning, wrapped
from sections import TITLE_OF_TYPES, Section, shown

NAME = "theorem.md"
HEAD = ("""
The promise of the program with every definition that it uses, for whoever checks what is proved. `bench/theorem` writes
this page and the pages of the folder `theorem` from the sources.
""", """
The pages have the contracts of {functions} and every definition that these use, directly or through others:
{definitions} definitions in {files} files, and {types} declared types. The folders `specs/rule` contain these files
and no others. The promises also use [the words of the library](#the-words-of-the-library), and nothing else. No thread,
deque, pool or share of a book occurs in them. `bench/theorem --check` fails if one does, or if `specs/rule` contains
anything else.
""", """
This page has the contracts, [what is trusted](#what-is-trusted) and [the list of the pages](#the-pages) with the
definitions. The pages go from the report to the rules and on to the format. A crate precedes the crates that it names,
and a definition precedes the definitions that it names. An entry quotes the sentence of [rules.md](rules.md),
[formats.md](formats.md), [extended.md](extended.md) or [report.md](report.md) that states the same in words. Then come
an example ([examples.tsv](examples.tsv)), the definition, its file, and links to what it names. An example with a slash
is a case below `crates/case_runner/data`. The line `contracts:` of a type shows which value contracts see in place of
the type.
""")
CLAUSES = ("""
A contract follows the head of a function:
""", """
- `requires NAME { .. }`: what the caller has to make sure of. `ensures NAME { .. }`: what holds when the call
  returns. The name only labels the clause; pages and checks cite it.
- `x.old` is the value at the beginning of the call, `x.new` the value at its end, `x.now` the value of what the call
  only reads. `result` is what the call returns.
- `OnOk result P`: P holds if the call returns `Ok`. `IfOk result (λ n. P)`: the same, where P speaks of the value n.
  `OnErr` and `IfErr` are their counterparts for `Err`. None of them promises anything of the other case, so a contract
  has clauses for both. `IsErrOf result E`: the call returns `Err` with exactly E.
- `A × B`: both hold. `A ⊎ B`: at least one holds. `A → B`: if A holds, so does B; `A → ⊥`: A does not hold. `≡` is
  equality. `(x : T) × P`: there is an x such that P; `(x : T) → P`: P holds for every x. `All P list` and `Any P list`:
  P holds of every item, of some item.
- `ℕ` and `ℤ` are the natural numbers and the integers, without overflow. `x ∷ list` and `++` build lists. A text is its
  bytes, a `List ℕ`.
- `Option (List ℕ)` is the bytes of a reader or writer if they are known: `Some bytes` in memory, `None` for a file, a
  pipe or standard output. A clause on bytes promises nothing about `None`.
- `abbrev NAME : TYPE` with the equation below it is a definition that you may replace by its right side. `Type 0` as
  the result means that it is a statement, which may hold or not. `unfoldable` is the same for a function that recurs.
- `pub record NAME (x : T) : Type 0 where` is a statement with named parts: it holds if all parts hold. A part that is
  no statement (`pub code : ℤ`) is a value that has to exist so that the other parts hold. A record of values alone is
  a struct with these fields.
""")
READING = """
To check one rule, read only its definitions. For the condition ContainersReady, and so for Ready, these are in {files}
files. Read them in this order:
"""
# the reading list begins with this definition; a repository without it has no list
READY = ("pod_state", "Pods", "AreContainersReady")
TRUSTED = """
The toolchain, clang, the C library and the system ([proved.md](proved.md#what-is-trusted)). A premise is that the
contracts of the reader and the writer show which bytes they move and which of their calls fail, as the contracts of
readers and writers over memory do. The clauses on bytes promise nothing about files, pipes and standard output.
"""
WORDS = "The kit defines these; `rt lemma NAME` shows each."
PAGES = """
Each crate has a page. If the page would have 500 lines or more, the crate's longest modules, or its declared types, get
pages of their own. A page that is still too long has parts.
"""


def clauses():
    """How to read a clause."""
    before, items = CLAUSES
    return [wrapped(before), "", *(wrapped(item, "- ", "  ") for item in items.strip("\n- ").split("\n- ")), ""]


def below(nodes, start):
    """The keys of the definitions that a definition is made of, itself first."""
    found = top_down(reach_of(nodes, start), lambda key: nodes[key].below)
    return [key for key in found if nodes[key].kind == "definition"]


def reach_of(nodes, start):
    """All keys that a definition reaches, itself among them."""
    seen, left = [], [start]
    while left:
        key = left.pop()
        if key in nodes and key not in seen:
            seen.append(key)
            left += nodes[key].below
    return seen


def reading(nodes, anchors):
    """Which files to read for the condition ContainersReady, in which order. `anchors` has of each page its anchors."""
    if READY not in nodes:
        return []
    keys = below(nodes, READY)
    modules = grouped(keys, lambda key: nodes[key].below, module_of)
    pages = {key: name for name, found in anchors.items() for key in found}
    lines = [wrapped(READING.format(files=len(modules))), ""]
    for module, of_module in modules.items():
        page = pages[of_module[0]]
        names = " ".join(f"`{key[2]}`" for key in of_module)
        lines.append(wrapped(f"[{', '.join(module)}]({page}#{anchors[page][module]}): {names}", "1. ", "   "))
    return [*lines, ""]


def head(contracts, nodes):
    """What the pages are, with how much of each they have."""
    definitions = [node for node in nodes.values() if node.kind == "definition"]
    names = [f"`{node.name}`" for node in contracts]
    counts = {"functions": ", ".join(names[:-1]) + " and " + names[-1], "definitions": len(definitions),
              "files": len({node.path for node in definitions}),
              "types": sum(node.kind == "type" for node in nodes.values())}
    return [line for paragraph in HEAD for line in (wrapped(paragraph.format(**counts)), "")]


def words(library):
    """The words of the library that are used, module by module."""
    return [wrapped(f"`{path}`: " + " ".join(f"`{word}`" for word in sorted(set(used))), "- ", "  ")
            for path, used in sorted(library.items())]


def item(page, repository, anchors):
    """A page in the list: a link to it, and what it has. `anchors` are the page's."""
    modules = list(dict.fromkeys(map(module_of, page.keys)))
    if len(page.owner) > 1:
        comment = TITLE_OF_TYPES if modules[0][1] == TYPES else repository.comment_of(*modules[0])
        return wrapped(": ".join(filter(None, [f"[{page.title}]({page.name})", beginning(comment)])), "- ", "  ")
    links = ", ".join(f"[{module[1]}]({page.name}#{anchors[module]})" for module in modules)
    return wrapped(f"[{page.title}]({page.name}), {repository.crates[page.owner[0]].words}: {links}", "- ", "  ")


def sections_of(repository, contracts, nodes, library, parts, anchors):
    """The sections of the first page. `parts` has the other pages, part by part, and `anchors` of each its anchors."""
    traits = [node for node in nodes.values() if node.kind == "trait"]
    sections = [Section(1, "The theorem", head(contracts, nodes)),
                Section(2, "How to read a clause", clauses() + reading(nodes, anchors)), Section(2, "The contracts"),
                *(shown(node, 3) for node in contracts),
                Section(2, "What is trusted", [wrapped(TRUSTED), ""]), *(shown(node, 3) for node in traits),
                Section(3, "The words of the library", [wrapped(WORDS), "", *words(library), ""]),
                Section(2, "The pages", [wrapped(PAGES), ""])]
    for title, pages in parts.items():
        sections.append(Section(3, title, [*(item(page, repository, anchors[page.name]) for page in pages), ""]))
    return sections
