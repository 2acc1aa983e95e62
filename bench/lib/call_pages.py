"""The list of all calls: a page for each storey, with the calls of each crate and the definitions that the theorem does
not reach; and a first page with what is on which."""
from typing import NamedTuple

import call_entries as entries
from crates import STOREYS
from entries import examples_in
from folders import NAMING, files_in
from mentions import slug
from pages import MOST
from paragraphs import beginning, wrapped
from public import shown_by
from reach import bare

FIRST, FOLDER = "calls.md", "calls/"
# its crates have tests, and no calls for others
OF_NO_LIBRARY = ("Tests",)
HEAD = ("""
The public calls of each crate, with their contracts in short, for whoever calls or changes a crate. `bench/calls`
writes this page and the pages of the folder `calls` from the contracts, the doc comments and
[examples.tsv](examples.tsv). They have all {calls} public calls, and the {definitions} definitions that
[the theorem](theorem.md) does not reach: what a value keeps, what a call requires of the layer above it or promises to
it, and the laws.
""", """
The name of a call links to the file with its contract. An entry has the doc comment, then what the call requires of its
caller (the condition, or its name if it is long), the names of its clauses ("one" is a clause without a name), the type
of its errors, and an example of a definition that it promises. A law is a call of a module `laws` with an empty body:
its contract is the law, which follows from the definitions.
""", """
The clauses of a call that can fail are grouped: clauses of `Ok`, clauses of an error, and clauses of both. The last two
give what holds after an error. If all clauses are "of `Ok` alone", an error contains only its reason, and the call
drops what the caller moved into it. Whatever a call borrows (`&T`) stays as it is. `AllocError` means that an
allocation failed.
""", """
The entry of a definition lists the public calls that have it in their clauses. An example with a slash is a case, a
table or a folder of cases of `case_runner`, below `crates/case_runner/data`; any other example is a test of
`calls_tests`.
""")


class Defined(NamedTuple):
    """A definition that the theorem does not reach."""
    key: tuple
    comment: str
    path: str


class Listed:
    """A crate with its calls and its definitions, and what the calls name."""

    def __init__(self, repository, crate, reached):
        self.crate, self.shown = crate, shown_by(repository, crate.name)
        self.is_reached = any(key[0] == crate.name for key in reached)
        self.keys, self.calls_with = {}, {}
        for item in self.shown.items:
            if item.kind == "fn":
                self.keys[item.whole_name] = keys_in(repository, item)
                for key in self.keys[item.whole_name]:
                    self.calls_with.setdefault(key, []).append(item.whole_name)
        self.modules = modules_of(repository, crate.name, reached)


def keys_in(repository, item):
    """The definitions that the clauses of a call name: first the ones of what it promises."""
    scope = repository.file(item.path).scope
    words = entries.words_of(item.clauses, "ensures") + entries.words_of(item.clauses, "requires")
    return repository.keys(scope, words)


def modules_of(repository, crate, reached):
    """The definitions that are not reached, by the whole names of their modules; and the comments of these."""
    found = {}
    for file in files_in(repository, crate):
        if file in NAMING:
            continue
        module = file.removesuffix(".antt").replace("/", ".")
        read, path = repository.module(crate, module), f"crates/{crate}/specs/{file}"
        made = [Defined((crate, bare(module), definition.name), definition.comment, path)
                for definition in read.definitions if (crate, bare(module), definition.name) not in reached]
        if made:
            found[module] = read.comment, made
    return found


class Lists:
    """The lists of all crates, as lines of a page."""

    def __init__(self, repository, reached):
        self.examples, self.examples_by_name = examples_in(repository), examples_in(repository, "of")
        self.crates = [Listed(repository, crate, reached) for crate in repository.crates.values()
                       if crate.storey not in OF_NO_LIBRARY]
        self.calls_with = {}
        for listed in self.crates:
            for key, names in listed.calls_with.items():
                self.calls_with.setdefault(key, []).extend((listed.crate.name, name) for name in names)
        self.stated = {key for listed in self.crates for name, keys in listed.keys.items() if name.startswith("laws::")
                       for key in keys if key[:2] == (listed.crate.name, "Laws")}
        self.defined = {made.key: made for listed in self.crates for _, all_made in listed.modules.values()
                        for made in all_made}

    def example(self, keys, shown):
        """The example of the first of these definitions that has one, if it was not shown before."""
        name = next((".".join(key) for key in keys if ".".join(key) in self.examples), None)
        if not name or name in shown:
            return ""
        shown.add(name)
        return self.examples_by_name[name]

    def statements(self, keys, page):
        """The definitions that a law states, each with a link."""
        made = [self.defined[key] for key in keys if key in self.stated and key in self.defined]
        links = [f"[`{one.key[2]}`]({entries.place(one.path, page)})" for one in made]
        return f"It states {', '.join(links)}." if links else ""

    def calls(self, listed, page):
        lines, shown = [], set()
        for item in listed.shown.items:
            keys = listed.keys.get(item.whole_name, [])
            more = [self.statements(keys, page) if item.owner == "laws" else "", self.example(keys, shown)]
            lines.append(entries.item_line(item, page, more))
        return lines

    def citing(self, made):
        """Which public calls have a definition in their clauses; the ones of its own crate by their names alone."""
        found = [name if crate == made.key[0] else f"{crate}::{name}" for crate, name in
                 self.calls_with.get(made.key, ())]
        return ", ".join(f"`{name}`" for name in found)

    def definitions(self, listed, page):
        lines = []
        for module, (comment, all_made) in listed.modules.items():
            left = [made for made in all_made if made.key not in self.stated]
            if left:
                said = f": {beginning(comment)}" if comment else ""
                lines.append(wrapped(f"`{bare(module)}`{said}", "- ", "  "))
            for made in left:
                lines.append(entries.definition_line(made, page, self.citing(made),
                                                     self.examples.get(".".join(made.key), "")))
        return lines

    def section(self, listed, page):
        """All that a page has of a crate."""
        crate = listed.crate
        lines = [f"## `{crate.name}`", "", *entries.module_lines(listed.shown.comment)]
        if listed.is_reached:
            link = entries.way(f"theorem/{crate.name}.md", page)
            lines += [f"The theorem reaches the definitions on [its page]({link}).", ""]
        for other, names in listed.shown.handed_on.items():
            lines += [wrapped(f"It re-exports {entries.listed(names)} of `{other}`."), ""]
        rest = " that the theorem does not reach" if listed.is_reached else ""
        for title, items in ((f"Calls of `{crate.name}`", self.calls(listed, page)),
                             (f"Definitions of `{crate.name}`{rest}", self.definitions(listed, page))):
            lines += [f"### {title}", "", *items, ""] if items else []
        return lines


def length(lines):
    return sum(line.count("\n") + 1 for line in lines)


def parts_of(storey, sections):
    """The pages of a storey, each with as many crates as fit: the name of its file, its title, and its crates."""
    parts, lines = [[]], 0
    for listed, section in sections:
        if parts[-1] and lines + length(section) > MOST - 10:
            parts.append([])
            lines = 0
        parts[-1].append(listed)
        lines += length(section)
    return [(f"{FOLDER}{storey.lower()}{f'-{number}' * (number > 1)}.md",
             storey + f", part {number}" * (len(parts) > 1), part) for number, part in enumerate(parts, 1)]


def faults_of(lists, reached, texts):
    """Pages that are too long, public calls without a doc comment, and examples of what is no definition."""
    faults = [f"docs/{name} has more than {MOST} lines" for name, text in texts.items() if text.count("\n") > MOST]
    faults += [f"{item.path}:{item.line}: the public call {item.whole_name} has no doc comment"
               for listed in lists.crates for item in listed.shown.items
               if item.kind == "fn" and not item.comment and " as " not in item.owner]
    known = {".".join(key) for key in (*reached, *lists.defined)}
    return faults + [f"docs/examples.tsv: there is no definition {name}" for name in lists.examples
                     if name and name not in known]


def page_text(lists, name, title, part):
    lines = [f"# Calls and definitions: {title}", "", "[calls.md](../calls.md) shows how to read an entry.", ""]
    for listed in part:
        lines += lists.section(listed, name)
    return "\n".join(lines).rstrip("\n") + "\n"


def texts_of(lists):
    """The texts of all pages by their names in docs/."""
    texts, links = {}, []
    for storey in STOREYS:
        found = [listed for listed in lists.crates if listed.crate.storey == storey]
        sections = [(listed, lists.section(listed, f"{FOLDER}x.md")) for listed in found]
        for name, title, part in parts_of(storey, [pair for pair in sections if pair[1]]) if found else ():
            texts[name] = page_text(lists, name, title, part)
            crates = ", ".join(f"[`{listed.crate.name}`]({name}#{slug(listed.crate.name)})" for listed in part)
            links.append(wrapped(f"[{title}]({name}): {crates}", "- ", "  "))
    calls = sum(item.kind == "fn" for listed in lists.crates for item in listed.shown.items)
    head = [wrapped(paragraph.format(calls=calls, definitions=len(lists.defined))) for paragraph in HEAD]
    texts[FIRST] = "\n\n".join(["# Calls and definitions", *head, "\n".join(links)]) + "\n"
    return texts
