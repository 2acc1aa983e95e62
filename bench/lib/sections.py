"""A page as sections, each with a heading: its anchors and its text; and the sections of a page of definitions."""
from typing import NamedTuple

from entries import title_of, way
from mentions import slugs
from pages import TYPES, module_of
from paragraphs import prose, wrapped
from reach import Node

TITLE_OF_TYPES = "The declared types"


class Section(NamedTuple):
    level: int
    title: str
    lines: list = ()
    key: tuple = None   # of the module or the definition that it is of
    node: Node = None   # what is shown after the lines


def anchors_of(sections):
    """The anchor of each key on the page."""
    anchors = slugs([section.title for section in sections])
    return {section.key: anchor for section, anchor in zip(sections, anchors) if section.key}


def text_of(name, sections, entries):
    """The text of the page of this name."""
    lines = []
    for section in sections:
        lines += [f"{'#' * section.level} {section.title}", "", *section.lines]
        lines += entries.lines(section.node, name) if section.node else []
    return "\n".join(lines).rstrip("\n") + "\n"


def shown(node, level):
    """The section of a definition, a type, a trait or a contract."""
    return Section(level, title_of(node.key), key=node.key, node=node)


def module_section(repository, module):
    """The heading of a module, with its comment."""
    if module[1] == TYPES:
        return Section(2, TITLE_OF_TYPES, key=module)
    comment = repository.comment_of(*module)
    return Section(2, module[1], [wrapped(prose(comment)), ""] if comment else [], module)


def sections_of(page, repository, nodes, following):
    """The sections of a page of definitions; it names the page that follows it."""
    crate = repository.crates[page.keys[0][0]]
    head = [wrapped(f"A page of [the theorem](../theorem.md). The crate `{crate.name}`: {crate.words}."), ""]
    if following:
        head += [f"The next page: [{following.title}]({way(following.name, page.name)})", ""]
    sections = [Section(1, f"The crate {page.title}", head)]
    for key in page.keys:
        if module_of(key) not in {section.key for section in sections}:
            sections.append(module_section(repository, module_of(key)))
        sections.append(shown(nodes[key], 3))
    return sections
