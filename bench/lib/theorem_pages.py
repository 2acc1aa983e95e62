"""All pages of the theorem: which there are, and their texts."""
import first_page
from entries import Entries, examples_in, title_of
from mentions import slug
from pages import Page, grouped, modules_of, pages_of_crate
from sections import anchors_of, sections_of, text_of

# of these the contracts are shown, with all that they reach
CRATE, FUNCTIONS = "kubelet_replay", ("replay", "replay_play", "check")
PARTS = {
    "The report": ("Program", "Node", "Threads"),
    "The rules": ("Rules",),
    "The format": ("Format",),
    "The base": ("Base",),
}


def far_place(key):
    """A page and an anchor as long as a key's may be: which they are hangs on how long the pages are."""
    return f"theorem/{key[0]}-{key[1]}-99.md", f"{slug(title_of(key))}-99"


def parts_of(repository, nodes, entries):
    """The pages of definitions in the order in which they are read, part by part; no part is empty."""
    def below(key):
        return nodes[key].below if key in nodes else []

    def length(keys):
        page = Page((keys[0][0],), 0, keys)
        return text_of(page.name, sections_of(page, repository, nodes, page), entries).count("\n")

    keys = [key for key, node in nodes.items() if node.kind != "trait"]
    crates = grouped(keys, below, lambda key: key[0])
    parts = {}
    for title, storeys in PARTS.items():
        names = [name for name in crates if repository.crates[name].storey in storeys]
        pages = [page for name in names for page in pages_of_crate(name, modules_of(crates[name], below), length)]
        parts.update({title: pages} if pages else {})
    return parts


def texts_of(repository, contracts, nodes, library, said):
    """The texts of all pages by their names, and the place of each definition: its page and its anchor. Of each key
    `said` has what other documents have on it."""
    examples = examples_in(repository)
    far = {key: far_place(key) for key in [*nodes, *(node.key for node in contracts)]}
    parts = parts_of(repository, nodes, Entries(examples, said, far))
    pages = [page for of_part in parts.values() for page in of_part]
    sections = {page.name: sections_of(page, repository, nodes, following)
                for page, following in zip(pages, [*pages[1:], None])}
    anchors = {name: anchors_of(found) for name, found in sections.items()}
    sections[first_page.NAME] = first_page.sections_of(repository, contracts, nodes, library, parts, anchors)
    anchors[first_page.NAME] = anchors_of(sections[first_page.NAME])
    places = {key: (name, anchor) for name, found in anchors.items() for key, anchor in found.items() if key in far}
    entries = Entries(examples, said, places)
    return {name: text_of(name, found, entries) for name, found in sections.items()}, places
