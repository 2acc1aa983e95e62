"""How a definition, a type, a trait or a contract is shown below its heading: its comment, its text, its place,
and links to what it names."""
import os
import re
from collections import Counter

from mentions import slug
from paragraphs import prose, wrapped


def title_of(key):
    """The heading of what has this key."""
    return f"`{key[2]}`" if slug(key[2]) else f"`{key[2]}` of {key[1]}"


def way(path, page):
    """The way from a page to a file; both are named from docs/."""
    return os.path.relpath(path, os.path.dirname(page) or ".")


def moved(text, path, page):
    """A text of the document at this path, with its links as they are from a page."""
    return re.sub(r"\]\(([^():#\s]*)(#[^()\s]*)?\)",
                  lambda link: f"]({way(link[1] or path, page)}{link[2] or ''})", text)


def example_lines(repository):
    return [line.partition("\t") for line in repository.text("docs/examples.tsv").split("\n")[1:]]


def exampled_twice(repository):
    """The definitions that have several examples, of which a page would show one."""
    counts = Counter(name for name, _, _ in example_lines(repository))
    return [name for name, count in counts.items() if count > 1]


def examples_in(repository, of=""):
    """Of each definition by its whole name its example, with the cases that show it. With a word the definition is
    named, after that word."""
    found = {}
    for name, _, rest in example_lines(repository):
        example, _, cases = rest.partition("\t")
        what = f" {of} `{name.rpartition('.')[2]}`" if of else ""
        shown = ", ".join(f"`{case}`" for case in cases.split())
        parts = [f"Example{what}: {example}"] * bool(example)
        parts += [f"{'Shown' if example or not of else what[len(of) + 2:] + ' is shown'} by {shown}"] * bool(shown)
        found[name] = ". ".join(parts) + "."
    return found


class Entries:
    """For each key `said` has what other pages have on it, and `places` its page, named from docs/, and its anchor."""

    def __init__(self, examples, said, places):
        self.examples, self.said, self.places = examples, said, places

    def link(self, key, page):
        """A link from a page to what has this key."""
        target, anchor = self.places[key]
        return f"[{key[2]}]({'' if target == page else way(target, page)}#{anchor})"

    def quotes(self, key, page):
        """The sentences that other pages have on it, each with a link to its heading."""
        for mention in self.said.get(key, ()):
            text = f"[{mention.page}, {mention.heading}](#{slug(mention.heading)}): {mention.sentence}"
            yield wrapped(moved(text, mention.page, page), "> ")

    def place(self, node, page):
        """A link to its file; a line would change the page whenever the file changes above the definition."""
        return f"[{os.path.basename(node.path)}]({way(f'../{node.path}', page)})"

    def lines(self, node, page):
        """All lines on a page below the heading."""
        language = "text" if node.path.endswith(".antt") else "rust"
        below = [self.link(key, page) for key in node.below if key in self.places]
        lines = [wrapped(prose(node.comment)), ""] if node.comment else []
        for quote in self.quotes(node.key, page):
            lines += [quote, ""]
        example = self.examples.get(".".join(node.key))
        lines += [wrapped(example), ""] if example else []
        lines += [f"```{language}", *node.text.split("\n"), "```", ""]
        lines += [wrapped(self.place(node, page) + ("; it names " + ", ".join(below) if below else "")), ""]
        return lines
