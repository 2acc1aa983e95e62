"""Where a page of docs/ names definitions, as `[IsVictim]` or `[probes.IsReady]`, and in which sentence."""
import re
from typing import NamedTuple

NAME = re.compile(r"\[((?:[A-Za-z_]\w*\.)*[A-Za-z_]\w*)\](?![(\[:])")
GROUP = re.compile(r"\s*\((?:\[[\w.]+\](?:,\s+)?)+\)")
BEGINS = re.compile(r"\s*(?:- |\d+\. |\|)")
MARK = "<!-- bench/theorem writes the lines below: links to the definitions that this page names -->"


class Mention(NamedTuple):
    name: str
    page: str
    line: int
    heading: str
    sentence: str


def slug(heading):
    """The anchor of a heading, as GitHub makes it, but for the number of one that is there twice."""
    bare = re.sub(r"\[([^\]]*)\]\([^)]*\)", r"\1", heading)
    return re.sub(r"[^\w\- ]", "", bare.strip().lower()).replace(" ", "-")


def slugs(headings):
    """The anchors of a page's headings, in order."""
    seen, found = {}, []
    for heading in headings:
        anchor = slug(heading)
        found.append(anchor if anchor not in seen else f"{anchor}-{seen[anchor]}")
        seen[anchor] = seen.get(anchor, 0) + 1
    return found


def prose_of(text):
    """The lines of a page with their numbers, without blocks of code and without what is below the mark."""
    fenced = False
    for number, line in enumerate(text.partition(MARK)[0].split("\n"), 1):
        if line.startswith("```"):
            fenced = not fenced
        elif not fenced and not line.startswith("    "):
            yield number, line


def paragraphs_of(text):
    """Each paragraph, item of a list or row of a table: the number of its first line, its heading, and its lines."""
    heading, begun, lines = "", 0, []
    for number, line in [*prose_of(text), (0, "")]:
        title = re.match(r"#+ (.*)", line)
        if lines and (not line.strip() or title or BEGINS.match(line)):
            yield begun, heading, lines
            lines = []
        if title:
            heading = title[1]
        elif line.strip():
            begun = begun if lines else number
            lines.append(line)


def bare(sentence):
    """A sentence without the names of definitions, the signs of a list, and the lines of a table."""
    text = GROUP.sub("", sentence)
    text = re.sub(r"^\s*(?:- |\d+\. )", "", text)
    if text.lstrip().startswith("|"):
        text = " · ".join(cell.strip() for cell in text.strip().strip("|").split("|") if cell.strip())
    return " ".join(text.split())


def sentences_of(paragraph):
    """The sentences of a paragraph; a row of a table is one."""
    if paragraph.lstrip().startswith("|"):
        return [paragraph]
    return re.split(r"(?<=[.!?])\s+(?=[A-Z`*(\"])", paragraph)


def mentions_in(text, page):
    found = []
    for number, heading, lines in paragraphs_of(text):
        for sentence in sentences_of("\n".join(lines)):
            names = NAME.findall(re.sub(r"`[^`]*`", "", sentence))
            found += [Mention(name, page, number, heading, bare(sentence)) for name in names]
    return found


def with_links(text, targets):
    """The page with a link for each of these names below the mark; without any the mark goes too."""
    body = text.partition(MARK)[0].rstrip("\n") + "\n"
    links = "\n".join(f"[{name}]: {target}" for name, target in sorted(targets.items()))
    return f"{body}\n{MARK}\n\n{links}\n" if links else body
