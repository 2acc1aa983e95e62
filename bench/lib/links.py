"""Links between documents."""
import glob
import posixpath
import re

from mentions import prose_of, slugs

LINK = re.compile(r"(?:\]\(|^\[[^\]]*\]: )([^()\s#]*)(?:#([^()\s]+))?\)?")


def documents_in(top):
    """The names of the documents of a repository."""
    return sorted(path for form in ("*.md", "*/*.md", "docs/*/*.md") for path in glob.glob(form, root_dir=top))


def anchors_in(text):
    """The anchors of a document."""
    return set(slugs([found[1] for _, line in prose_of(text) if (found := re.match(r"#+ (.*)", line))]))


def links_in(text, path):
    """Each link of a document to a file: the number of its line, the file from the top, and the anchor or None.
    Code has none."""
    fenced = False
    for number, line in enumerate(text.split("\n"), 1):
        fenced ^= line.startswith("```")
        for found in LINK.finditer("" if fenced else re.sub(r"`[^`]*`", "", line)):
            target = posixpath.normpath(posixpath.join(posixpath.dirname(path), found[1])) if found[1] else path
            yield number, target, found[2]


def dead_links(documents, pages, folder):
    """What is wrong with the links of documents to these pages, which are all of a folder and perhaps some others.
    Documents and pages are texts by their paths from the top."""
    anchors, faults = {path: anchors_in(text) for path, text in pages.items()}, []
    for path, text in documents.items():
        for number, target, anchor in links_in(text, path):
            if target.startswith(folder) and target not in pages:
                faults.append(f"{path}:{number}: there is no page {target}")
            elif target in pages and anchor and anchor not in anchors[target]:
                faults.append(f"{path}:{number}: {target} has no place #{anchor}")
    return faults
