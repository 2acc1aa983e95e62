"""Puts into a folder what a release has next to its program: the tools without their tests, the examples, the documents
and what starts the recorder on nodes. A link of a document to what the release has not becomes its words.

    release_files.py TOP FOLDER
"""
import os
import posixpath
import re
import shutil
import subprocess

import script

PARTS = ("tools", "examples", "docs", "deploy", "README.md", "VERSION", "CHANGELOG.md", "SECURITY.md")
LEFT_OUT = ("tools/tests/", "tools/test")
# code comes first, since what looks like a link in it is none
CODE_OR_LINK = re.compile(r"^```.*?^```|(`+)(?!`).*?(?<!`)\1(?!`)"
                          r"|\[(?P<words>(?:`[^`]*`|[^][`])*)\]\((?P<path>[^()\s#]*)(?:#[^()\s]*)?\)", re.M | re.S)


def files_of(top):
    """The files that git lists of these parts."""
    listed = subprocess.run(["git", "-C", top, "ls-files", "-z", *PARTS], stdin=subprocess.DEVNULL,
                            stdout=subprocess.PIPE, check=False)
    if listed.returncode != 0:
        raise script.Fault(f"git lists no files of {top}")
    return [path for path in map(os.fsdecode, listed.stdout.split(b"\0")[:-1])
            if not path.startswith(LEFT_OUT[0]) and path != LEFT_OUT[1]]


def folders_of(files):
    """All folders in which some of the files lie, the topmost one too."""
    found = {"."}
    for path in files:
        while path := posixpath.dirname(path):
            found.add(path)
    return found


def without_dead_links(text, path, there):
    """The text of a document at this path, whose links lead to the files and folders that are there."""
    def alive(found):
        target = found["path"]
        if not target or re.match(r"\w+:", target):
            return True
        return posixpath.normpath(posixpath.join(posixpath.dirname(path), target)) in there
    return CODE_OR_LINK.sub(lambda found: found[0] if found["words"] is None or alive(found) else found["words"], text)


def main(words):
    if len(words) != 2:
        raise script.Usage("release_files.py TOP FOLDER")
    top, folder = words
    files = files_of(top)
    there = {*files, *folders_of(files)}
    for path in files:
        copy = os.path.join(folder, path)
        os.makedirs(os.path.dirname(copy), exist_ok=True)
        shutil.copy(os.path.join(top, path), copy)
        if path.endswith(".md"):
            with open(copy, encoding="utf-8") as document:
                text = document.read()
            with open(copy, "w", encoding="utf-8") as document:
                document.write(without_dead_links(text, path, there))


if __name__ == "__main__":
    script.run("release_files.py", main, __doc__)
