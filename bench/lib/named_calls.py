"""Methods, variants and functions that documents name, as `Node::tick` or `kubelet_replay::replay`, and that no source
has. Names of the library and of crates of the kit are left alone."""
import glob
import os
import re

NAME = re.compile(r"`([A-Za-z_]\w*)::([A-Za-z_]\w*)`")
# what is not of this repository
FOREIGN = ("core", "env", "serde_json", "std")
TYPE = re.compile(r"(?m)^\s*(?:pub(?:\(\w+\))? )?(?:struct|enum|trait) (\w+)")
IMPL = re.compile(r"(?m)^(?:unsafe )?impl\b[^{\n]*")
MEMBER = re.compile(r"\bfn (\w+)|(?m:^    (?:pub(?:\(\w+\))? )?(\w+)(?:[,({:]| \{|$))")


def pages(top):
    """The documents that speak of the sources as they are; the change log speaks of names that are gone too."""
    found = [*glob.glob("docs/*.md", root_dir=top), *glob.glob("docs/decisions/*.md", root_dir=top),
             *glob.glob("crates/*/README.md", root_dir=top), "README.md", "CONTRIBUTING.md", "SECURITY.md"]
    return sorted(path for path in found if os.path.isfile(os.path.join(top, path)))


def read(top, path):
    with open(os.path.join(top, path), encoding="utf-8") as file:
        return file.read()


def members_of(texts):
    """The names that each type, module and crate has: by the blocks of its `impl`, `enum` or `trait`, and its file."""
    members = {}
    for path, text in texts.items():
        functions = set(re.findall(r"\bfn (\w+)", text))
        for name in (path.split("/")[1], os.path.basename(path).removesuffix(".rt")):
            members.setdefault(name, set()).update(functions)
        for begin in (*TYPE.finditer(text), *IMPL.finditer(text)):
            block = block_behind(text, begin.end())
            names = {name for pair in MEMBER.findall(block) for name in pair if name}
            for owner in set(re.findall(r"\b[A-Z]\w*", begin[0])):
                members.setdefault(owner, set()).update(names)
    return members


def block_behind(text, begin):
    """The text from there to the brace in the first column that ends the item."""
    end = re.compile(r"(?m)^\}").search(text, begin)
    return text[begin:end.start()] if end else text[begin:]


def faults(top):
    """A line for each name that no source has."""
    paths = glob.glob("crates/*/src/**/*.rt", root_dir=top, recursive=True)
    members = members_of({path: read(top, path) for path in paths})
    found = []
    for page in pages(top):
        for number, line in enumerate(read(top, page).split("\n"), 1):
            for owner, name in NAME.findall(line):
                if owner not in FOREIGN and name not in members.get(owner, ()):
                    found.append(f"{page}:{number}: no source has `{owner}::{name}`")
    return found
