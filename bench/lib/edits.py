"""Mutants: where a crate's edits are, what they make of its files, and what rejects them."""
import os
import re


def paths_of(top, name, shelf):
    """The paths of a crate's edits, in the order in which the gate tries them."""
    folder = f"{top}/crates/{name}/{shelf}"
    names = sorted(os.listdir(folder)) if os.path.isdir(folder) else []
    return [f"{folder}/{it}" for it in names if it.endswith(".edit")]


def read(path):
    with open(path, encoding="utf-8") as file:
        return file.read()


def texts_of(edit, folder):
    """The texts of the files below the folder that the edit changes, by path; None if it does not fit them."""
    path, old, texts = None, None, {}
    for line in read(edit).split("\n"):
        word, _, rest = line.partition(": ")
        if word == "file":
            path = rest.strip()
        elif word == "old":
            old = rest
        elif line.startswith("new:") and path and old:
            if path not in texts:
                if not os.path.isfile(f"{folder}/{path}"):
                    return None
                texts[path] = read(f"{folder}/{path}")
            if texts[path].count(old) != 1:
                return None
            texts[path], old = texts[path].replace(old, line[len("new:"):].removeprefix(" ")), None
    return texts or None


def verdict(status, said):
    """What rejects an edit, by the status and the output of its check: a kind, and the line that shows it."""
    if status == 0:
        return "still proved", ""
    if not re.search(r"^logic=not-proved", said, re.M):
        return "NOT CHECKED", said.partition("\n")[0]
    clause = re.search(r"^(?:note: )?(\S+): it is not proved that (.*)", said, re.M)
    if clause:
        name = re.search(r"\(`[^`]*`\)", clause[2])
        return "clause", f"{clause[1]}: {clause[2][:name.end()] if name else clause[2]}"
    broken = re.search(r"^\S+:\d+:\d+: error: .*", said, re.M)
    return "proof file only", broken[0] if broken else said.partition("\n")[0]
