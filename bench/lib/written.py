"""Pages below docs/ that a script writes: they are written again, or the script prints which are not as they would
be. Some fill a folder of their own, which has no others then."""
import glob
import os

import script
from links import documents_in


def text_at(path):
    """The text of a file; nothing where there is none."""
    if not os.path.exists(path):
        return None
    with open(path, encoding="utf-8") as file:
        return file.read()


def superfluous(top, texts, folder):
    """The pages of the folder, if there is one, that are none any more; named from docs/ as the texts are."""
    docs = os.path.join(top, "docs")
    there = sorted(glob.glob(f"{folder}**/*.md", root_dir=docs, recursive=True)) if folder else ()
    return [name for name in there if name not in texts]


def write_anew(top, texts, folder=None):
    """Writes the pages that are stale or missing, and removes those that are none any more."""
    docs = os.path.join(top, "docs")
    os.makedirs(os.path.join(docs, folder or ""), exist_ok=True)
    for name, text in texts.items():
        if text_at(os.path.join(docs, name)) != text:
            script.write(os.path.join(docs, name), text)
    for name in superfluous(top, texts, folder):
        os.remove(os.path.join(docs, name))


def differences(top, texts, command, folder=None, what=None):
    """What writing again by the command would change. Each page of the folder has some of what it is for."""
    there = {name: text_at(os.path.join(top, "docs", name)) for name in texts}
    return [*(f"docs/{name} is {'missing' if there[name] is None else 'stale'}: run {command}"
              for name, text in texts.items() if there[name] != text),
            *(f"docs/{name} has no {what}: run {command}" for name in superfluous(top, texts, folder))]


def documents_with(top, texts, folder):
    """All documents of the repository by their paths, as they are once these texts are written."""
    gone = {f"docs/{name}" for name in superfluous(top, texts, folder)}
    documents = {path: text_at(os.path.join(top, path)) for path in documents_in(top) if path not in gone}
    return {**documents, **{f"docs/{name}": text for name, text in texts.items()}}
