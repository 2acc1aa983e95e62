"""What the contracts of some functions reach: definitions, declared types and traits, and the library's words."""
import glob
import os
import re
from typing import NamedTuple

import antt
import rt
from crates import read_crates

LIBRARY = "library"
# the folders of specs/: what the contracts of a replay reach, and all else
RULE, STATE = "rule", "state"


def bare(module):
    """The name of a module, as `Order` of `rule.Order`: pages and keys leave out which folder it is in."""
    folder, _, name = module.partition(".")
    return name if name and folder in (RULE, STATE) else module


def whole_names(module):
    """The names that a module may have by its folder, where its bare name is this."""
    return f"{RULE}.{module}", f"{STATE}.{module}", module


class Node(NamedTuple):
    """Something reached. Its place is its crate with its module, as `ranking`, `Order`, or a file of src/; the folder
    of specs/ that the module is in is no part of it."""
    kind: str      # contract, trait, type or definition
    crate: str
    module: str
    name: str
    comment: str
    text: str
    path: str      # of its file, from the top
    line: int
    below: list    # the keys of what it names, in the order in which it names them

    @property
    def key(self):
        return self.crate, self.module, self.name


def path_of_module(crate, name):
    return f"crates/{crate}/specs/{name.replace('.', '/')}.antt"


class Repository:
    """Reads files once each, and looks words up."""

    def __init__(self, top):
        self.top = top
        self.crates = {crate.name: crate for crate in read_crates(top)}
        self.modules, self.files = {}, {}

    def text(self, path):
        with open(os.path.join(self.top, path), encoding="utf-8") as file:
            return file.read()

    def module(self, crate, name):
        """The module of a crate with this whole name, as `rule.Order`; nothing where there is none."""
        path = path_of_module(crate, name)
        if (crate, name) not in self.modules:
            there = os.path.exists(os.path.join(self.top, path))
            self.modules[crate, name] = antt.read_module(self.text(path), self.is_constructor) if there else None
        return self.modules[crate, name]

    def comment_of(self, crate, module):
        """The comment of a module with this bare name."""
        found = (self.module(crate, name) for name in whole_names(module))
        return next((read.comment for read in found if read), "")

    def file(self, path):
        if path not in self.files:
            self.files[path] = rt.read_file(self.text(path))
        return self.files[path]

    def sources(self, crate):
        found = glob.glob(f"crates/{crate}/src/**/*.rt", root_dir=self.top, recursive=True)
        return sorted(found)

    def path_of(self, path):
        """Of a path as `Rattle.ranking.specs.Order` the crate and the rest, where the crate is one of these."""
        words = path.split(".")
        if words[0] == "Rattle" and len(words) > 3 and words[1] in self.crates:
            return words[1], words[3:]
        return None

    def is_constructor(self, scope, word):
        """Whether a word names a constructor: then a clause whose left side has it binds no variable of that name."""
        head, _, rest = word.partition(".")
        path, name = scope.get(head, ("", None))
        if "TheVariants" in path:
            return bool(rest) or name is not None
        found = self.path_of(path)
        if not found:
            return name in ("Some", "None", "Ok", "Err", "true", "false", "zero", "suc", "pos", "negsuc", "tt")
        module = self.module(found[0], ".".join(found[1]))
        return bool(module) and any(name in definition.constructors for definition in module.definitions)

    def type_key(self, crate, name):
        """The key of a declared type of a crate, by the file that declares it."""
        for path in self.sources(crate):
            if re.search(rf"(?m)^(pub(\(crate\))? )?(struct|enum) {name}\b", self.file(path).text):
                return crate, os.path.basename(path), name
        return None

    def meaning(self, scope, word):
        """The key of what a word names; nothing if it is a variable or a sign."""
        head, _, rest = word.partition(".")
        path, name = scope.get(word) or scope.get(head) or ("", None)
        name = name or rest
        if not path or not name:
            return None
        found = self.path_of(path)
        if not found:
            return LIBRARY, path, name
        crate, rest_of_path = found
        if rest_of_path[0] == "declared":
            return self.type_key(crate, next(part for part in rest_of_path[1:] if part[0].isupper()))
        module = ".".join(rest_of_path)
        said = self.module(crate, module) or antt.Module("", {}, [], [])
        for definition in said.definitions:
            if name in (definition.name, *definition.constructors):
                return crate, bare(module), definition.name
        handed_on = antt.parts_of(name)[0]
        if handed_on in said.scope:
            return self.meaning(said.scope, handed_on)
        raise ValueError(f"{path_of_module(crate, module)} defines no {name}")

    def keys(self, scope, words):
        found = (self.meaning(scope, word) for word in words)
        return list(dict.fromkeys(key for key in found if key))

    def node(self, key):
        """What a key names, with the keys of what that names."""
        crate, module, name = key
        if module.endswith(".rt"):
            return self.declared(crate, name)
        whole, read, found = self.defined(key)
        own = {word: (f"Rattle.{crate}.specs.{whole}", name) for found in read.definitions
               for name in (found.name, *found.constructors) for word in antt.parts_of(name)}
        below = [other for other in self.keys({**read.scope, **own}, found.names) if other != key]
        path = path_of_module(crate, whole)
        return Node("definition", crate, module, name, found.comment, found.text, path, found.line, below)

    def defined(self, key):
        """The module that has the definition of a key, with its whole name, and the definition."""
        crate, module, name = key
        for whole in whole_names(module):
            read = self.module(crate, whole)
            for found in read.definitions if read else ():
                if found.name == name:
                    return whole, read, found
        return None

    def declared(self, crate, name):
        """A declared type or a trait."""
        for path in self.sources(crate):
            file = self.file(path)
            item, kind = rt.type_of(file.text, name), "type"
            if not item:
                item, kind = rt.trait_of(file.text, name), "trait"
            if item:
                below = self.keys(file.scope, item.names) + self.field_types(crate, file, item.types)
                own = crate, os.path.basename(path), name
                below = [key for key in dict.fromkeys(below) if key != own]
                return Node(kind, *own, item.comment, item.text, path, item.line, below)
        return None

    def field_types(self, crate, file, names):
        """The keys of the types of a type's fields, where a crate of the repository declares them."""
        found = []
        for name in names:
            root = file.uses.get(name, "crate").split("::")[0]
            owner = crate if root in ("crate", "super", "self") else root
            if owner in self.crates and (key := self.type_key(owner, name)):
                found.append(key)
        return found

    def trait_key(self, crate, name):
        """The key of a trait of a crate, or of one that its lib.rt passes on."""
        if node := self.declared(crate, name):
            return node.key
        handed_on = self.file(f"crates/{crate}/src/lib.rt").uses[name]
        return self.trait_key(handed_on.split("::")[0], name)

    def contract(self, crate, name):
        """A function with its contract, and below it what its clauses name."""
        for path in self.sources(crate):
            file = self.file(path)
            if item := rt.contract_of(file.text, name):
                below = self.keys(file.scope, item.names)
                for trait in item.types:
                    owner = file.uses.get(trait, crate).split("::")[0]
                    below.insert(0, self.trait_key(owner, trait))
                module = os.path.basename(path)
                return Node("contract", crate, module, name, item.comment, item.text, path, item.line, below)
        raise ValueError(f"crates/{crate}/src has no public function {name}")


def reached(repository, crate, functions):
    """The contracts, and all that they reach, each with its key; after them the words of the library, by module."""
    contracts = [repository.contract(crate, name) for name in functions]
    nodes, library = {}, {}
    left = [key for node in reversed(contracts) for key in reversed(node.below)]
    while left:
        key = left.pop()
        if key[0] == LIBRARY:
            library.setdefault(key[1], {}).setdefault(key[2])
        elif key not in nodes:
            nodes[key] = repository.node(key)
            left += reversed(nodes[key].below)
    return contracts, nodes, {path: list(words) for path, words in library.items()}
