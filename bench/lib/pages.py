"""On which page each definition is. A crate has a page; if that would be too long, its longest modules have
pages of their own, until the others fit on one; what is still too long is cut between two definitions."""
from typing import NamedTuple

# no page has more lines, but for one with a single definition that is longer
MOST = 499
# all declared types of a crate are together, as the ones of a module are
TYPES = "types"


class Page(NamedTuple):
    owner: tuple   # a crate, or a module with its crate in front
    part: int      # its number, or 0 where there is no other
    keys: list     # module by module

    @property
    def name(self):
        """The name of its file, from docs/; the first part has no number."""
        return f"theorem/{'-'.join([*self.owner, *[str(self.part)] * (self.part > 1)])}.md"

    @property
    def title(self):
        return ", ".join([*self.owner, *[f"part {self.part}"] * bool(self.part)])


def top_down(keys, below):
    """The keys, each before those below it, and else in the order in which they are named."""
    order, seen, known = [], set(), set(keys)

    def visit(key):
        seen.add(key)
        for other in reversed(below(key)):
            if other in known and other not in seen:
                visit(other)
        order.append(key)

    for key in reversed(keys):
        if key not in seen:
            visit(key)
    return order[::-1]


def grouped(keys, below, group_of):
    """The groups of these keys, each before those that it names, with its keys in that order."""
    found = {}
    for key in keys:
        found.setdefault(group_of(key), []).append(key)
    order = top_down(list(found), lambda group: list(dict.fromkeys(
        group_of(other) for key in found[group] for other in below(key))))
    return {group: top_down(found[group], below) for group in order}


def module_of(key):
    """The crate and the module that a key is with."""
    return key[0], TYPES if key[1].endswith(".rt") else key[1]


def modules_of(keys, below):
    """The modules of a crate's keys, each before those that it names, and the types after them."""
    found = grouped(keys, below, module_of)
    return {module: found[module] for module in sorted(found, key=lambda module: module[1] == TYPES)}


def keys_of(modules):
    """The keys of all these modules."""
    return [key for keys in modules.values() for key in keys]


def alone(modules, length):
    """The modules that have pages of their own. `length` gives the lines of a page with these keys."""
    rest = dict(modules)
    while len(rest) > 1 and length(keys_of(rest)) > MOST:
        del rest[max(rest, key=lambda module: length(rest[module]))]
    return [module for module in modules if module not in rest]


def cut(keys, length):
    """The keys in parts, each with as many as a page may have."""
    if length(keys) <= MOST:
        return [keys]
    parts = [[]]
    for key in keys:
        if parts[-1] and length([*parts[-1], key]) > MOST:
            parts.append([])
        parts[-1].append(key)
    return parts


def parts_of(owner, keys, length):
    """The page with these keys, or its parts."""
    parts = cut(keys, length)
    return [Page(owner, number if len(parts) > 1 else 0, part) for number, part in enumerate(parts, 1)]


def pages_of_crate(crate, modules, length):
    """The pages of a crate, each where its first module comes."""
    own, pages = alone(modules, length), []
    shared = {module: keys for module, keys in modules.items() if module not in own}
    for module, keys in modules.items():
        if module in own:
            pages += parts_of(module, keys, length)
        elif module == next(iter(shared)):
            pages += parts_of((crate,), keys_of(shared), length)
    return pages
