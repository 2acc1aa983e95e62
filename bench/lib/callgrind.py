"""What a run's instructions are spent on, by what callgrind wrote of it. A function belongs to the crate that its
symbol begins with; what the compiler drew into a function counts as that function. A function of the standard library
counts as its callers, by how much each has it do."""
import collections
import re

READER, TREE, MEMORY, REST = "serde_json, reading", "serde_json, the tree", "memory functions", "the rest"
OURS = "our crates"
TURNS = 30


def group_of(name, ours):
    """The group of a function, one of our crates by its own name; None where its callers' groups count."""
    if "::" not in name:
        return MEMORY if re.search(r"alloc|free|chunk|perturb|tcache|mem(cpy|move|set|cmp)", name) else REST
    crate = name.partition("::")[0]
    # a crate has a copy of what drops a value of another crate
    if crate in ours and "::serde_json++" not in name:
        return crate
    if re.search(r"serde_json(::|\+\+)(value|map)\b", name) and not re.search(r"Value::from_(str|slice)", name):
        return TREE
    if crate in ("serde_json", "json"):
        return READER
    return None if re.fullmatch(r"(std|core)(_\w+)?", crate) else REST


def costs_in(lines):
    """The instructions of each function by itself, and those below each call of one by another."""
    names, own, below = {}, collections.Counter(), collections.Counter()
    callee = None

    def named(text):
        number, _, name = text.strip().partition(" ")
        return names.setdefault(number, re.sub(r"'\d+$", "", name))

    for line in lines:
        if line.startswith("fn="):
            caller = named(line[3:])
        elif line.startswith("cfn="):
            callee = named(line[4:])
        elif callee and line[0] in "0123456789+-*":
            below[caller, callee] += int(line.split()[1])
            callee = None
        elif line[0] in "0123456789+-*":
            own[caller] += int(line.split()[1])
    return own, below


def mixed(costs, share):
    """The shares of these functions together, each by what it costs."""
    found, total = collections.Counter(), sum(costs.values()) or 1
    for name, cost in costs.items():
        found.update({group: part * cost / total for group, part in share[name].items()})
    return found


def shares(below, groups):
    """How a function's instructions fall to the groups: to its own, or to its callers' by how much they have it do."""
    callers = collections.defaultdict(dict)
    for (caller, callee), cost in below.items():
        if groups[callee] is None and caller != callee:
            callers[callee][caller] = cost
    share = {name: {group: 1.0} if group else {} for name, group in groups.items()}
    # a turn reaches one call further, also round a cycle of calls
    for _ in range(TURNS):
        share.update({name: mixed(costs, share) for name, costs in callers.items()})
    return share


def spread(own, share):
    """The part of all instructions that falls to each group; what fell to none is the rest."""
    found = mixed(own, share)
    found[REST] += max(0.0, 1 - found.total())
    return found


def together(found, ours):
    """The groups with our crates as one."""
    joined = collections.Counter()
    for name, part in found.items():
        joined[OURS if name in ours else name] += part
    return joined


class Profile:
    """Of one run the part of all instructions that each function is, each group, and each of our crates; and whom
    memory is taken for."""

    def __init__(self, lines, ours):
        own, below = costs_in(lines)
        groups = {name: group_of(name, ours) for name in {*own, *(name for call in below for name in call)}}
        self.millions = own.total() / 1e6
        self.functions = collections.Counter({name: cost / own.total() for name, cost in own.items()})
        spent = spread(own, shares(below, groups))
        taken = collections.Counter({name: cost for name, cost in own.items() if groups[name] == MEMORY})
        above = {name: None if group == MEMORY else group for name, group in groups.items()}
        self.groups, self.memory = together(spent, ours), together(spread(taken, shares(below, above)), ours)
        self.crates = collections.Counter({name: part for name, part in spent.items() if name in ours})
