"""The definitions of a module of specs/, as it is written: each with its comment, its place and the names that it
refers to."""
import re
import textwrap
from typing import NamedTuple

from terms import Walk, tokens_of

HEAD = re.compile(r"(?:unfoldable |abbrev |pub )+(record |data )?(?:pub )?(\S+)")
# definitions that are below a line of their own
GROUP = re.compile(r"(?:abbrev )?mutual$|module _\b.*\bwhere$")
IMPORT = re.compile(r"(?:pub )?(?:ghost )?use ([\w.]+)(?:\.\{([^}]*)\}| as (\w+))?;?$")


class Definition(NamedTuple):
    name: str
    comment: str
    text: str
    line: int
    names: list         # the words that it refers to, in the order in which it names them
    constructors: list  # of a data type


class Module(NamedTuple):
    comment: str
    scope: dict         # a word, and what it names: (path, name), the name None for a whole module
    definitions: list
    unread: list        # the number and the first line of each block that is no definition


def parts_of(name):
    """The words by which a name is used: of `◌>>=◌` the sign between."""
    return [part for part in name.split("◌") if part] or [name]


def imports_in(line, scope):
    """Puts what a line imports into the scope. Gives whether the line is an import."""
    read = IMPORT.match(line.strip())
    if not read:
        return False
    path, names, alias = read.groups()
    if names is None:
        scope[alias or path.rpartition(".")[2]] = path, None
        return True
    for item in re.split(r",\s*", names.strip()):
        name, _, other = item.partition(" as ")
        for word in parts_of((other or name).strip()):
            scope[word] = path, name.strip()
    return True


def blocks_of(lines):
    """The number of the first line of each block, with its lines; an empty line ends a block."""
    block = []
    for number, line in enumerate([*lines, ""], 1):
        if line.strip():
            block.append(line)
        elif block:
            yield number - len(block), block
            block = []


def comment_of(lines):
    return "\n".join(line.strip().lstrip("-").strip() for line in lines)


def clauses_of(lines):
    """The lines joined to those that begin at the margin."""
    clauses = []
    for line in lines:
        if line[0].isspace() and clauses:
            clauses[-1] += "\n" + line
        else:
            clauses.append(line)
    return clauses


def bound_by(pattern, is_constructor):
    """The variables of a clause's left side."""
    return {token for token in pattern if re.fullmatch(r"[^\W\d][\w']*", token) and not is_constructor(token)}


def names_in(lines, name, is_constructor):
    """The names in a definition whose lines are these."""
    clauses, found = clauses_of(lines), {}
    head = tokens_of(clauses[0])
    start = head.index(name) + 1
    found.update(dict.fromkeys(Walk().take(head[start:])))
    words = set(parts_of(name))
    for clause in clauses[1:]:
        tokens = tokens_of(clause)
        cut = tokens.index("=") if "=" in tokens else 0
        pattern = [token for token in tokens[:cut] if token not in words]
        bound = bound_by(pattern, is_constructor)
        found.update(dict.fromkeys(token for token in Walk(bound).take(pattern)))
        found.update(dict.fromkeys(Walk(bound).take(tokens[cut + 1:])))
        if "do" in tokens:
            found.setdefault(">>=")
    return list(found)


def read_module(text, is_constructor):
    """A module. What it imports is looked up by is_constructor(scope, word), which shows whether the word is one."""
    scope, raw, unread, comment = {}, [], [], ""
    for number, block in blocks_of(text.split("\n")):
        number, comment, notes, block = without_head(number, block, scope, comment)
        block = [line for line in block if not line.startswith("pub mod ")]
        if block and HEAD.match(block[0]):
            raw.append((number, notes, block))
            continue
        if block:
            unread.append((number, block[0]))
        if not raw:
            comment = comment or comment_of(notes)
    return Module(comment, scope, definitions_of(raw, lambda word: is_constructor(scope, word)), unread)


def without_head(number, block, scope, comment):
    """A block without the comments, imports and heads of groups that it begins with. The first comment before an import
    is the module's; the lines of another are the block's own."""
    notes, block = [], dedented(block)
    while block and (block[0].startswith(("--", "infix")) or GROUP.match(block[0]) or imports_in(block[0], scope)):
        if block[0].startswith("--"):
            notes.append(block[0])
        elif notes and not comment and not GROUP.match(block[0]):
            comment, notes = comment_of(notes), []
        block, number = dedented(block[1:]), number + 1
    return number, comment, notes, block


def dedented(block):
    return textwrap.dedent("\n".join(block)).split("\n") if block else []


def definitions_of(raw, is_constructor):
    """The definitions of a module, each from the number of its first line, its comment and its own lines."""
    made = [(number, notes, block, *constructors_of(block)) for number, notes, block in raw]
    own = {constructor for *_, found in made for constructor in found}
    definitions = []
    for number, notes, block, name, constructors in made:
        names = names_in(block, name, lambda word: word in own or is_constructor(word))
        definitions.append(Definition(name, comment_of(notes), "\n".join(block), number, names, constructors))
    return definitions


def constructors_of(block):
    """The name of a definition, and its constructors if it is a data type."""
    head = HEAD.match(block[0])
    if (head[1] or "").strip() != "data":
        return head[2], []
    return head[2], [found[1] for line in block[1:] if (found := re.match(r"\s+(\w+) :", line))]
