"""The contracts and the declared types of a crate's Rust files, as they are written."""
import re
from typing import NamedTuple

from antt import imports_in
from terms import Walk, tokens_of


class Item(NamedTuple):
    name: str
    comment: str
    text: str
    line: int
    names: list   # the words that it refers to
    types: list   # the capitalized words of a type's fields


class File(NamedTuple):
    scope: dict   # what ghost use imports
    uses: dict    # what use imports: a type's name, and the path that it comes from
    text: str


def read_file(text):
    """A file with what it imports, which shows what a name in it is."""
    scope, uses = {}, {}
    for line in text.split("\n"):
        if line.strip().startswith("ghost use "):
            imports_in(line, scope)
        elif found := re.match(r"\s*(?:pub )?use ([\w:]+?)(?:::\{([^}]*)\}|::(\w+))(?: as \w+)?;", line):
            for name in re.split(r",\s*", found[2] or found[3]):
                uses[name.partition(" as ")[0].rpartition("::")[2]] = found[1]
    return File(scope, uses, text)


def item_at(lines, first, end):
    """The lines from the first up to one that the end matches, the doc comment before them, and their number."""
    last = next(at for at in range(first, len(lines)) if end.match(lines[at]))
    comment, at = [], first - 1
    while at >= 0 and re.match(r"\s*(///|#\[)", lines[at]):
        if lines[at].strip().startswith("///"):
            comment.insert(0, lines[at].strip()[3:].strip())
        at -= 1
    return "\n".join(comment), lines[first:last], lines[last]


def found_line(lines, pattern):
    return next((at for at, line in enumerate(lines) if re.match(pattern, line)), None)


def contract_of(text, name):
    """A public function with its clauses, without its body. Its names are the ones of its clauses, and the bounds of
    the type parameters that these speak of."""
    lines = text.split("\n")
    first = found_line(lines, rf"pub fn {name}\b")
    if first is None:
        return None
    comment, kept, _ = item_at(lines, first, re.compile(r"\{"))
    # what is promised comes before what is asked for
    whole = "\n".join(kept)
    clauses = " ".join(term for word in ("ensures", "requires") for term in braced(whole, rf"\b{word}\b[^{{]*"))
    bounds = re.findall(r"\b(\w+): (\w+)", whole.partition("(")[0])
    words = Walk().take(tokens_of(clauses))
    types = [bound for parameter, bound in bounds if any(word.startswith(parameter + ".") for word in words)]
    return Item(name, comment, whole, first + 1, words, types)


def braced_at(text, at):
    """The text between the brace at a place and the one that ends it."""
    first, depth = at + 1, 1
    while depth and at + 1 < len(text):
        at += 1
        depth += {"{": 1, "}": -1}.get(text[at], 0)
    return text[first:at]


def braced(text, before):
    """What is in the braces after each match of a pattern."""
    for found in re.finditer(before + r"(?=\{)", text):
        yield braced_at(text, found.end())


def trait_of(text, name):
    """A trait, with the names of its ghost members and clauses."""
    lines = text.split("\n")
    first = found_line(lines, rf"pub trait {name}\b")
    if first is None:
        return None
    comment, kept, last = item_at(lines, first, re.compile(r"\}"))
    whole = "\n".join([*kept, last])
    terms = " ".join(braced(whole, r"\b(?:ghost|requires|ensures)\b[^{;]*"))
    return Item(name, comment, whole, first + 1, Walk().take(tokens_of(terms)), [])


def type_of(text, name):
    """A struct or an enum: with the types of its fields, or where contracts see it by a value, with that alone."""
    lines = text.split("\n")
    first = found_line(lines, rf"(pub(\(crate\))? )?(struct|enum) {name}\b")
    if first is None:
        return None
    comment, kept, last = item_at(lines, first, re.compile(r"\}|.*;$"))
    whole = "\n".join([*kept, last])
    if value := value_of(lines, name):
        head = re.match(r"[^{(;]*[^{(; ]", whole)[0]
        return Item(name, comment, f"{head} {{ .. }}\n// contracts: ghost Value = {{ {value} }}", first + 1,
                    Walk().take(tokens_of(value)), [])
    # the name of a variant is no type
    fields = re.sub(r"//.*|(?m:^\s+[A-Z]\w*(?=\s*[,({=]|$))", "", whole)
    types = [word for word in re.findall(r"\b[A-Z]\w*", fields) if word != name]
    return Item(name, comment, whole, first + 1, [], list(dict.fromkeys(types)))


def value_of(lines, name):
    """What contracts see a type as; nothing where they see its fields."""
    first = found_line(lines, rf"impl.*\bModel for {name}\b")
    if first is None:
        return None
    _, kept, _ = item_at(lines, first, re.compile(r"\}"))
    return next(" ".join(term.split()) for term in braced("\n".join(kept), r"ghost Value = "))
