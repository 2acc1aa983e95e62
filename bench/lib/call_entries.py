"""How a public call, a type or a definition is shown in the list of calls: its comment, what it needs, its clauses, and
an example."""
import re

from entries import way
from paragraphs import prose, wrapped
from terms import Walk, tokens_of

# a longer term is not shown: the link leads to it
SHORT = 60
OF_OK = re.compile(r"\b(?:IfOk|OnOk)\b")
OF_ERROR = re.compile(r"\b(?:IfErr|OnErr|IsErrOf)\b")
KINDS = {"struct": "a type", "enum": "a type", "type": "a type", "trait": "a trait", "const": "a number"}
# a space at which no line ends
BOUND = "\0"


def code(term):
    return f"`{term}`".replace(" ", BOUND)


def listed(names):
    return ", ".join(code(name) for name in names)


def folded(text, first, rest):
    """A paragraph of which no line begins as an item of a list would."""
    kept = re.sub(r" ([-+*#>]) ", rf"{BOUND}\1{BOUND}", text)
    return wrapped(re.sub(r" (\d+[.)] )", rf"{BOUND}\1", kept), first, rest)


def comment_in(comment):
    """A doc comment as one paragraph; what it links to is code."""
    bare = re.sub(r"\[(`[^`]+`)\](?:\([^)]*\))?", r"\1", comment)
    parts = re.split(r"(`[^`]*`)", " ".join(bare.split()))
    parts[::2] = [part.replace("<", "&lt;") for part in parts[::2]]
    text = "".join(parts)
    return text if text.rstrip(')"')[-1:] in ("", ".", ":", "!", "?") else text + "."


def module_lines(comment):
    """The comment of a crate as lines of a page: paragraphs, lists, and what is fenced as it is."""
    lines, paragraph, fenced = [], [], False
    for line in [*comment.split("\n"), ""]:
        if line.startswith("```"):
            fenced = not fenced
            lines.append(line)
        elif fenced:
            lines.append(line)
        elif line.strip() and not (line.startswith("- ") and paragraph):
            paragraph.append(line)
        else:
            lines += [wrapped_item(paragraph)] if paragraph else []
            paragraph = [line] if line.strip() else []
            lines += [""] if not line.strip() and lines and lines[-1] else []
    return lines


def wrapped_item(paragraph):
    text = comment_in("\n".join(paragraph))
    return folded(text[2:], "- ", "  ") if text.startswith("- ") else folded(text, "", "")


def error_of(head):
    """The kind of error that a call returns; nothing if it returns none."""
    begun = head.find(" -> Result<")
    depth, comma = 0, None
    for at in range(begun + len(" -> Result<"), len(head)) if begun >= 0 else ():
        sign = head[at]
        if not depth and sign == ",":
            comma = at
        elif not depth and sign == ">":
            return head[comma + 1:at].strip()
        depth += {"<": 1, "(": 1, "[": 1, ">": -1, ")": -1, "]": -1}.get(sign, 0)
    return None


def needs(clauses):
    """What a call asks of its caller: each condition, or its name if it is long."""
    shown = [code(clause.term) if len(clause.term) <= SHORT else code(clause.name) if clause.name else "a condition"
             for clause in clauses if clause.kind == "requires"]
    return f"Needs {', '.join(shown)}." if shown else ""


def of_refusal(clause):
    """The name of a clause on a failed call, with what it shows where that is short."""
    found = re.fullmatch(r"OnErr result \((.*)\)", clause.term)
    term = found[1] if found else clause.term
    return named(clause) + (f": {code(term)}" if len(term) <= SHORT else "")


def named(clause):
    return code(clause.name) if clause.name else "one"


def promises(clauses, error):
    """The names of a call's clauses; if it may fail, which of them are about a failure, and what they promise of it."""
    made = [clause for clause in clauses if clause.kind == "ensures"]
    word = "Clause" if len(made) == 1 else "Clauses"
    if not made:
        return "No clause."
    if not error:
        return f"{word}: {', '.join(map(named, made))}."
    of_ok = [clause for clause in made if OF_OK.search(clause.term)]
    of_error = [clause for clause in made if clause not in of_ok and OF_ERROR.search(clause.term)]
    of_both = [clause for clause in made if clause not in of_ok and clause not in of_error]
    if len(of_ok) == len(made):
        return f"{word}, of `Ok` alone: {', '.join(map(named, made))}."
    if len(of_both) == len(made):
        return f"{word}, of both: {', '.join(map(named, made))}."
    groups = [f"of `Ok` {', '.join(map(named, of_ok))}"] * bool(of_ok)
    groups += [f"of an error {', '.join(map(of_refusal, of_error))}"] * bool(of_error)
    groups += [f"of both {', '.join(map(named, of_both))}"] * bool(of_both)
    return f"{word}: {'; '.join(groups)}."


def words_of(clauses, kind):
    """The words that clauses of a kind name."""
    return list(Walk().take(tokens_of(" ".join(clause.term for clause in clauses if clause.kind == kind))))


def place(path, page):
    """The way from a page to a file. A line would change the page whenever the file changes above the call."""
    return way(f"../{path}", page)


def first_sentence(comment):
    """The first sentence of a definition's comment."""
    return re.split(r"(?<=[.!?])\s+(?=[A-Z`])", prose(comment))[0]


def item_line(item, page, more):
    """A call, a type, a trait or a number in the list, with further remarks. A call of a type is below
    it."""
    indent = "  " * (bool(item.owner) and item.owner != "laws")
    name = item.name if indent else item.whole_name
    if " as " in item.owner:
        name = f"{item.owner.partition(' as ')[2]}::{item.name}"
    head, parts = f"[`{name}`]({place(item.path, page)})", [comment_in(item.comment)]
    if item.kind == "fn":
        error = error_of(item.head)
        parts += [needs(item.clauses), f"Fails with {code(error)}." if error else "", promises(item.clauses, error)]
    else:
        head += f", {KINDS[item.kind]}"
    return folded(f"{head}: {' '.join(part for part in [*parts, *more] if part)}", f"{indent}- ", f"{indent}  ")


def definition_line(made, page, citing, example):
    """A definition in the list, below its module."""
    said = [first_sentence(made.comment) if made.comment else "", f"In {citing}." if citing else "", example]
    link = f"[`{made.key[2]}`]({place(made.path, page)})"
    said = " ".join(part for part in said if part)
    return folded(link + (f": {said}" if said else ""), "  - ", "    ")
