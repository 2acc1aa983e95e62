"""The names that a term of a definition or a contract refers to."""
import re

TOKEN = re.compile(r'"(?:\\.|[^"\\])*"|[(){};,]|[^\s(){};,"]+')
KEYWORDS = set("record where do let in pub abbrev unfoldable data Type λ : = → ←".split())


def tokens_of(text):
    """The words of a text, without its comments and strings."""
    bare = re.sub(r"(?m)(^|\s)(--|//).*$", r"\1", text)
    return [token for token in TOKEN.findall(bare) if not token.startswith('"')]


def telescope(tokens, at):
    """The names that an opening bracket at this place binds, as in `(x y : T)`; none if it is no binder."""
    names = []
    for token in tokens[at + 1:]:
        if token == ":":
            return names
        if not re.fullmatch(r"[^\W\d][\w']*|_", token):
            break
        names.append(token)
    return []


def lambda_names(tokens, at):
    """The names after a λ, up to the one that ends with a point; none where a bracket follows."""
    names = []
    for token in tokens[at + 1:]:
        if not re.fullmatch(r"([^\W\d][\w']*|_)\.?", token):
            break
        names.append(token.rstrip("."))
        if token.endswith("."):
            return names
    return []


class Walk:
    """Goes through tokens and keeps the words that are bound nowhere around them. A binder reaches to the end of the
    bracket that it is in."""

    def __init__(self, bound=()):
        self.frames = [set(bound)]
        self.kinds = [""]
        self.found = {}

    def binds(self, names):
        self.frames[-1].update(names)

    def word(self, token):
        head = token.partition(".")[0] if token[0] != "." else ""
        if head and token not in KEYWORDS and head not in self.frames[-1]:
            self.found.setdefault(token)

    def take(self, tokens):
        """The words that are bound nowhere, of these tokens and those before them, in their order."""
        before, bound_here = "", 0
        for at, token in enumerate(tokens):
            after = tokens[at + 1] if at + 1 < len(tokens) else ""
            if token in "({":
                self.binds(names := telescope(tokens, at))
                bound_here = len(names)
                self.frames.append(set(self.frames[-1]))
                self.kinds.append("record" if before == "record" else "")
            elif token in ")}":
                if len(self.frames) > 1:
                    self.frames.pop()
                    self.kinds.pop()
            elif token == "λ":
                self.binds(names := lambda_names(tokens, at))
                bound_here = len(names)
            elif bound_here:
                bound_here -= 1
            elif after == "←" or before == "let" or (before == "pub" and after == ":"):
                self.binds([token])
            elif not (after == "=" and self.kinds[-1] == "record"):
                self.word(token)
            before = token
        return list(self.found)
