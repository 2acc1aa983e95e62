"""Paragraphs of a page that a script writes."""
import re
import textwrap


def wrapped(text, first="", rest=None):
    """A paragraph in lines of 118 columns at most, but for long links; a link's own words stay together."""
    kept = re.sub(r"\[[^\]]*\]\(", lambda link: link[0].replace(" ", "\0"), " ".join(text.split()))
    return textwrap.fill(kept, 118, initial_indent=first, subsequent_indent=first if rest is None else rest,
                         break_long_words=False, break_on_hyphens=False).replace("\0", " ")


def prose(comment):
    """A comment as a paragraph; it begins with a capital, and is ended by a point."""
    text = " ".join(comment.replace("[`", "`").replace("`]", "`").split()).replace("<", "&lt;")
    # the name of a variable or of a definition stays as it is
    if re.match(r"a |[a-z]{2,}[ ,:]", text):
        text = text[0].upper() + text[1:]
    return text if not text or text.rstrip(')"')[-1:] in (".", ":", "!", "?") else text + "."


def beginning(comment):
    """The beginning of a comment's first sentence, up to what explains it."""
    return re.split(r"[.:;](?:\s|$)|\s\(", prose(comment))[0]
