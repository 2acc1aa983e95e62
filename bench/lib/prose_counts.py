"""How the prose of a page reads: its words, sentences and passive sentences as GNU style counts them, and its house
words."""
import re
import subprocess
from typing import NamedTuple

# The words to replace, as far as their form alone shows them: "a word" of a command line, "before" of a place and the
# noun "differ" have uses that are right.
HOUSE = re.compile(r"""(?ix)\b(
    behind | beside | stands?(?!-in) | stood | says? | said | tells? | told | those\ of | that\ of | anew | by\ hand
    | (is|are|was|were)\ had | a\ look | looks\ at | third\ look | borders? | shelf | plays? | played | heed(s|ed)?
    | spare[sd]? | judged\ ticks? | wants? | wanted | (?<!connection\ )refuse[sd]? | refusals? | hand(s|ed)
    | la(y|id)\ by | given\ up | takes\ no\ memory )\b""")
CODE_LINE = re.compile(r" {4,}|\t")
ITEM = re.compile(r"^\s*(?:[-*]|\d+\.) ")
# names of definitions after a sentence, which lead to them
DEFINITIONS = re.compile(r" ?\((?:\[[\w.]+\](?!\()(?:, )?)+\)")
# headings, tables, the targets of links, comments
NO_PROSE = re.compile(r"#|\s*\||\[[^\]]*\]:|<!--|---+$")


class Counts(NamedTuple):
    words: int
    sentences: int
    passive: int    # sentences
    longest: int    # words of the longest sentence
    house: list     # each house word, in order

    @property
    def average(self):
        return self.words / max(self.sentences, 1)

    @property
    def share(self):
        """The passive sentences, in the hundred."""
        return 100 * self.passive / max(self.sentences, 1)


def paragraphs_in(page):
    """The paragraphs and list items of a page, without code blocks, tables and headings."""
    paragraphs, fenced, open_to_more = [], False, False
    for line in page.split("\n"):
        fence = line.lstrip().startswith("```")
        fenced ^= fence
        in_code = CODE_LINE.match(line) and not open_to_more
        if fenced or fence or in_code or not line.strip() or NO_PROSE.match(line):
            open_to_more = False
        elif open_to_more and not ITEM.match(line):
            paragraphs[-1] += " " + line.strip(" >")
        else:
            paragraphs.append(ITEM.sub("", line, count=1).strip(" >"))
            open_to_more = True
    return paragraphs


def plain(paragraph):
    """A paragraph as style takes all of it: a code span is one word, of a link its text remains. Style ends a sentence
    at a colon, and passes over one that does not begin with a capital."""
    text = DEFINITIONS.sub("", re.sub(r"`[^`]+`", "Code", paragraph))
    text = re.sub(r"!?\[([^\]]*)\](?:\([^)]*\)|\[[^\]]*\])?", r"\1", text)
    text = re.sub(r"<(https?:[^>]*)>", "link", text)
    text = re.sub(r'[*()"]| \.\.(?= |$)', "", text).strip()
    text = re.sub(r":(?= [^A-Z]| Code)", ",", re.sub(r"[:;,]$", ".", text))
    text = re.sub(r"(^|[.!?:] )(\w)", lambda start: start[1] + ("N" * start[2].isdigit()) + start[2].upper(), text)
    return text if text[-1:] in ".!?" else text + "."


def number_in(pattern, text):
    found = re.search(pattern, text)
    return int(found[1]) if found else 0


def counts_of(page):
    """The counts of a page's prose; style has to be on the PATH."""
    paragraphs = [plain(paragraph) for paragraph in paragraphs_in(page)]
    text = "\n\n".join(paragraphs) + "\n"
    printed = subprocess.run(["style", "-L", "en"], input=text, stdout=subprocess.PIPE, text=True, check=True,
                             encoding="utf-8").stdout
    return Counts(number_in(r"(\d+) words, average", printed), number_in(r"(\d+) sentences, average", printed),
                  number_in(r"\((\d+)\) passive sentences", printed), number_in(r"longest sent (\d+) wds", printed),
                  [found[0].lower() for found in HOUSE.finditer(" ".join(paragraphs))])
