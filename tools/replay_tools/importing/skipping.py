"""Which lines of a journal are not read: messages of klog's that are of no form that is known, or show nothing. Most of
a log are these, so they are passed over before anything is taken apart."""

from __future__ import annotations

import json
import re
from collections.abc import Callable, Iterable, Iterator
from typing import Optional

from . import keyed, printed
from .journals import HEADER, PLAIN, Skipping

WANTED = {word.encode() for word in (*printed.FORMS, *(f'"{word}' for word in keyed.FIRST_WORDS))}
WANTED |= {b'"' + word.encode() + b'"' for word in keyed.FIRST_WORDS}
# flags are many, and a few of them are read
FLAG = b"FLAG:"
READ_FLAGS = b"FLAG: --hostname-override=", b"FLAG: --eviction-", b"FLAG: --config="
# what is a sentence in JSON too
SENTENCES = *READ_FLAGS, printed.OPERATION.encode()


def any_of(words: Iterable[bytes]) -> bytes:
    """A pattern of words, each letter of which is looked at once, whichever of them have it in common."""
    by_letter: dict[bytes, set[bytes]] = {}
    for word in words:
        if not word:
            return b""
        by_letter.setdefault(word[:1], set()).add(word[1:])
    return b"(?:%b)" % b"|".join(re.escape(letter) + any_of(by_letter[letter]) for letter in sorted(by_letter))


# how the words of a message begin that may be read: most others differ in that alone
BEGINS = any_of({*WANTED - {FLAG}, *READ_FLAGS})
# where a header ends, at the earliest and at the latest, and how long a first word may be
SHORTEST, LONGEST_HEADER, LONGEST_WORD = 24, 260, 64
LETTERS = b"IWEF"
# what a line has before a "]"; written as ranges it takes half the time that [^\]\n] takes
BEFORE_BRACKET = rb"[\x00-\t\x0b-\\^-\xff]"
# how klog's header follows what journald and a runtime have of a line
OF_JOURNALD, OF_RUNTIME = rb"\]: " + HEADER, rb" F " + HEADER
JOURNALDS = "short-iso", "syslog", "short-full", "short-unix"
HEADERS = {**dict.fromkeys(JOURNALDS, re.compile(OF_JOURNALD)), "container": re.compile(OF_RUNTIME)}
# a line up to its words, in each form that is text; there is no header before that one
UP_TO_WORDS = {PLAIN: rb"[%b]%b{%d,%d}\] " % (LETTERS, BEFORE_BRACKET, SHORTEST - 1, LONGEST_HEADER - 3),
               **dict.fromkeys(JOURNALDS, BEFORE_BRACKET + b"*" + OF_JOURNALD),
               "container": rb"[^ \n]+ [^ \n]+" + OF_RUNTIME}
# how messages begin that begin as others do, and show nothing
SILENT = (b"SyncLoop (RECONCILE", b"SyncLoop (SYNC)", b"SyncLoop (housekeeping", b"Error getting ",
          b"Container runtime ", b"eviction manager: no resources", b"Failed to remove container",
          b"Created an OOM event")
# where klog's header has the process
PROCESS = slice(22, 29)
# how a line of JSON begins, where its message is, and the messages that are read
RECORD, SAYS = b'{"ts":', b'"msg":"'
MESSAGES = {json.dumps(words)[1:-1].encode() for words in keyed.FORMS}


def place_of_words(text: bytes) -> int:
    """Where a line's words begin after klog's header; less than SHORTEST in one that has none."""
    return text.find(b"] ", SHORTEST, LONGEST_HEADER) + 2


def is_skipped(text: bytes) -> bool:
    """Whether a line is a message of klog's that is of no form that is read, by its first word."""
    return is_skipped_at(text, place_of_words(text))


def is_skipped_at(text: bytes, place: int) -> bool:
    """Whether a line is skipped whose words begin at a place."""
    if place >= SHORTEST and text[0] in LETTERS:
        return is_unwanted(text, place)
    return text.startswith(RECORD) and is_record_skipped(text)


def is_record_skipped(text: bytes) -> bool:
    """The same of a line of JSON, by all of its message."""
    place = text.find(SAYS, 0, LONGEST_HEADER) + len(SAYS)
    return (place >= len(SAYS) and text[place:text.find(b'"', place)] not in MESSAGES
            and not text.startswith(SENTENCES, place))


def is_unwanted(text: bytes, place: int) -> bool:
    """Whether the message whose words begin at a place is of no form that is read."""
    word = text[place:place + LONGEST_WORD].partition(b" ")[0]
    return word not in WANTED or (word == FLAG and not text.startswith(READ_FLAGS, place))


class OfProcess:
    """Finds which lines of a log as a process writes it are skipped. A silent line is skipped if the last line that was
    not skipped is of the same process."""

    def __init__(self) -> None:
        self.process = b""

    def is_skipped(self, text: bytes) -> bool:
        place = place_of_words(text)
        if is_skipped_at(text, place):
            return True
        process = text[PROCESS]
        if process == self.process:
            return text.startswith(SILENT, place)
        self.process = process
        return False


def kept_in(form: str) -> re.Pattern[bytes]:
    """The end of a line after which a line of a form comes that is not skipped by its first words."""
    return re.compile(rb"\n(?!%b(?!%b))" % (UP_TO_WORDS[form], BEGINS))


def skipped_in(form: str) -> Callable[[bytes], bool]:
    """Returns the test whether a line of a form that is text is skipped."""
    if form == PLAIN:
        return OfProcess().is_skipped
    header = HEADERS[form]

    def is_skipped_behind(text: bytes) -> bool:
        found = header.search(text)
        return found is not None and is_unwanted(text, found.end())

    return is_skipped_behind


def left_out(blocks: Iterator[bytes], form: str) -> Iterator[Optional[bytes]]:
    """The lines of a journal of a form that is text, with None for one or more that are skipped. Most are, by their
    first bytes and many at once."""
    is_behind_skipped, is_left_out, kept = False, skipped_in(form), kept_in(form)
    for block in blocks:
        block, before = b"\n" + block, 0
        for found in kept.finditer(block):
            begin = found.end()
            end = block.find(b"\n", begin)
            end = len(block) if end < 0 else end
            text = block[begin:end]
            is_behind_skipped, before = is_behind_skipped or found.start() > before, end
            if is_left_out(text):
                is_behind_skipped = True
                continue
            if is_behind_skipped:
                is_behind_skipped = False
                yield None
            yield text
        is_behind_skipped = is_behind_skipped or before < len(block)
    if is_behind_skipped:
        yield None


SKIPPING = Skipping(is_skipped, is_unwanted, left_out)
