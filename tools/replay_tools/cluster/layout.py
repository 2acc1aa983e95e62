"""How tables are laid out: on a terminal at most as wide as it is, broken between words, and with colours."""

from __future__ import annotations

import os
import re
import shutil
import sys
import textwrap
from dataclasses import dataclass

from replay_tools import entry, telling

# a last column that is narrower goes below its row
LEAST_LAST = 30
BELOW = 6
BOLD, RED, YELLOW, PLAIN = "\x1b[1m", "\x1b[31m", "\x1b[33m", "\x1b[0m"
BAD = re.compile(r"died|evict|OOMKilled|killed|Failed|BackOff|Err\w*Pull|code [1-9]|Unhealthy")
WAITS = re.compile(r"unready|not ready|waits|Pending|deleted|is False")


@dataclass(frozen=True)
class Layout:
    """How wide lines may be, and whether they have colours."""

    width: int | None = None
    has_colours: bool = False

    def title(self, text: str) -> list[str]:
        return [self.coloured(line, BOLD) for line in self.wrapped(text, "", "  ")]

    def line(self, text: str) -> list[str]:
        """A line of its own, with what it is about on the left."""
        return self.wrapped(text, "  ", "    ")

    def table(self, title: str, heads: list[str], rows: list[list[str]]) -> list[str]:
        """The lines of a table; its last column is broken between words, or goes below its row if that is short."""
        plain = telling.table(title, heads, [[entry.visible(cell) for cell in row] for row in rows])
        if rows and self.width is not None and max(map(len, plain)) > self.width:
            plain = [title, *self.narrow(heads, [[entry.visible(cell) for cell in row] for row in rows]), ""]
        head, *lines = plain
        return [*self.title(head), *(self.coloured(line, colour_of(line)) for line in lines)]

    def fits(self, heads: list[str], rows: list[list[str]]) -> bool:
        """Whether a table needs no more columns than there are."""
        return self.width is None or max(map(len, telling.table("", heads, rows))) <= self.width

    def narrow(self, heads: list[str], rows: list[list[str]]) -> list[str]:
        assert self.width is not None
        rows = telling.dated_once(rows)
        first = telling.table("", heads[:-1], [row[:-1] for row in rows])[1:-1]
        wide = max(map(len, first)) + 2
        cells, lines = [heads[-1], *(row[-1] for row in rows)], []
        for start, cell in zip(first, cells):
            if self.width - wide >= LEAST_LAST:
                lines += self.wrapped(f"{start.ljust(wide)}{cell}", "", " " * wide, len(start.ljust(wide)))
            else:
                lines += self.wrapped(start, "", " " * BELOW, len(start) - len(start.lstrip()))
                lines += self.wrapped(cell, " " * BELOW, " " * BELOW)
        return lines

    def wrapped(self, text: str, first: str, further: str, kept: int = 0) -> list[str]:
        """A text as lines that are broken between words; so much of its beginning keeps its spaces."""
        if self.width is None or len(first) + len(text) <= self.width:
            return [(first + text).rstrip()]
        start, rest = first + text[:kept], text[kept:]
        return textwrap.wrap(rest, self.width, initial_indent=start, subsequent_indent=further,
                             break_long_words=False, break_on_hyphens=False) or [start.rstrip()]

    def coloured(self, line: str, colour: str | None) -> str:
        return f"{colour}{line}{PLAIN}" if self.has_colours and colour and line else line


def colour_of(line: str) -> str | None:
    return RED if BAD.search(line) else YELLOW if WAITS.search(line) else None


def of_output() -> Layout:
    """How standard output takes lines: a terminal at most as wide as it is, anything else as they are."""
    if not sys.stdout.isatty():
        return Layout()
    has_colours = not os.environ.get("NO_COLOR") and os.environ.get("TERM") != "dumb"
    return Layout(max(shutil.get_terminal_size().columns, 20), has_colours)
