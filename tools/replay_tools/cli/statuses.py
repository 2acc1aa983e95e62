"""The exit statuses of all commands."""

from __future__ import annotations

from enum import IntEnum


class Status(IntEnum):
    """What a command ends with."""

    DONE = 0
    FAILED = 1
    """standard output takes no more, a source doesn't answer, or the program has no memory"""
    BAD_INPUT = 2
    """an argument, a trace or a report is wrong or can't be read"""
    BAD_ARGUMENT = 3
    """the program rejects an argument that the tools passed on"""
    HAPPENED = 4
    """what --fail-on names happened"""
    MISSING = 127
    """a command that it needs is missing"""
    INTERRUPTED = 130
