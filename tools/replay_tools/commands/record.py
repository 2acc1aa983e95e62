"""Records a node as the lines of a trace."""

from __future__ import annotations

from replay_tools.record import program


def main(words: list[str]) -> int:
    """Takes its arguments as they are, since a value may begin as an option."""
    return program.main(words)
