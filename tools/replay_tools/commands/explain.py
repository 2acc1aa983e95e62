"""Prints what a rejection of the program means."""

from __future__ import annotations

import sys
from argparse import Namespace

from replay_tools import entry
from replay_tools.explain import program

STANDARD_INPUT = "/dev/stdin"


def main(found: Namespace) -> int:
    name = "standard input" if found.path == STANDARD_INPUT else found.path
    if found.line and found.is_of_several:
        sys.stdout.write(f"{entry.visible(name)}: ")
    return program.explained(found.path, name, found.extended, found.line)
