"""Makes a trace out of the journals that a node keeps by itself."""

from __future__ import annotations

from argparse import Namespace

from replay_tools.importing import program


def main(found: Namespace) -> int:
    return program.run(found)
