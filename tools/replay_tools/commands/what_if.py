"""Replays a trace as it is and with an edit, and shows which lines of the reports differ."""

from __future__ import annotations

import signal
import sys
from argparse import Namespace

from replay_tools import edited, entry
from replay_tools.cli.statuses import Status


def main(found: Namespace) -> int:
    if len(found.named) != 1:
        raise entry.Fault(f"it takes one edit, not {len(found.named)} (see --help)")
    # what is kept goes with an end that is asked for, too
    for number in (signal.SIGTERM, signal.SIGHUP):
        signal.signal(number, lambda *_: sys.exit(Status.INTERRUPTED))
    sys.stdout.write(edited.difference(found.named[0], float(found.timeout)))
    return Status.DONE
