"""Makes a page of a report, and of its trace, as one HTML file."""

from __future__ import annotations

import sys
from argparse import Namespace

from replay_tools import entry
from replay_tools.cli.statuses import Status


def main(found: Namespace) -> int:
    if len(found.named) > 1:
        raise entry.Fault(f"it takes one trace, not {len(found.named)} (see --help)")
    if found.named:
        found.trace = found.named[0]
    from replay_tools import asking, why
    from replay_tools.page import build
    given = asking.given(found, lambda report: why.Ticks(moments={eviction.at for eviction in report.evictions}))
    ticks, show = given.ticks or why.Ticks(), asking.clock_of(found, given)
    sys.stdout.write(asking.of_whole_ticks(
        lambda: build.page_of(given.report, given.trace, ticks, show, given.since)))
    return Status.DONE
