"""Draws a report as a picture: lanes over time."""

from __future__ import annotations

import sys
from argparse import Namespace

from replay_tools.cli.statuses import Status


def main(found: Namespace) -> int:
    from replay_tools import asking, picture
    given = asking.given(found)
    report, trace = given.report, given.trace
    named = dict.fromkeys(key for word in found.named for key in asking.keys_named(report, word))
    pods = [pod for key in named for pod in asking.pods_named(report, key)] or report.pods
    kubelet = asking.kubelet_beside(trace, report)
    drawn = picture.draw(report, pods, asking.clock_of(found, given), kubelet, trace)
    sys.stdout.buffer.write(drawn.encode())
    return Status.DONE
