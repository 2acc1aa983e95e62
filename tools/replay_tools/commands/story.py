"""Prints the story of one pod, of a report."""

from __future__ import annotations

import os
import sys
import time
from argparse import Namespace

from replay_tools import clock, entry
from replay_tools.cli.statuses import Status
from replay_tools.joined import asked


def follow(found: Namespace) -> int:
    """Prints what is recorded into a folder, as it comes; the status, once nobody reads it any more."""
    from replay_tools.joined import following
    for option, value in (("--trace", found.trace), ("--traces", found.traces), ("-f", found.files),
                          ("--at", found.at)):
        if value:
            raise entry.Fault(f"--follow and {option} exclude each other (see --help)")
    if not os.path.isdir(found.follow):
        raise entry.Fault(f"{found.follow} is no folder of kubelet-replay record --into")
    now = time.time()
    since = None if found.since is None else asked.since_of(found.since, now)
    show = clock.clock_of(found, int(now)).text
    named = found.named[0] if found.named else None
    following.follow(following.Follower(found.follow, found.node, named, since), show)
    return Status.DONE


def main(found: Namespace) -> int:
    if len(found.named) > 1:
        raise entry.Fault(f"it takes one pod, not {len(found.named)} (see --help)")
    if found.follow is not None:
        return follow(found)
    from replay_tools import asking, overview, story_text
    from replay_tools.joined import told as told_of_several
    plain, given = found.named, asking.given(found)
    report, trace = given.report, given.trace
    kubelet = asking.kubelet_beside(trace, report)

    show = asking.clock_of(found, given).text
    if not plain or plain[0].endswith("/"):
        head = told_of_several.head_lines(given.several, show) if given.several else []
        sys.stdout.write("".join(f"{line}\n" for line in head)
                         + overview.text(report, plain[0][:-1] if plain else None, show, trace, kubelet, given.since))
        return Status.DONE
    key = asking.key_named(report, plain[0], kubelet)
    others = asking.without_line(kubelet, key, show)
    pods = asking.pods_named(report, key, others)
    told = [story_text.story(given, pod, show, kubelet) for pod in pods]
    if trace and not found.without_why:
        told.append(asking.why(given, trace, pods, show, kubelet))
    sys.stdout.write("\n".join(filter(None, [*told, others])))
    return Status.DONE
