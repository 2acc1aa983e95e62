"""What happened to one container between two polls, in the order in which it is written."""

from __future__ import annotations

from dataclasses import replace
from typing import Any, TYPE_CHECKING

from .runtime import EXITED, LOST_CODE, RUNNING, Change

if TYPE_CHECKING:
    from .probes import Result

# a pod's sync that kills a container starts its successor; what the kubelet shows has nothing between the two
SYNC_SECONDS = 1.0


def is_seamless(item: Any, after: Result | Change) -> bool:
    """An exit with the code 137 whose successor starts in the same sync: the start's tick shows that exit and that code
    too, since it no longer lists the one before, and shows no moment at which the container was not ready. What ran out
    of memory exits by itself, and another sync starts its successor."""
    return (isinstance(item, Change) and not item.is_out_of_memory and isinstance(after, Change)
            and item.listing is not None and after.listing is not None
            and item.listing.state == EXITED and item.listing.exit_code == LOST_CODE
            and after.listing.state == RUNNING and after.moment - item.moment < SYNC_SECONDS)


def without_seamless_exits(items: list[Result | Change]) -> list[Result | Change]:
    """Without the exits that the ticks of their successors' starts have, which keep them."""
    kept: list[Any] = []
    item: Any
    for item in items:
        kept.append(keeping(item, kept.pop()) if kept and is_seamless(kept[-1], item) else item)
    return kept


def keeping(start: Change, exit_before: Change) -> Change:
    return replace(start, listing=replace(start.listing, ended=exit_before.listing))


def is_exit(change: Change) -> bool:
    return change.listing is None or change.listing.state == EXITED


def is_start(change: Change) -> bool:
    return change.listing is not None and change.listing.state == RUNNING


def woven(changes: list[Change], results: list[Result]) -> list[Result | Change]:
    """Changes and results of one container between two polls, in the order in which they are written. Where an instance
    exited between the polls a failure is before that exit, and where another one started any other result is after that
    start."""
    first_exit = next((place for place, change in enumerate(changes) if is_exit(change)), None)
    if first_exit is None:
        return [*changes, *results]
    is_followed = any(map(is_start, changes[first_exit:]))
    early = [result for result in results if result.result == "failure" or not is_followed]
    # the last of them has a second of its own before the exit's
    over = max((result.moment for result in early), default=0) - (changes[first_exit].moment - 1)
    early = [replace(result, moment=result.moment - max(over, 0)) for result in early]
    late = [result for result in results if result.result != "failure" and is_followed]
    return [*changes[:first_exit], *early, *changes[first_exit:], *late]
