"""Where one part ends and the next begins: in the same second, or after a gap of which nothing is known."""

from __future__ import annotations


from replay_tools import entry, outside, report as reports
from replay_tools.joined import files, parts


# a recorder that is killed after a slow poll may have written ticks of so many seconds after the next one began
SLOW_LOOK = 60


class Overlap(entry.Fault):
    """Two parts have ticks of one time, and can't be joined."""


def without_overlaps(found: list[parts.Part], is_quiet: bool) -> list[parts.Part]:
    """The parts without the parts of a folder that overlap another one. Of two that overlap, the one that has more time
    is kept. Raises Fault where both were named."""
    kept: list[parts.Part] = []
    for part in found:
        while kept:
            before = kept[-1]
            try:
                border_of(before, part)
            except Overlap:
                if before.source.is_named and part.source.is_named:
                    raise
                is_longer = part.source.is_named or part.last - part.first > before.last - before.first
                less, more = (before, part) if is_longer and not before.source.is_named else (part, before)
                if not is_quiet:
                    entry.say(f"{less.source.shown} is left out: {more.source.shown} is of the same time, and has more")
                if less is part:
                    break
                kept.pop()
                continue
            kept.append(part)
            break
        else:
            kept.append(part)
    return kept


def borders_of(found: list[parts.Part]) -> list[reports.Border]:
    """The rotations of parts in the order of their times, one fewer than there are parts."""
    return [border_of(before, part) for before, part in zip(found, found[1:])]


def name_of(part: parts.Part) -> str:
    """The name of a part's file, which may have any bytes."""
    return outside.visible(part.source.name)


def border_of(before: parts.Part, part: parts.Part) -> reports.Border:
    follows = part.follows
    slow = behind_slow_look(before, part)
    if slow is not None:
        return reports.Border(before.last, slow, name_of(part))
    if follows is None:
        at = first_behind(before, part)
        return reports.Border(min(before.last, at), at, name_of(part))
    if is_of(follows["trace"], before):
        check_order(before, part, follows["at"])
        return reports.Border(max(follows["until"], before.last), follows["at"], name_of(part))
    check_order(before, part, follows["at"])
    # the one that it follows may be the one before under another name: then its time shows it
    missing = None if follows["until"] <= before.last else follows["trace"]
    return reports.Border(before.last if missing else follows["at"], follows["at"], name_of(part), missing)


def behind_slow_look(before: parts.Part, part: parts.Part) -> int | None:
    """Where a part begins before the end of the one before it, by no more than a slow poll explains: its first moment
    after that end. None of other parts."""
    if part.trace is None:
        return None
    begun = part.known_until
    if not begun < before.last <= begun + SLOW_LOOK:
        return None
    return next((tick.at for tick in part.trace.ticks if tick.at > before.last), None)


def is_of(name: str, before: parts.Part) -> bool:
    """Whether the name of a trace is the name of a part. Where its file is called otherwise here, the name still has
    the second at which the trace begins, before which at most so many ticks show what was known."""
    _, begun, number = files.parts_of(name)
    if begun is None:
        return name == before.source.name
    if before.source.begun is not None:
        return (begun, number) == (before.source.begun, before.source.number)
    return before.first <= begun <= before.first + parts.MOST_CARRIED


def first_behind(before: parts.Part, part: parts.Part) -> int:
    """The first moment of a part after the end of the one before. The first ticks of a recording show what was known
    before it, and may lie some seconds before its begin."""
    if part.trace is None:
        check_order(before, part, part.first)
        return part.first
    check_order(before, part, part.first + parts.MOST_CARRIED)
    if part.known_until > before.last:
        return part.known_until
    at = next((tick.at for tick in part.trace.ticks if tick.at > before.last), None)
    if at is None:
        raise overlap(before, part)
    return at


def check_order(before: parts.Part, part: parts.Part, at: int) -> None:
    if at < before.last or part.last < before.last:
        raise overlap(before, part)


def overlap(before: parts.Part, part: parts.Part) -> Overlap:
    is_utc = before.first > 10 ** 8
    last, first = (reports.moment_text(at, is_utc) for at in (before.last, part.first))
    return Overlap(f"{before.source.shown} and {part.source.shown} overlap: the one ends at {last}, the other "
                   f"begins at {first}, so they can't be joined")
