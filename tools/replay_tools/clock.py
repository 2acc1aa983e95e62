"""How moments are written: as times of UTC with their Z, as times of the zone of this machine, or as the seconds that a
trace has."""

from __future__ import annotations

from argparse import Namespace
from datetime import datetime
from enum import Enum

from replay_tools import entry, report as reports


class Clock(Enum):
    SECONDS = "seconds"
    UTC = "utc"
    LOCAL = "local"

    def text(self, at: int) -> str:
        """A moment as it is written; one that has no date of four digits as its seconds."""
        if self is Clock.LOCAL and at <= reports.LAST_DATE - 86400:
            return datetime.fromtimestamp(at).astimezone().isoformat(" ", "seconds")
        return reports.moment_text(at, self is not Clock.SECONDS)


def clock_of(found: Namespace, last: int | None, is_dated: bool = False) -> Clock:
    """The clock that the arguments ask for, else the clock of the moments, of which the last is known. Times that were
    given are dated."""
    asked = [clock for clock in Clock if getattr(found, clock.value)]
    if len(asked) > 1:
        named = " and ".join(f"--{clock.value}" for clock in asked)
        raise entry.Fault(f"{named} exclude each other (see --help)")
    if asked:
        return asked[0]
    return Clock.UTC if is_dated or (last or 0) > reports.LEAST_DATED else Clock.SECONDS
