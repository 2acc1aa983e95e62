"""Makes a page of one file of what it shows, its style and its scripts."""

from __future__ import annotations

import json
import os
from html import escape
from typing import Any, TYPE_CHECKING

from replay_tools.page import data

if TYPE_CHECKING:
    from replay_tools import report as reports, traces, why
    from replay_tools.clock import Clock

HERE = os.path.dirname(os.path.realpath(__file__))
SCRIPTS = ("decode.js", "draw.js", "lanes.js", "used.js", "panel.js", "page.js")


def page_of(report: reports.Report, trace: traces.Trace | None, ticks: why.Ticks, clock: Clock,
            since: int) -> str:
    """The text of the page of a report, and of its trace with its ticks where there is one; pods are ranked by what
    came after a moment."""
    shown = data.data_of(report, trace, ticks, clock, since)
    script = "\n".join(["'use strict';", "(() => {", *map(read, SCRIPTS), "})();"])
    parts = {"title": escape(f"{report.node}: a replay"), "style": read("page.css"), "script": script,
             "data": as_script(shown)}
    text = read("page.html")
    head, *rest = text.split("{{")
    return head + "".join(parts[name] + after for name, after in (part.split("}}", 1) for part in rest))


def as_script(shown: dict[str, Any]) -> str:
    """JSON that no markup can be read out of, as the text of a script element."""
    text = json.dumps(shown, ensure_ascii=True, separators=(",", ":"))
    return text.replace("&", "\\u0026").replace("<", "\\u003c").replace(">", "\\u003e")


def read(name: str) -> str:
    with open(os.path.join(HERE, name), encoding="utf-8") as file:
        return file.read()
