"""Writes the manual pages of the tools into a folder, one for each command of kubelet-replay and two for the commands
that have them all, from their specification in tools/replay_tools/cli and from the details in
tools/replay_tools/manual.

    tool_manual.py TOP FOLDER VERSION DATE
"""
import importlib
import os
import re
import sys

import script
from manual import escaped

def paragraphs(lines):
    """The lines of a paragraph: lines without an indent are filled, items are a list, all others stay."""
    kept, kind = [], "filled"
    for line in lines:
        now = kind_of(line, kind)
        if now != kind and kind == "as it is":
            kept.append(".fi")
        if now == "as it is" and kind != now:
            kept += [".PP", ".nf"] if kept else [".nf"]
        elif now == "filled" and kind != now:
            kept.append(".PP")
        elif line.startswith("  - "):
            kept.append(".IP \\(bu 2")
        kept.append(escaped(line if now == "as it is" else line.strip().removeprefix("- ")))
        kind = now
    return kept + ([".fi"] if kind == "as it is" else [])


def kind_of(line, before):
    """What becomes of a line, by itself and by the one before it."""
    if line.startswith("  - ") or before == "item" and line.startswith("    "):
        return "item"
    return "as it is" if line.startswith(" ") else "filled"


def statuses(text):
    """The lines on a list of statuses, as `Status 0: done; 1: ..`; another text is returned as it is."""
    plain = " ".join(text.split()).removeprefix("Status").removeprefix(":").strip()
    items = re.split(r"; (?=\d+: )", plain)
    lines = []
    for item in items:
        status, colon, when = item.partition(": ")
        lines += [".TP", f"\\fB{status}\\fR", escaped(when)] if colon and status.isdigit() else [escaped(item)]
    return lines


def as_it_is(title, given):
    """A section whose lines stay as they are."""
    return [f".SH {title}", ".nf", *map(escaped, given), ".fi"]


def page(name, about, parts, details, version, date):
    """The page of a command: the parts that its specification gives, with the details as the description."""
    lines = [f'.TH {name.upper()} 1 "{date}" "kubelet\\-replay {version}"', ".SH NAME",
             f"{escaped(name)} \\- {escaped(about)}", *as_it_is("SYNOPSIS", parts.usage), ".SH DESCRIPTION"]
    described = [*parts.described, *details.rstrip("\n").split("\n\n")]
    for number, part in enumerate(part for part in described if not part.startswith("Status")):
        lines += ([".PP"] if number else []) + paragraphs(part.split("\n"))
    for heading, given in (("OPTIONS", parts.options), ("EXAMPLES", parts.examples)):
        if given:
            lines += as_it_is(heading, given)
    for part in described:
        if part.startswith("Status"):
            lines += [".SH EXIT STATUS", *statuses(part)]
    others = [other for other in ("kubelet-replay", "kubelet_replay") if other != name]
    lines += [".SH SEE ALSO", ", ".join(f"\\fB{escaped(other)}\\fR(1)" for other in others)]
    return "\n".join(lines) + "\n"


def details_of(module):
    return importlib.import_module(f"replay_tools.manual.{module}").TEXT


def pages_of(top):
    """The commands of the tools of a repository by the names of their pages: what each is, the parts of its help, and
    its details. The program has a page of its own."""
    sys.path.insert(0, f"{top}/tools")
    from replay_tools.cli import definition, help
    of_all = {entry.name: (entry.about, help.parts_of_entry(entry), details_of(entry.module))
              for entry in definition.ENTRIES.values() if entry.about}
    return of_all | {f"kubelet-replay-{name}": (command.says, help.parts_of_command(command),
                                                details_of(command.module))
                     for name, command in definition.COMMANDS.items()}


def main(words):
    if len(words) != 4:
        raise script.Usage("tool_manual.py TOP FOLDER VERSION DATE")
    top, folder, version, date = words
    for name, (about, parts, details) in pages_of(top).items():
        with open(os.path.join(folder, f"{name}.1"), "w", encoding="utf-8") as file:
            file.write(page(name, about, parts, details, version, date))


if __name__ == "__main__":
    script.run("tool_manual.py", main, __doc__)
