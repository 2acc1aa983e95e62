"""Writes the traces that the program is measured with: FOLDER/NAME.trace for each NAME of SHAPES (bench/lib/traces.py), if
there is no such file yet. A trace is the same whenever it is written.
"""
import os

import script
from traces import SHAPES, TooLarge, write


def write_into(folder, names):
    """Writes each trace that the folder lacks."""
    os.makedirs(folder, exist_ok=True)
    for name in names:
        path = os.path.join(folder, name + ".trace")
        if not os.path.exists(path):
            # under another name first, so that a run that is stopped leaves no half of it
            try:
                write(SHAPES[name], path + ".part")
            except TooLarge:
                raise script.Fault(f"{name} is larger than a trace may be") from None
            os.replace(path + ".part", path)


def of_speed():
    """The traces of bench/measure speed."""
    return [name for name in SHAPES if not name.startswith("small_")]


def add_to(arguments):
    arguments.add_argument("folder", metavar="FOLDER", help="where to write them")
    arguments.add_argument("names", nargs="*", default=[], metavar="NAME", help="some of them; without a name the traces "
                           "of bench/measure speed, which are all but the small ones")


def main(given):
    for name in given.names:
        if name not in SHAPES:
            raise script.Fault(f"there is no trace {name}; there are {', '.join(SHAPES)}", 2)
    write_into(given.folder, given.names or of_speed())
