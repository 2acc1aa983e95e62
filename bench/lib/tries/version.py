"""Checks that the program prints the version of the file VERSION, and that CHANGELOG.md has a part on it. A crate can
read no file as it is built, so the program has the version as a constant.
"""
import argparse
import glob
import os
import re

import script


def add_to(arguments):
    arguments.add_argument("--top", default=script.TOP, help=argparse.SUPPRESS)


def read(*path):
    with open(os.path.join(*path), encoding="utf-8") as file:
        return file.read()


def main(given):
    version = read(given.top, "VERSION").strip()
    sources = "".join(read(path) for path in sorted(glob.glob(f"{given.top}/crates/commands/src/*.rt")))
    constants = re.findall(r'const VERSION: &str = "(.*)";', sources)
    if constants != [version]:
        raise script.Fault(f"the constant VERSION in crates/commands/src is {', '.join(constants) or 'missing'}, but "
                           f"the file VERSION has {version}")
    if not re.search(rf"^## {re.escape(version)}", read(given.top, "CHANGELOG.md"), re.M):
        raise script.Fault(f"CHANGELOG.md has no part on {version}")
