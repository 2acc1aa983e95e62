"""docs/architecture.svg, from crates.txt: the crates storey by storey, each with its words and the crates that it
depends on, without the ones that it reaches through others.

Faults are: a stale picture; a crate that uses one that does not come before it, or one of tests; a storey out of its
order; a crate that has to do without threads and reaches the pool; other lines in crates.txt than folders in crates/.
"""
import os

import script
from crates import faults_of_folders, faults_of_order, read_crates
from picture import picture
from written import text_at

PICTURE = "docs/architecture.svg"


def faults(top, checks):
    """Draws the picture, or only checks it. Returns what is wrong."""
    crates, path = read_crates(top), os.path.join(top, PICTURE)
    if wrong := [*faults_of_order(crates), *faults_of_folders(top, crates)]:
        return ["; ".join(wrong)]
    drawn = picture(crates)
    if text_at(path) == drawn:
        return []
    if checks:
        return [f"{PICTURE} is stale: run bench/architecture"]
    script.write(path, drawn)
    return []
