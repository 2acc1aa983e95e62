"""Runs a tool by its name, or kubelet-replay: python3 -m replay_tools NAME WORDS .."""

import os
import sys

# the rest of the package can't be read by an older Python, which would print a traceback
if sys.version_info < (3, 9):
    sys.exit("%s: needs Python 3.9 or later, and python3 is %d.%d" % (
        os.path.basename(sys.argv[1]) if len(sys.argv) > 1 else "kubelet-replay", sys.version_info[0],
        sys.version_info[1]))
# by its path Python would look next to this file, and with -m where it was started
sys.path[0] = os.path.dirname(os.path.dirname(os.path.realpath(__file__)))
from replay_tools import tree  # noqa: E402

if __name__ == "__main__":
    sys.exit(tree.start(sys.argv[1:]))
