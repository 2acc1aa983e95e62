"""The console scripts of the package, as pyproject.toml names them."""

from __future__ import annotations

import sys

from replay_tools import tree


def kubelet_replay() -> int:
    return tree.start(["kubelet-replay", *sys.argv[1:]])


def kubectl_replay() -> int:
    return tree.start(["kubectl-replay", *sys.argv[1:]])


def kubectl_complete() -> int:
    return tree.start(["kubectl_complete-replay", *sys.argv[1:]])
