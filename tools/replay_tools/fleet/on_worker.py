"""What a worker of Dask is sent. It is sent by value, since a worker knows nothing of the tools before it runs."""

from __future__ import annotations

from typing import Any


def answer(tools: str, *words: Any) -> dict[str, Any]:
    """The answer of fleet.work; the folder `tools`, which has the package, is on the worker's machine under the same
    path."""
    import sys
    sys.dont_write_bytecode = True
    sys.path.insert(0, tools)
    try:
        from replay_tools.fleet import work
    except ImportError:
        raise RuntimeError(f"a worker has no folder {tools}") from None
    finally:
        sys.path.remove(tools)
    try:
        return work.answer(*words)
    except work.WorkFault as fault:
        raise RuntimeError(str(fault)) from None
